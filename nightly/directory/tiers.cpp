// The clerk and the pool of more_examples, with the reference library at every end.
//   tiers store PORT                 a store: `never` is never answered, `fails` fails, `given up` says how many calls were given up
//   tiers clerk CLERK STORE PID      clients of the clerk, whose store that is; PID is the clerk's process
//   tiers gone CLERK                 a client of a clerk whose store is gone
//   tiers pool POOL PID              workers and clients of the pool, each over a connection of its own
#include "directory.capnp.h"
#include "store.capnp.h"
#include <capnp/ez-rpc.h>
#include <kj/async-io.h>
#include <kj/timer.h>
#include <stdio.h>
#include <stdlib.h>
#include <string.h>
#include <map>
#include <string>
#include <vector>

#define EXPECT(what) do { if (!(what)) { fprintf(stderr, "failed at line %d: %s\n", __LINE__, #what); exit(1); } } while (0)

static int finds() { return getenv("FINDS") ? atoi(getenv("FINDS")) : 10000; }

static long rss(const char* pid) {
  FILE* file = fopen((std::string("/proc/") + pid + "/status").c_str(), "r");
  KJ_REQUIRE(file != nullptr);
  char line[256];
  long kb = -1;
  while (fgets(line, sizeof line, file)) if (sscanf(line, "VmRSS: %ld", &kb) == 1) break;
  fclose(file);
  return kb;
}

class Shelf final : public Store::Server {
  std::map<std::string, std::string> texts;
  long given_up = 0;

 public:
  kj::Promise<void> put(PutContext context) override {
    texts[context.getParams().getKey().cStr()] = context.getParams().getValue().cStr();
    return kj::READY_NOW;
  }
  kj::Promise<void> get(GetContext context) override {
    std::string key = context.getParams().getKey().cStr();
    if (key == "never") {
      context.allowCancellation();
      return kj::Promise<void>(kj::NEVER_DONE).attach(kj::defer([this]() { given_up++; }));
    }
    if (key == "fails") KJ_FAIL_REQUIRE("it fails");
    context.getResults().setValue(key == "given up" ? std::to_string(given_up) : texts[key]);
    return kj::READY_NOW;
  }
};

static auto say(Member::Client& to, std::string text) {
  auto request = to.sayRequest();
  request.setText(text.c_str());
  return request.send();
}

template <typename P>
static std::string outcome(P promise, kj::WaitScope& scope) {
  return promise.then([](auto&& said) -> std::string { return said.getHeard().cStr(); },
                      [](kj::Exception&& e) -> std::string { return std::string(kj::str(e.getType()).cStr()) + ": " + e.getDescription().cStr(); })
      .wait(scope);
}

static std::string got(Store::Client& store, const char* key, kj::WaitScope& scope) {
  auto request = store.getRequest();
  request.setKey(key);
  return request.send().wait(scope).getValue().cStr();
}

// Until so many calls were given up.
static void wait_for(Store::Client& store, std::string count, capnp::EzRpcClient& client) {
  std::string last;
  for (int tries = 0; tries < 200; tries++) {
    last = got(store, "given up", client.getWaitScope());
    if (last == count) return;
    client.getIoProvider().getTimer().afterDelay(50 * kj::MILLISECONDS).wait(client.getWaitScope());
  }
  fprintf(stderr, "%s calls were given up, not %s\n", last.c_str(), count.c_str());
  exit(1);
}

static void clerk(int port, int storing, const char* pid) {
  capnp::EzRpcClient own("127.0.0.1", port), other("127.0.0.1", port), at_store("127.0.0.1", storing);
  auto& scope = own.getWaitScope();
  auto clerk = own.getMain<Member>(), second = other.getMain<Member>();
  auto store = at_store.getMain<Store>();
  for (int at = 0; at < 100; at++) {
    auto request = store.putRequest();
    request.setKey("k" + std::to_string(at));
    request.setValue("v" + std::to_string(at));
    request.send().wait(scope);
  }
  std::vector<capnp::RemotePromise<Member::SayResults>> all;
  for (int at = 0; at < 100; at++) all.push_back(say(at % 2 ? clerk : second, "k" + std::to_string(at)));
  for (int at = 0; at < 100; at++) EXPECT(outcome(kj::mv(all[at]), scope) == "v" + std::to_string(at));
  EXPECT(outcome(say(clerk, "nothing"), scope) == "");
  EXPECT(outcome(say(clerk, "fails"), scope).find("it fails") != std::string::npos);
  {
    auto kept = say(clerk, "never");
    std::vector<capnp::RemotePromise<Member::SayResults>> never;
    for (int at = 0; at < 10; at++) never.push_back(say(clerk, "never"));
    // (What is given up before the store is asked, it isn't asked at all.)
    EXPECT(outcome(say(clerk, "k7"), scope) == "v7");
    never.clear();
    {
      // One that goes in a call.
      capnp::EzRpcClient third("127.0.0.1", port);
      auto to = third.getMain<Member>();
      auto never = say(to, "never");
      EXPECT(outcome(say(to, "k8"), scope) == "v8");
    }
    wait_for(store, "11", own);
  }
  EXPECT(outcome(say(clerk, "k9"), scope) == "v9");
  wait_for(store, "12", own);
  long before = 0;
  for (int at = 0; at < finds(); at++) {
    EXPECT(outcome(say(clerk, "k3"), scope) == "v3");
    if (at == finds() / 10) before = rss(pid);
  }
  long after = rss(pid);
  EXPECT(after <= before + before / 10 + 256);
  printf("100 answers, each its call's; a failure is passed on, and 12 calls that were given up; %d calls: %ld to %ld kB\n", finds(), before, after);
}

static void gone(int port) {
  capnp::EzRpcClient own("127.0.0.1", port);
  auto clerk = own.getMain<Member>();
  EXPECT(outcome(say(clerk, "k1"), own.getWaitScope()) == "disconnected: remote exception: the object's connection ended");
  printf("its store is gone: the call fails as disconnected\n");
}

class Worker final : public Member::Server {
  int number;
  std::vector<kj::Own<kj::PromiseFulfiller<void>>>& waits;

 public:
  Worker(int number, std::vector<kj::Own<kj::PromiseFulfiller<void>>>& waits) : number(number), waits(waits) {}
  kj::Promise<void> say(SayContext context) override {
    context.getResults().setHeard(std::to_string(number));
    if (context.getParams().getText() != "wait") return kj::READY_NOW;
    auto paf = kj::newPromiseAndFulfiller<void>();
    waits.push_back(kj::mv(paf.fulfiller));
    return kj::mv(paf.promise);
  }
};

struct Joined {
  std::vector<kj::Own<kj::PromiseFulfiller<void>>> waits;
  capnp::EzRpcClient client;
  Joined(int port, int number) : client("127.0.0.1", port) {
    auto request = client.getMain<Directory>().joinRequest();
    request.setName("work");
    request.setMember(kj::heap<Worker>(number, waits));
    request.send().wait(client.getWaitScope());
  }
};

static auto next(Directory::Client& pool, std::string text) {
  auto found = pool.findRequest().send().getMember();
  return say(found, text);
}

static void pool(int port, const char* pid) {
  capnp::EzRpcClient own("127.0.0.1", port);
  auto& scope = own.getWaitScope();
  auto& timer = own.getIoProvider().getTimer();
  auto pool = own.getMain<Directory>();
  EXPECT(outcome(next(pool, "work"), scope).find("there is no worker") != std::string::npos);
  std::vector<kj::Own<Joined>> all;
  for (int number = 0; number < 3; number++) all.push_back(kj::heap<Joined>(port, number));
  std::vector<capnp::RemotePromise<Member::SayResults>> calls;
  for (int at = 0; at < 30; at++) calls.push_back(next(pool, "work"));
  for (int at = 0; at < 30; at++) EXPECT(outcome(kj::mv(calls[at]), scope) == std::to_string(at % 3));
  calls.clear();
  for (int at = 0; at < 30; at++) calls.push_back(next(pool, "wait"));
  while (all[0]->waits.size() + all[1]->waits.size() + all[2]->waits.size() < 30) timer.afterDelay(kj::MILLISECONDS).wait(scope);
  all[1] = nullptr;
  for (int at = 1; at < 30; at += 3) EXPECT(outcome(kj::mv(calls[at]), scope).substr(0, 13) == "disconnected:");
  for (int of : {0, 2}) for (auto& it : all[of]->waits) it->fulfill();
  for (int at = 0; at < 30; at++) if (at % 3 != 1) EXPECT(outcome(kj::mv(calls[at]), scope) == std::to_string(at % 3));
  for (int at = 0; at < 10; at++) EXPECT(outcome(next(pool, "work"), scope) == (at % 2 ? "2" : "0"));
  all[1] = kj::heap<Joined>(port, 1);
  for (int at = 0; at < 9; at++) EXPECT(outcome(next(pool, "work"), scope) == std::to_string(std::vector<int>{0, 2, 1}[at % 3]));
  long before = 0;
  for (int at = 0; at < finds(); at++) {
    EXPECT(outcome(next(pool, "work"), scope) != "");
    if (at == finds() / 10) before = rss(pid);
  }
  timer.afterDelay(1500 * kj::MILLISECONDS).wait(scope);
  long after = rss(pid);
  EXPECT(after <= before + before / 10 + 256);
  printf("calls go to three workers in turn; of 30 calls those 10 fail whose worker died; %d calls: %ld to %ld kB\n", finds(), before, after);
}

int main(int count, char** words) {
  KJ_REQUIRE(count >= 3, "usage: tiers store PORT | clerk CLERK STORE PID | gone CLERK | pool POOL PID");
  int port = atoi(words[2]);
  if (!strcmp(words[1], "store")) {
    capnp::EzRpcServer server(kj::heap<Shelf>(), "127.0.0.1", port);
    kj::NEVER_DONE.wait(server.getWaitScope());
  }
  if (!strcmp(words[1], "clerk")) clerk(port, atoi(words[3]), words[4]);
  if (!strcmp(words[1], "gone")) gone(port);
  if (!strcmp(words[1], "pool")) pool(port, words[3]);
}
