// Members of a directory by the reference library, each over a connection of its own.
// PID is that of the directory's process.
//   members PORT test PID                  two clients and more in one process: each test prints a line, or it fails
//   members PORT stress PID SEED TURNS     some that do things at random
//   members PORT cancel PID COUNT          calls that are never answered, and given up
//   members PORT flood NAME PID COUNT      calls of NAME, whose process is stopped
//   members PORT told                      who is told that calls are given up
//   members PORT loop PID                  two promises that come to one another
//   members PORT serve NAME                joins and serves
//   members PORT time NAME COUNT           finds NAME, and times calls of it: one by one, and 64 at once
//   members PORT load NAME COUNT WINDOW    finds NAME, and calls it, so many at once
//   members PORT chain NAME DEPTH          times calls on what calls give
#include "directory.capnp.h"
#include <capnp/ez-rpc.h>
#include <capnp/capability.h>
#include <kj/async-io.h>
#include <kj/timer.h>
#include <stdio.h>
#include <stdlib.h>
#include <string.h>
#include <algorithm>
#include <chrono>
#include <deque>
#include <map>
#include <string>
#include <vector>

typedef std::chrono::steady_clock Clock;
static double since(Clock::time_point begin) { return std::chrono::duration<double>(Clock::now() - begin).count(); }

// What members of one client share.
struct Mine {
  capnp::CapabilityServerSet<Member> set;
  long next = 0;  // the number that is to come
  long told = 0;  // the calls that it worked on until they were given up
  kj::Maybe<Member::Client> kept;
};

class Me final : public Member::Server {
  Mine& mine;
  std::string name;

 public:
  Me(Mine& mine, std::string name) : mine(mine), name(name) {}

  kj::Promise<void> say(SayContext context) override {
    auto params = context.getParams();
    kj::StringPtr text = params.getText();
    if (text == "call back") {
      auto request = params.getBack().sayRequest();
      request.setText(kj::str("back from ", name.c_str()));
      return request.send().then([this, context](auto results) mutable {
        context.getResults().setHeard(kj::str(name.c_str(), " heard: ", results.getHeard()));
        context.getResults().setOther(mine.set.add(kj::heap<Me>(mine, name + "'s other")));
      });
    }
    if (text == "never") return kj::NEVER_DONE;
    if (text == "until told") {
      context.allowCancellation();
      return kj::Promise<void>(kj::NEVER_DONE).attach(kj::defer([&mine = mine]() { mine.told++; }));
    }
    if (text == "keep") {
      mine.kept = params.getBack();
      return kj::READY_NOW;
    }
    if (text == "is it mine") {
      return mine.set.getLocalServer(kj::heap<Member::Client>(params.getBack()).operator*()).then([context](kj::Maybe<Member::Server&> it) mutable {
        context.getResults().setHeard(it == nullptr ? "no" : "yes");
      });
    }
    if (text == "give back") {
      context.getResults().setOther(params.getBack());
      return kj::READY_NOW;
    }
    if (text.startsWith("n ")) {
      long number = atol(text.cStr() + 2);
      KJ_REQUIRE(number == mine.next, "out of order", number, mine.next);
      mine.next++;
      context.getResults().setHeard(text);
      return kj::READY_NOW;
    }
    context.getResults().setHeard(kj::str(name.c_str(), " hears ", text));
    return kj::READY_NOW;
  }
};

struct One {
  kj::Own<capnp::EzRpcClient> client;
  kj::Own<Mine> mine = kj::heap<Mine>();
  Directory::Client hub;
  explicit One(int port) : client(kj::heap<capnp::EzRpcClient>("127.0.0.1", port)), hub(client->getMain<Directory>()) {}
  ~One() noexcept(false) {}
  kj::WaitScope& scope() { return client->getWaitScope(); }

  Member::Client member(std::string name) { return mine->set.add(kj::heap<Me>(*mine, name)); }
  Member::Client join(std::string name) {
    auto it = member(name);
    auto request = hub.joinRequest();
    request.setName(name.c_str());
    request.setMember(it);
    request.send().wait(scope());
    return it;
  }
  Member::Client find(std::string name) {
    auto request = hub.findRequest();
    request.setName(name.c_str());
    return request.send().getMember();
  }
};

static auto say(Member::Client to, kj::StringPtr text) {
  auto request = to.sayRequest();
  request.setText(text);
  return request.send();
}
static auto say(Member::Client to, kj::StringPtr text, Member::Client back) {
  auto request = to.sayRequest();
  request.setText(text);
  request.setBack(back);
  return request.send();
}
static std::string heard(One& one, Member::Client to, kj::StringPtr text) { return say(to, text).wait(one.scope()).getHeard().cStr(); }

static long rss(const char* pid) {
  FILE* file = fopen((std::string("/proc/") + pid + "/status").c_str(), "r");
  KJ_REQUIRE(file != nullptr);
  char line[256];
  long kb = -1;
  while (fgets(line, sizeof line, file)) if (sscanf(line, "VmRSS: %ld", &kb) == 1) break;
  fclose(file);
  return kb;
}

template <typename P>
static std::string failure(One& one, P promise) {
  return promise.then([](auto&&) -> std::string { return "no failure"; },
                      [](kj::Exception&& e) -> std::string { return std::string(kj::str(e.getType()).cStr()) + ": " + e.getDescription().cStr(); })
      .wait(one.scope());
}

#define EXPECT(what) do { if (!(what)) { fprintf(stderr, "failed at line %d: %s\n", __LINE__, #what); exit(1); } } while (0)

static void test(int port, const char* pid) {
  One b(port);
  auto& scope = b.scope();
  auto& timer = b.client->getIoProvider().getTimer();
  auto a = kj::heap<One>(port);
  auto a_member = a->join("a");
  auto b_member = b.member("b");
  {
    // All in one go: finds, calls with a member of its own, which is called back, and calls what that call returns.
    auto found = b.find("a");
    auto said = say(found, "call back", b_member);
    auto other = say(said.getOther(), "hello");
    auto results = said.wait(scope);
    EXPECT(results.getHeard() == "a heard: b hears back from a");
    EXPECT(other.wait(scope).getHeard() == "a's other hears hello");
    EXPECT(heard(b, results.getOther(), "again") == "a's other hears again");
    printf("called, called back, called a returned capability\n");
  }
  {
    auto found = b.find("a");
    std::deque<kj::Promise<void>> all;
    for (long at = 0; at < 1000; at++) all.push_back(say(found, kj::str("n ", at)).ignoreResult());
    for (auto& it : all) it.wait(scope);
    EXPECT(a->mine->next == 1000);
    printf("1000 calls in order\n");
  }
  {
    auto second = a->member("a2");
    auto request = a->hub.joinRequest();
    request.setName("a2");
    request.setMember(second);
    request.send().wait(scope);
    auto one = b.find("a"), two = b.find("a2");
    if (!getenv("UNRESOLVED")) {
      one.whenResolved().wait(scope);
      two.whenResolved().wait(scope);
    }
    std::deque<kj::Promise<void>> all;
    for (long at = 1000; at < 2000; at++) all.push_back(say(at % 3 ? one : two, kj::str("n ", at)).ignoreResult());
    for (auto& it : all) it.wait(scope);
    EXPECT(a->mine->next == 2000);
    printf("1000 calls on two references of one pair in order\n");
  }
  {
    auto found = b.find("a");
    auto early = say(found, "is it mine", found).wait(scope);
    found.whenResolved().wait(scope);
    EXPECT(std::string(say(found, "is it mine", found).wait(scope).getHeard().cStr()) == "yes");
    printf("A's own object, passed to it before it was resolved, is unwrapped: %s\n", early.getHeard().cStr());
    // What B passes and gets back is its own object again.
    auto given = say(found, "give back", b_member).wait(scope).getOther();
    auto server = b.mine->set.getLocalServer(given).wait(scope);
    EXPECT(server != nullptr);
    // A finds its own member: it is unwrapped, and calls on the promise stay before those after it.
    auto own = a->find("a");
    std::deque<kj::Promise<void>> all;
    for (long at = 2000; at < 2100; at++) all.push_back(say(own, kj::str("n ", at)).ignoreResult());
    own.whenResolved().wait(scope);
    for (long at = 2100; at < 2200; at++) all.push_back(say(own, kj::str("n ", at)).ignoreResult());
    for (auto& it : all) it.wait(scope);
    EXPECT(a->mine->next == 2200);
    EXPECT(a->mine->set.getLocalServer(own).wait(scope) != nullptr);
    printf("own objects come back as such, and calls on them in order\n");
  }
  {
    // A third client, to which B passes what is A's.
    One c(port);
    c.join("c");
    auto to_c = b.find("c");
    EXPECT(std::string(say(to_c, "call back", b.find("a")).wait(scope).getHeard().cStr()) == "c heard: a hears back from c");
    printf("three clients\n");
  }
  timer.afterDelay(300 * kj::MILLISECONDS).wait(scope);
  {
    printf("a client that went: %s\n", failure(b, say(b.find("c"), "hello")).c_str());
  }
  {
    // A member whose promise comes later, to what is another client's.
    auto paf = kj::newPromiseAndFulfiller<Member::Client>();
    Member::Client later = kj::mv(paf.promise);
    auto request = b.hub.joinRequest();
    request.setName("later");
    request.setMember(later);
    request.send().wait(scope);
    auto found = a->find("later");
    std::deque<kj::Promise<void>> all;
    for (long at = 2200; at < 2300; at++) all.push_back(say(found, kj::str("n ", at)).ignoreResult());
    timer.afterDelay(20 * kj::MILLISECONDS).wait(scope);
    EXPECT(a->mine->next == 2200);
    // (Over a gateway a find isn't answered yet for a while, and a promise that comes to that may lose order.)
    auto other = b.find("a");
    other.whenResolved().wait(scope);
    paf.fulfiller->fulfill(kj::mv(other));
    for (long at = 2300; at < 2400; at++) all.push_back(say(found, kj::str("n ", at)).ignoreResult());
    for (auto& it : all) it.wait(scope);
    EXPECT(a->mine->next == 2400);
    printf("a promise of B's that comes to an object of A's, called by A\n");
  }
  long before = 0;
  int finds = getenv("FINDS") ? atoi(getenv("FINDS")) : 10000;
  for (int at = 0; at < finds; at++) {
    auto found = b.find("a");
    auto said = say(found, "who", b.member("new"));
    said.wait(scope);
    if (at == finds / 10 - 1) before = rss(pid);
  }
  timer.afterDelay(1500 * kj::MILLISECONDS).wait(scope);
  heard(b, b.find("a"), "who");
  printf("%d times found, called and dropped: %ld kB after a tenth, %ld kB after all\n", finds, before, rss(pid));
  {
    auto found = b.find("a");
    auto never = say(found, "never");
    auto two = say(found, "never");
    say(found, "keep", b_member).wait(scope);
    say(found, "who").wait(scope);
    auto begin = Clock::now();
    EXPECT(a->mine->kept != nullptr);
    a->mine->kept = nullptr;
    a = nullptr;
    auto first = failure(b, kj::mv(never));
    printf("A died in a call: %s, after %.1f ms\n", first.c_str(), since(begin) * 1000);
    printf("  the other call: %s\n", failure(b, kj::mv(two)).c_str());
    printf("  a later call: %s\n", failure(b, say(found, "who")).c_str());
    printf("  found anew: %s\n", failure(b, say(b.find("a"), "who")).c_str());
  }
  {
    // B's own connection still serves.
    One d(port);
    d.join("d");
    EXPECT(heard(b, b.find("d"), "x") == "d hears x");
    // The caller dies, and the callee keeps what it passed.
    {
      One e(port);
      say(e.find("d"), "keep", e.member("e")).wait(scope);
      KJ_IF_MAYBE(kept, d.mine->kept) EXPECT(heard(d, *kept, "y") == "e hears y");
      auto never = say(e.find("d"), "never").ignoreResult().eagerlyEvaluate([](kj::Exception&&) {});
      timer.afterDelay(20 * kj::MILLISECONDS).wait(scope);
    }
    timer.afterDelay(100 * kj::MILLISECONDS).wait(scope);
    KJ_IF_MAYBE(kept, d.mine->kept) printf("what a caller passed that died: %s\n", failure(d, say(*kept, "y")).c_str());
    EXPECT(heard(b, b.find("d"), "x") == "d hears x");
  }
  printf("all well; the server has %ld kB\n", rss(pid));
}

static void serve(int port, std::string name) {
  One one(port);
  auto it = one.join(name);
  kj::NEVER_DONE.wait(one.scope());
}

static void load(int port, std::string name, size_t count, size_t window) {
  One one(port);
  auto found = one.find(name);
  std::deque<kj::Promise<void>> open;
  for (size_t at = 0; at < count; at++) {
    if (open.size() == window) {
      open.front().wait(one.scope());
      open.pop_front();
    }
    open.push_back(say(found, "hello").ignoreResult());
  }
  for (auto& it : open) it.wait(one.scope());
}

static void time(int port, std::string name, long count) {
  One one(port);
  auto& scope = one.scope();
  auto found = one.find(name);
  found.whenResolved().wait(scope);
  for (int at = 0; at < 200; at++) heard(one, found, "warm");
  std::vector<double> each;
  for (long at = 0; at < count; at++) {
    auto begin = Clock::now();
    heard(one, found, "hello");
    each.push_back(since(begin));
  }
  std::sort(each.begin(), each.end());
  auto finds = Clock::now();
  for (long at = 0; at < count; at++) one.find(name).whenResolved().wait(scope);
  printf("find: %.1f us each; ", since(finds) / count * 1e6);
  auto begin = Clock::now();
  std::deque<kj::Promise<void>> open;
  for (long at = 0; at < count * 10; at++) {
    if (open.size() == 64) {
      open.front().wait(scope);
      open.pop_front();
    }
    open.push_back(say(found, "hello").ignoreResult());
  }
  for (auto& it : open) it.wait(scope);
  double all = since(begin);
  auto back = one.member("b");
  auto third = Clock::now();
  for (long at = 0; at < count; at++) say(found, "call back", back).wait(scope);
  printf("one by one: median %.1f us, 99%% %.1f us; 64 at once: %.0f calls a second; with a call back: %.1f us each\n", each[each.size() / 2] * 1e6,
         each[each.size() * 99 / 100] * 1e6, count * 10 / all, since(third) / count * 1e6);
}

// Calls of a member whose client doesn't read (stop its process first), of 64 KiB each.
static void flood(int port, std::string name, const char* pid, int count) {
  One b(port);
  auto found = b.find(name);
  found.whenResolved().wait(b.scope());
  std::string text(65536, 'x');
  long failed = 0, answered = 0, most = 0;
  std::string how;
  std::deque<kj::Promise<void>> all;
  for (int at = 0; at < count; at++) {
    all.push_back(say(found, text.c_str()).then([&](auto&&) { answered++; }, [&](kj::Exception&& e) { failed++; how = e.getDescription().cStr(); }).eagerlyEvaluate(nullptr));
    if (at % 16 == 15) {
      b.client->getIoProvider().getTimer().afterDelay(5 * kj::MILLISECONDS).wait(b.scope());
      most = std::max(most, rss(pid));
    }
  }
  b.client->getIoProvider().getTimer().afterDelay(6 * kj::SECONDS).wait(b.scope());
  most = std::max(most, rss(pid));
  printf("%d calls of 64 KiB to one that doesn't read: %ld answered, %ld failed (%s); the server had %ld kB at most, has %ld kB\n", count, answered, failed, how.c_str(), most, rss(pid));
  printf("the caller's own connection: %s\n", failure(b, b.hub.findRequest().send()).c_str());
}

// Calls on what calls return, DEPTH deep, in one go.
static void chain(int port, std::string name, int depth) {
  One b(port);
  auto found = b.find(name);
  found.whenResolved().wait(b.scope());
  heard(b, found, "warm");
  for (int deep = 1; deep <= depth; deep++) {
    auto begin = Clock::now();
    Member::Client at = found;
    for (int level = 1; level < deep; level++) at = say(at, "give back", found).getOther();
    heard(b, at, "who");
    printf("%d deep: %.1f ms\n", deep, since(begin) * 1000);
  }
}

// Many clients that do things at random: find one another, call, pass on what they have, keep it, go. All calls must come to what they should.
static void stress(int port, const char* pid, unsigned seed, int turns) {
  srand(seed);
  std::vector<kj::Own<One>> all;
  std::vector<std::vector<kj::Own<Member::Client>>> has;  // what each holds
  long calls = 0, gone = 0, ended = 0, number = 0;
  std::map<std::string, long> why;
  One keeper(port);
  auto& scope = keeper.scope();
  auto begin = [&]() {
    auto one = kj::heap<One>(port);
    std::string name = "s" + std::to_string(number++ % 12);
    auto it = one->join(name);
    has.emplace_back();
    has.back().push_back(kj::heap<Member::Client>(kj::mv(it)));
    all.push_back(kj::mv(one));
  };
  bool stay = getenv("STAY") != nullptr;  // nobody goes, and all names are there: then nothing may fail
  for (int at = 0; at < (stay ? 12 : 6); at++) begin();
  for (int turn = 0; turn < turns; turn++) {
    size_t who = rand() % all.size();
    auto& mine = has[who];
    switch (rand() % 10) {
      case 0: {
        auto found = all[who]->find("s" + std::to_string(rand() % 12));
        auto promise = say(found, "who").then([&, found](auto&& r) mutable -> void { }, [&](kj::Exception&&) { gone++; });
        promise.wait(scope);
        break;
      }
      case 1: case 2: {  // takes a reference
        std::string name = "s" + std::to_string(rand() % 12);
        auto found = all[who]->find(name);
        bool good = true;
        if (rand() % 2) found.whenResolved().catch_([&](kj::Exception&&) { good = false; }).wait(scope);
        if (good) mine.push_back(kj::heap<Member::Client>(found));
        break;
      }
      case 3: if (mine.size() > 1) mine.erase(mine.begin() + 1 + rand() % (mine.size() - 1)); break;
      case 4: if (!stay && rand() % 30 == 0) {
        all.erase(all.begin() + who);
        has.erase(has.begin() + who);
        ended++;
        begin();
      } break;
      default: {  // a call that passes a reference, gets one back, and calls that
        Member::Client target = *mine[rand() % mine.size()];
        Member::Client given = *mine[rand() % mine.size()];
        Member::Client other = say(target, "give back", given).getOther();
        auto name = say(given, "who");
        auto again = say(other, "who");
        std::string one, two;
        bool bad = false;
        name.then([&](auto&& r) { one = r.getHeard().cStr(); }, [&](kj::Exception&& e) { bad = true; why[e.getDescription().cStr()]++; }).wait(scope);
        again.then([&](auto&& r) { two = r.getHeard().cStr(); }, [&](kj::Exception&& e) { bad = true; why[e.getDescription().cStr()]++; }).wait(scope);
        if (bad) { gone++; break; }
        if (one != two) { fprintf(stderr, "seed %u turn %d: %s is not %s\n", seed, turn, two.c_str(), one.c_str()); exit(1); }
        calls += 3;
        if (rand() % 4 == 0) mine.push_back(kj::heap<Member::Client>(kj::mv(other)));
      }
    }
    if (mine.size() > 40) mine.erase(mine.begin() + 1, mine.begin() + 20);
  }
  printf("seed %u: %ld calls right, %ld turns failed, %ld clients went; the server has %ld kB\n", seed, calls, gone, ended, rss(pid));
  for (auto& it : why) printf("  %ld: %s\n", it.second, it.first.substr(0, 120).c_str());
}

// Calls that are never answered, and given up at once.
static void cancel(int port, const char* pid, long count) {
  One a(port), b(port);
  auto it = a.join("a");
  auto found = b.find("a");
  found.whenResolved().wait(b.scope());
  try {
    for (long at = 0; at < count; at++) {
      { auto never = say(found, "never"); }
      if (at % 64 == 63) heard(b, found, "who");
      if ((at + 1) % (count / 5) == 0) printf("%ld calls given up: the server has %ld kB\n", at + 1, rss(pid));
    }
  } catch (kj::Exception& e) {
    printf("%s\n", e.getDescription().cStr());
  }
}

// Calls of what a client finds, in one go with that, which are given up: of another's object, and of its own.
static void told(int port) {
  One a(port), b(port);
  a.join("a");
  b.join("b");
  auto& timer = b.client->getIoProvider().getTimer();
  std::vector<capnp::RemotePromise<Member::SayResults>> all;
  for (int at = 0; at < 10; at++) for (auto name : {"a", "b"}) all.push_back(say(b.find(name), "until told"));
  timer.afterDelay(8 * kj::SECONDS).wait(b.scope());
  all.clear();
  timer.afterDelay(8 * kj::SECONDS).wait(b.scope());
  printf("of 10 calls each that were given up, another's object was told of %ld, and its caller's own of %ld\n", a.mine->told, b.mine->told);
}

// Two clients whose promises resolve to one another: a call of them goes round. It says how that ends.
static void loop(int port, const char* pid) {
  One a(port), b(port), c(port);
  auto pa = kj::newPromiseAndFulfiller<Member::Client>(), pb = kj::newPromiseAndFulfiller<Member::Client>();
  auto join = [](One& one, const char* name, kj::Promise<Member::Client> member) {
    auto request = one.hub.joinRequest();
    request.setName(name);
    request.setMember(kj::mv(member));
    request.send().wait(one.scope());
  };
  join(a, "x", kj::mv(pa.promise));
  join(b, "y", kj::mv(pb.promise));
  auto& timer = c.client->getIoProvider().getTimer();
  auto y = a.find("y"), x = b.find("x");
  timer.afterDelay(100 * kj::MILLISECONDS).wait(c.scope());
  pa.fulfiller->fulfill(kj::mv(y));
  pb.fulfiller->fulfill(kj::mv(x));
  timer.afterDelay(100 * kj::MILLISECONDS).wait(c.scope());
  auto begin = Clock::now();
  auto said = say(c.find("x"), "round").then([](auto&&) -> std::string { return "answered"; }, [](kj::Exception&& e) -> std::string { return e.getDescription().cStr(); });
  auto ended = said.then([&](std::string how) { printf("after %.1f s: %s\n", since(begin), how.c_str()); return true; })
      .exclusiveJoin(timer.afterDelay(40 * kj::SECONDS).then([]() { printf("no end in 40 s\n"); return false; }));
  auto watch = ended.fork();
  for (int at = 0; at < 5; at++) {
    timer.afterDelay(500 * kj::MILLISECONDS).wait(c.scope());
    printf("  %.1f s: the server has %ld kB\n", since(begin), rss(pid));
  }
  watch.addBranch().wait(c.scope());
  printf("  then the server has %ld kB\n", rss(pid));
}

int main(int count, char** words) {
  KJ_REQUIRE(count >= 3, "members PORT WORD ..");
  int port = atoi(words[1]);
  setvbuf(stdout, nullptr, _IOLBF, 0);
  if (!strcmp(words[2], "test")) test(port, words[3]);
  if (!strcmp(words[2], "told")) told(port);
  if (!strcmp(words[2], "loop")) loop(port, words[3]);
  if (!strcmp(words[2], "cancel")) cancel(port, words[3], atol(words[4]));
  if (!strcmp(words[2], "chain")) chain(port, words[3], atoi(words[4]));
  if (!strcmp(words[2], "stress")) stress(port, words[3], atol(words[4]), atoi(words[5]));
  if (!strcmp(words[2], "flood")) flood(port, words[3], words[4], atoi(words[5]));
  if (!strcmp(words[2], "serve")) serve(port, words[3]);
  if (!strcmp(words[2], "load")) load(port, words[3], atol(words[4]), atol(words[5]));
  if (!strcmp(words[2], "time")) time(port, words[3], atol(words[4]));
}
