// Clients of a notebook by the reference library. Usage: client WORD ADDRESS COUNT [..], with ADDRESS as HOST:PORT or unix:PATH, and the words
//   pages ADDRESS ROUNDS: adds a note, and opens, reads and drops a page ROUNDS times; then keeps three pages, and goes
//   next ADDRESS ROUNDS: asks for the page of the next note ROUNDS times, calls it before and after that note is added, and drops it
//   hold ADDRESS PAGES: opens so many pages and keeps them all, and then drops one after another
//   watch ADDRESS NOTES: watches, and then is silent until it was told of NOTES notes
//   add ADDRESS NOTES MS: adds NOTES notes, one each MS milliseconds; the text of each is the time, in microseconds
//   many ADDRESS CLIENTS NOTES: CLIENTS connections that each watch and keep a page. One adds NOTES notes, of which all are told, and all go
#include "notebook.capnp.h"
#include <capnp/ez-rpc.h>
#include <kj/async-io.h>
#include <kj/timer.h>
#include <kj/vector.h>
#include <stdio.h>
#include <stdlib.h>
#include <algorithm>
#include <chrono>
#include <string>
#include <vector>

typedef std::chrono::steady_clock Clock;

static long long now() {
  return std::chrono::duration_cast<std::chrono::microseconds>(std::chrono::system_clock::now().time_since_epoch()).count();
}

static long long since(Clock::time_point before) {
  return std::chrono::duration_cast<std::chrono::nanoseconds>(Clock::now() - before).count();
}

// How late each note was heard of, in microseconds.
struct Heard {
  std::vector<long long> late;
  size_t wanted;
  kj::Own<kj::PromiseFulfiller<void>> enough;

  void hear(kj::StringPtr text) {
    late.push_back(now() - strtoll(text.cStr(), nullptr, 10));
    if (late.size() == wanted) enough->fulfill();
  }

  void print() {
    std::sort(late.begin(), late.end());
    printf("told %zu times; after %lld us, and at the latest %lld us\n", late.size(), late[late.size() / 2], late.back());
  }
};

class WatcherServer final : public Watcher::Server {
  Heard& heard;

 public:
  explicit WatcherServer(Heard& heard) : heard(heard) {}

  kj::Promise<void> added(AddedContext context) override {
    heard.hear(context.getParams().getText());
    return kj::READY_NOW;
  }
};

static auto watch(Notebook::Client& notebook, Heard& heard) {
  auto request = notebook.watchRequest();
  request.setWatcher(kj::heap<WatcherServer>(heard));
  return request.send();
}

static auto open(Notebook::Client& notebook, uint32_t id) {
  auto request = notebook.openRequest();
  request.setId(id);
  return request.send();
}

static uint32_t add(Notebook::Client& notebook, kj::StringPtr text, kj::WaitScope& scope) {
  auto request = notebook.addRequest();
  request.setText(text);
  return request.send().wait(scope).getId();
}

static void add_times(capnp::EzRpcClient& client, Notebook::Client& notebook, int notes, int pause) {
  auto& timer = client.getIoProvider().getTimer();
  for (int at = 0; at < notes; at++) {
    timer.afterDelay(pause * kj::MILLISECONDS).wait(client.getWaitScope());
    add(notebook, kj::str(now()), client.getWaitScope());
  }
}

// Opens and reads a page in one round trip, and drops it.
static bool turn(Notebook::Client& notebook, uint32_t id, kj::StringPtr text, kj::WaitScope& scope) {
  auto opened = open(notebook, id);
  return opened.getPage().readRequest().send().wait(scope).getText() == text;
}

static void pages(capnp::EzRpcClient& client, int rounds) {
  auto& scope = client.getWaitScope();
  auto notebook = client.getMain<Notebook>();
  auto id = add(notebook, "hello", scope);
  int right = 0;
  std::string times;
  for (int tenth = 0; tenth < 10; tenth++) {
    auto before = Clock::now();
    for (int at = 0; at < rounds / 10; at++) right += turn(notebook, id, "hello", scope);
    times += " " + std::to_string(since(before) / (rounds / 10));
  }
  printf("%d pages were right; ns a page, by tenths:%s\n", right, times.c_str());
  kj::Vector<Page::Client> kept;
  for (int at = 0; at < 3; at++) kept.add(open(notebook, id).wait(scope).getPage());
  for (auto& each : kept) printf("kept: %s\n", each.readRequest().send().wait(scope).getText().cStr());
}

// Asks for the page of the next note, reads it, adds that note, and reads it again once it is there. Before the note is added the client
// waits for the promise of the page in every other round: else all leaves in one go.
static bool promised(Notebook::Client& notebook, bool waits, kj::StringPtr text, kj::WaitScope& scope) {
  auto asked = notebook.nextRequest().send();
  Page::Client page = asked.getPage();
  if (waits) page = asked.wait(scope).getPage();
  auto early = page.readRequest().send();
  add(notebook, text, scope);
  if (early.wait(scope).getText() != text) return false;
  page.whenResolved().wait(scope);
  return page.readRequest().send().wait(scope).getText() == text;
}

static void next(capnp::EzRpcClient& client, int rounds) {
  auto notebook = client.getMain<Notebook>();
  int right = 0;
  for (int at = 0; at < rounds; at++) right += promised(notebook, at % 2 == 0, kj::str("note ", at), client.getWaitScope());
  printf("%d promised pages were right\n", right);
}

// Opens so many pages, keeps them, and drops them; each tenth of them ends with a call that is answered.
static void hold(capnp::EzRpcClient& client, size_t count) {
  auto& scope = client.getWaitScope();
  auto notebook = client.getMain<Notebook>();
  auto id = add(notebook, "hello", scope);
  kj::Vector<Page::Client> kept;
  std::string opened, dropped;
  while (kept.size() < count) {
    auto before = Clock::now();
    for (size_t at = 0; at < count / 10; at++) kept.add(open(notebook, id).wait(scope).getPage());
    opened += " " + std::to_string(since(before) / (count / 10));
  }
  while (kept.size() > 0) {
    auto before = Clock::now();
    for (size_t at = 0; at < count / 10; at++) kept.removeLast();
    if (!turn(notebook, id, "hello", scope)) return;
    dropped += " " + std::to_string(since(before) / (count / 10));
  }
  printf("ns a page, opened and kept, by tenths:%s\nns a page, dropped, by tenths:%s\n", opened.c_str(), dropped.c_str());
}

static void watches(capnp::EzRpcClient& client, size_t notes) {
  auto notebook = client.getMain<Notebook>();
  auto told = kj::newPromiseAndFulfiller<void>();
  Heard heard{{}, notes, kj::mv(told.fulfiller)};
  watch(notebook, heard).wait(client.getWaitScope());
  printf("watching\n");
  told.promise.wait(client.getWaitScope());
  heard.print();
}

struct One {
  kj::Own<capnp::EzRpcClient> client;
  Notebook::Client notebook;
  kj::Maybe<Page::Client> kept;
};

static void many(kj::StringPtr address, size_t clients, size_t notes) {
  auto told = kj::newPromiseAndFulfiller<void>();
  kj::Vector<One> all;
  Heard heard{{}, clients * notes, kj::mv(told.fulfiller)};
  for (size_t at = 0; at < clients; at++) {
    auto client = kj::heap<capnp::EzRpcClient>(address);
    auto notebook = client->getMain<Notebook>();
    all.add(One{kj::mv(client), kj::mv(notebook), nullptr});
  }
  auto& first = all[0];
  auto& scope = first.client->getWaitScope();
  add(first.notebook, "hello", scope);
  kj::Vector<kj::Promise<void>> ready;
  for (auto& each : all) {
    ready.add(watch(each.notebook, heard).ignoreResult());
    ready.add(open(each.notebook, 0).then([&each](auto&& opened) { each.kept = opened.getPage(); }));
  }
  kj::joinPromises(ready.releaseAsArray()).wait(scope);
  printf("%zu watch\n", clients);
  add_times(*first.client, first.notebook, notes, 50);
  told.promise.wait(scope);
  heard.print();
}

int main(int argc, char** argv) {
  if (argc < 4) return 2;
  setvbuf(stdout, nullptr, _IOLBF, 0);
  std::string word = argv[1];
  int count = atoi(argv[3]), last = argc > 4 ? atoi(argv[4]) : 0;
  if (word == "many") {
    many(argv[2], count, last);
    return 0;
  }
  capnp::EzRpcClient client(argv[2]);
  if (word == "pages") pages(client, count);
  else if (word == "next") next(client, count);
  else if (word == "hold") hold(client, count);
  else if (word == "watch") watches(client, count);
  else if (word == "add") {
    auto notebook = client.getMain<Notebook>();
    add_times(client, notebook, count, last);
  } else return 2;
}
