// Connections of a notebook that come, watch, open pages, are told of notes, and go, by the reference library.
// Usage: lives ADDRESS CLIENTS SECONDS, where ADDRESS is HOST:PORT and nobody else adds notes.
//
// CLIENTS connections are there at a time, each for some 20 seconds. Each watches, keeps a page, asks for the page of the next note and calls it
// early, and opens and reads a page each few seconds. Before it goes it waits for all notes that were added by then. There is a note each 2 seconds.
// A connection must be told of each note that is added while it watches, once and in order, and each page must have its text. One that is refused,
// as there are too many, comes again. 60 times there is a line of what happened, with the microseconds of the median call since the last line, of
// the 99th in a hundred and of the last one, and the same of notes that were told. A call is two: a page is opened and read in one go.
#include "notebook.capnp.h"
#include <capnp/ez-rpc.h>
#include <kj/async-io.h>
#include <kj/debug.h>
#include <kj/timer.h>
#include <stdio.h>
#include <stdlib.h>
#include <algorithm>
#include <chrono>
#include <random>
#include <vector>

static constexpr int LIFE = 20'000, PAUSE = 4'000, BETWEEN_NOTES = 2'000;  // milliseconds

using Clock = std::chrono::steady_clock;

static long long now() { return std::chrono::duration_cast<std::chrono::microseconds>(Clock::now().time_since_epoch()).count(); }

// Microseconds that things took.
class Times {
  std::vector<long long> all;

 public:
  void add(long long since) { all.push_back(now() - since); }

  kj::String take() {
    std::sort(all.begin(), all.end());
    auto at = [&](size_t part) { return all.empty() ? 0 : all[(all.size() - 1) * part / 100]; };
    auto said = kj::str(at(50), " ", at(99), " ", at(100));
    all.clear();
    return said;
  }
};

// What all connections share.
struct All {
  kj::Timer& timer;
  kj::StringPtr address;
  kj::TimePoint end;
  std::mt19937 random;
  size_t sent = 0, added = 0;  // notes that were sent, and those whose number came back
  size_t came = 0, refused = 0, went = 0, read = 0, promised = 0, told = 0;
  Times calls, notes;
  kj::Own<kj::PromiseFulfiller<void>> fault;

  bool is_over() { return timer.now() >= end; }

  // A pause of this many milliseconds in the mean.
  kj::Promise<void> pause(uint32_t mean) { return timer.afterDelay((mean / 2 + random() % mean) * kj::MILLISECONDS); }
};

// The text of a note: its number, and when it was sent.
static size_t number_of(kj::StringPtr text) { return strtoull(text.cStr(), nullptr, 10); }

class Life {
  All& all;
  capnp::EzRpcClient client{all.address};
  Notebook::Client notebook = client.getMain<Notebook>();
  kj::Maybe<Page::Client> kept;
  size_t next = 0;        // the note of which it is to be told, or that one at the latest while none came
  size_t heard = 0;       // notes of which it was told
  size_t wanted = 0;      // what `next` is to come to
  kj::Maybe<kj::Own<kj::PromiseFulfiller<void>>> enough;
  uint32_t turns = LIFE / PAUSE / 2 + all.random() % (LIFE / PAUSE);

  class Told final : public Watcher::Server {
    Life& life;

   public:
    explicit Told(Life& life) : life(life) {}

    kj::Promise<void> added(AddedContext context) override {
      life.hear(context.getParams().getText());
      return kj::READY_NOW;
    }
  };

  void hear(kj::StringPtr text) {
    auto number = number_of(text);
    if (heard > 0 ? number != next : number > next) all.fault->reject(KJ_EXCEPTION(FAILED, "a note was missed, or told twice", number, next));
    next = number + 1;
    heard++;
    all.told++;
    all.notes.add(strtoll(strchr(text.cStr(), ' '), nullptr, 10));
    if (next < wanted) return;
    KJ_IF_MAYBE (it, enough) (*it)->fulfill();
  }

  kj::Promise<void> watch() {
    auto request = notebook.watchRequest();
    request.setWatcher(kj::heap<Told>(*this));
    next = SIZE_MAX;  // (until the answer, it may begin with any)
    return request.send().then([this](auto&&) {
      if (heard == 0) next = all.sent;
    });
  }

  // The page of the next note is called before that note is there.
  kj::Promise<void> ask_next() {
    return notebook.nextRequest().send().getPage().readRequest().send().then([this](auto&& read) {
      KJ_REQUIRE(number_of(read.getText()) < all.sent);
      all.promised++;
    });
  }

  kj::Promise<void> keep() {
    auto request = notebook.openRequest();
    return request.send().then([this](auto&& opened) { kept = opened.getPage(); });
  }

  // Opens and reads a page in one go, and drops it.
  kj::Promise<void> turn() {
    uint32_t id = all.random() % all.added;
    auto before = now();
    auto request = notebook.openRequest();
    request.setId(id);
    return request.send().getPage().readRequest().send().then([this, id, before](auto&& read) {
      KJ_REQUIRE(number_of(read.getText()) == id, "another page", id);
      all.calls.add(before);
      all.read++;
    });
  }

  kj::Promise<void> take_turns() {
    if (turns == 0) return kj::READY_NOW;
    turns--;
    return all.pause(PAUSE).then([this] { return turn(); }).then([this] { return take_turns(); });
  }

  kj::Promise<void> stay() {
    return keep().then([this] { return ask_next(); }).then([this] { return take_turns(); }).then([this] { return hear_all(); }).then([this] {
      all.went++;
    });
  }

  // It was told of all notes that were added by now.
  kj::Promise<void> hear_all() {
    wanted = all.added;
    if (next >= wanted) return kj::READY_NOW;
    auto pair = kj::newPromiseAndFulfiller<void>();
    enough = kj::mv(pair.fulfiller);
    return kj::mv(pair.promise);
  }

 public:
  explicit Life(All& all) : all(all) { all.came++; }

  kj::Promise<void> live() {
    return watch().then([this] { return stay(); }, [this](kj::Exception&&) {
      all.refused++;
      return all.pause(PAUSE);
    });
  }
};

// One connection after another.
static kj::Promise<void> live_on(All& all) {
  if (all.is_over()) return kj::READY_NOW;
  auto life = kj::heap<Life>(all);
  auto lived = life->live();
  return lived.attach(kj::mv(life)).then([&all] { return live_on(all); });
}

static kj::Promise<void> add_notes(All& all, Notebook::Client notebook) {
  auto request = notebook.addRequest();
  request.setText(kj::str(all.sent++, " ", now()));
  return request.send().then([&all, notebook](auto&& added) mutable {
    KJ_REQUIRE(added.getId() == all.added++);
    return all.pause(BETWEEN_NOTES).then([&all, notebook]() mutable { return add_notes(all, kj::mv(notebook)); });
  });
}

static kj::Promise<void> report(All& all, int seconds, int line) {
  return all.timer.afterDelay(seconds * kj::SECONDS / 60).then([&all, seconds, line]() -> kj::Promise<void> {
    printf("%d s: %zu came, %zu refused, %zu went, %zu pages read, %zu promised, %zu notes told %zu times; us a call %s, a note %s\n", line * seconds / 60, all.came,
           all.refused, all.went, all.read, all.promised, all.added, all.told, all.calls.take().cStr(), all.notes.take().cStr());
    return line < 60 ? report(all, seconds, line + 1) : kj::READY_NOW;
  });
}

int main(int argc, char** argv) {
  if (argc != 4) return 2;
  setvbuf(stdout, nullptr, _IOLBF, 0);
  int clients = atoi(argv[2]), seconds = atoi(argv[3]);
  capnp::EzRpcClient client(argv[1]);
  auto& scope = client.getWaitScope();
  auto& timer = client.getIoProvider().getTimer();
  auto faulty = kj::newPromiseAndFulfiller<void>();
  All all{timer, argv[1], timer.now() + seconds * kj::SECONDS, std::mt19937(1)};
  all.fault = kj::mv(faulty.fulfiller);
  auto adding = add_notes(all, client.getMain<Notebook>());
  auto reporting = report(all, seconds, 1);
  timer.afterDelay(BETWEEN_NOTES * kj::MILLISECONDS).wait(scope);
  auto lives = kj::heapArrayBuilder<kj::Promise<void>>(clients);
  for (int at = 0; at < clients; at++) {
    auto live = timer.afterDelay(at * LIFE / clients * kj::MILLISECONDS).then([&all] { return live_on(all); });
    lives.add(live.catch_([&all](kj::Exception&& why) { all.fault->reject(kj::mv(why)); }));
  }
  auto lived = kj::joinPromises(lives.finish());
  lived.exclusiveJoin(kj::mv(adding)).exclusiveJoin(kj::mv(faulty.promise)).wait(scope);
  reporting.wait(scope);
  printf("%zu connections, %zu refused, %zu pages read, %zu promised, %zu notes told %zu times\n", all.went, all.refused, all.read, all.promised, all.added, all.told);
}
