// Members of a chat by the reference library, each over a connection of its own. Usage: client PORT SILENT LINES
//
// SILENT members join, and one that says LINES lines, each once all have heard the one before. Each member must hear each line once. Then
// every other silent member goes, half of those by dropping its member alone, and those that stay hear one line more, and no other does.
// It prints how long it took until all had heard a line: the median, and the latest.
#include "chat.capnp.h"
#include <capnp/ez-rpc.h>
#include <kj/async-io.h>
#include <kj/timer.h>
#include <kj/vector.h>
#include <stdio.h>
#include <stdlib.h>
#include <algorithm>
#include <chrono>
#include <vector>

typedef std::chrono::steady_clock Clock;

// The line that was said last, and how many have yet to hear it.
struct Line {
  size_t number = 0, left = 0;
  kj::Own<kj::PromiseFulfiller<void>> heard;
};

class Ear final : public Listener::Server {
  Line& line;
  size_t number = 0;  // of the line that it heard last

 public:
  explicit Ear(Line& line) : line(line) {}

  kj::Promise<void> heard(HeardContext context) override {
    auto params = context.getParams();
    auto is_right = params.getName() == "talker" && params.getText() == kj::str(line.number) && ++number == line.number && line.left > 0;
    if (!is_right) {
      fprintf(stderr, "heard %s of %s\n", params.getText().cStr(), params.getName().cStr());
      exit(1);
    }
    if (--line.left == 0) line.heard->fulfill();
    return kj::READY_NOW;
  }
};

struct One {
  kj::Own<capnp::EzRpcClient> client;
  kj::Maybe<Member::Client> member;
};

static One join(int port, kj::StringPtr name, Line& line) {
  auto client = kj::heap<capnp::EzRpcClient>("127.0.0.1", port);
  auto request = client->getMain<Chat>().joinRequest();
  request.setName(name);
  request.setListener(kj::heap<Ear>(line));
  auto member = request.send().getMember();
  return One{kj::mv(client), kj::mv(member)};
}

// Says the next line, which so many hear. Returns the microseconds until all had.
static long long say(One& talker, Line& line, size_t members) {
  auto heard = kj::newPromiseAndFulfiller<void>();
  line.number++;
  line.left = members;
  line.heard = kj::mv(heard.fulfiller);
  auto request = KJ_ASSERT_NONNULL(talker.member).sayRequest();
  request.setText(kj::str(line.number));
  auto before = Clock::now();
  auto& scope = talker.client->getWaitScope();
  request.send().wait(scope);
  heard.promise.wait(scope);
  return std::chrono::duration_cast<std::chrono::microseconds>(Clock::now() - before).count();
}

int main(int count, char** words) {
  KJ_REQUIRE(count == 4, "usage: client PORT SILENT LINES");
  int port = atoi(words[1]), silent = atoi(words[2]), lines = atoi(words[3]);
  Line line;
  kj::Vector<One> all;
  for (int at = 0; at < silent; at++) all.add(join(port, "silent", line));
  // Whoever is answered has joined.
  auto& scope = all[0].client->getWaitScope();
  for (auto& one : all) KJ_ASSERT_NONNULL(one.member).whenResolved().wait(scope);
  auto talker = join(port, "talker", line);
  KJ_ASSERT_NONNULL(talker.member).whenResolved().wait(scope);
  std::vector<long long> times;
  for (int at = 0; at < lines; at++) times.push_back(say(talker, line, silent + 1));
  std::sort(times.begin(), times.end());
  printf("all %d heard; after %lld us, and at the latest %lld us\n", silent + 1, times[times.size() / 2], times.back());

  size_t gone = 0;
  for (int at = 0; at < silent; at += 2, gone++) {
    all[at].member = nullptr;
    if (at % 4 == 2) all[at].client = nullptr;
  }
  // What nothing refers to any more is dropped within two seconds.
  talker.client->getIoProvider().getTimer().afterDelay(3 * kj::SECONDS).wait(scope);
  auto late = say(talker, line, silent + 1 - gone);
  talker.client->getIoProvider().getTimer().afterDelay(500 * kj::MILLISECONDS).wait(scope);
  printf("%zu went, and those that stay heard after %lld us\n", gone, late);
}
