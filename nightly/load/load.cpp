// Connections that come and go, with random messages, against `capnp_cli serve --at-once AT-ONCE --idle 40 PORT COUNT`.
// Usage: load PORT PID COUNT SECONDS AT-ONCE RATE SEED LINES [quiet]
//
// COUNT connections are opened over some SECONDS, AT-ONCE of them at a time, which send RATE messages a second together. Each lives for a
// while as an Asker, which tests all that comes, and ends in one of the ways of connection.hpp; with `quiet` in one of which the server says
// nothing. PID is the server. What it must have said in the end is written to LINES, in any order, and what it may have said to LINES.may.
// 60 times there is a line of what happened, with the milliseconds of the median answer since the last line, of the 99th in a hundred and of the last one.
// The status is 1 if something came that shouldn't, if something didn't come in time, or if the server's memory grew; then LINES.sent and
// LINES.came have that connection's messages, for `capnp_cli show`.
#include "connection.hpp"
#include <cstdlib>
#include <filesystem>
#include <memory>
#include <queue>

constexpr Way OFTEN[] = {ORDERLY, ORDERLY, HALF, FAULT, ABORT, HASTY, RESET, CUT, GARBAGE};  // of the first five the server says nothing

struct Plan {
  unsigned port;
  std::string server;  // its folder of /proc
  uint64_t count;
  double seconds;
  uint64_t at_once;
  double rate;
  uint64_t seed;
  std::string lines;
  bool is_quiet;
};

class Load {
  static constexpr double MESSAGES_A_TURN = 8.4;
  static constexpr size_t REPORTS = 60;

  struct Due {
    Clock::time_point when;
    std::shared_ptr<Connection> whom;
    bool operator<(const Due& other) const { return when > other.when; }
  };

  Plan plan;
  Totals totals;
  Random random;
  std::priority_queue<Due> queue;  // each connection, until the turn after its end
  uint64_t opened = 0, over = 0;
  int poll;
  Clock::time_point start = Clock::now();
  std::vector<long> memories;
  size_t files;  // of the server, before the first connection

  long memory() {
    std::ifstream status(plan.server + "/status");
    for (std::string word; status >> word;) {
      long kilobytes;
      if (word == "VmRSS:" && status >> kilobytes) return kilobytes;
    }
    KJ_FAIL_REQUIRE("the server is gone");
  }

  size_t open_files() {
    auto all = std::filesystem::directory_iterator(plan.server + "/fd");
    return std::distance(begin(all), end(all));
  }

  // The mean seconds between two turns of a connection.
  double pause() { return MESSAGES_A_TURN * plan.at_once / plan.rate; }

  Way a_way() {
    if (opened + 1 == plan.count) return ORDERLY;
    if (plan.is_quiet) return OFTEN[random.below(5)];
    if (random.one_in(200)) return random.one_in(2) ? SILENT : STOPPED;
    return OFTEN[random.below(std::size(OFTEN))];
  }

  void put_in(std::shared_ptr<Connection> whom) {
    auto wait = Seconds(pause() * (500 + random.below(1000)) / 1000);
    queue.push({Clock::now() + std::chrono::duration_cast<Clock::duration>(wait), whom});
  }

  void open() {
    double turns = plan.seconds * plan.at_once / plan.count / pause();  // of a mean life
    uint32_t asking = random.one_in(20) ? 0 : random.below(uint32_t(2 * turns) + 1);
    auto whom = std::make_shared<Connection>(totals, plan.port, plan.seed * 1000003 + opened, a_way(), asking);
    opened++;
    whom->watch(poll);
    step(*whom, &Connection::turn);
    put_in(whom);
  }

  // The last connection comes once the server has closed all others.
  bool may_open() {
    if (opened == plan.count || opened - over >= plan.at_once) return false;
    if (opened + 1 == plan.count) return over == opened && open_files() == files;
    return opened < plan.at_once || seconds_since(start) >= plan.seconds * opened / (plan.count + plan.at_once);
  }

  void step(Connection& it, void (Connection::*does)()) {
    if (it.is_over()) return;
    try {
      (it.*does)();
    } catch (...) {
      it.keep(plan.lines);
      throw;
    }
    if (it.is_over()) over++;
  }

  void round() {
    epoll_event events[256];
    int ready = epoll_wait(poll, events, 256, 5);
    for (int i = 0; i < ready; i++) step(*(Connection*)events[i].data.ptr, &Connection::take);
    // Each connection has one turn at most, so that what came is read in time on a busy machine, too.
    for (auto now = Clock::now(); !queue.empty() && queue.top().when <= now;) {
      auto whom = queue.top().whom;
      queue.pop();
      step(*whom, &Connection::turn);
      if (!whom->is_over()) put_in(whom);
    }
  }

  void report() {
    auto& took = totals.milliseconds;
    std::sort(took.begin(), took.end());
    auto at = [&](size_t part) { return took.empty() ? 0 : took[(took.size() - 1) * part / 100]; };
    memories.push_back(memory());
    printf("%.0f s: %lu open, %lu ended, %lu messages, %lu asked, %lu answered; ms %.1f %.1f %.1f; %ld kB, %zu files\n", seconds_since(start),
           opened - over, over, totals.messages, totals.asked, totals.answered, at(50), at(99), at(100), memories.back(), open_files());
    fflush(stdout);
    took.clear();
  }

  // At first buffers and tables grow to what they need, which takes some two minutes.
  void check_memory() {
    if (plan.seconds < 300) return;
    auto most = [&](size_t from, size_t to) { return *std::max_element(memories.begin() + from, memories.begin() + to); };
    auto size = memories.size();
    KJ_REQUIRE(most(size / 2, size) <= most(size / 4, size / 2) * 11 / 10 + 256, "its memory grew");
  }

 public:
  explicit Load(const Plan& plan) : plan(plan), random{std::mt19937_64(plan.seed)} {
    KJ_SYSCALL(poll = epoll_create1(0));
    totals.must.open(plan.lines);
    totals.may.open(plan.lines + ".may");
    files = open_files();
  }

  void run() {
    double limit = 2 * plan.seconds + 3 * IDLE;
    while (over < plan.count) {
      KJ_REQUIRE(seconds_since(start) < limit, "it takes too long", opened, over, open_files(), files);
      while (may_open()) open();
      round();
      if (opened + 1 < plan.count && seconds_since(start) >= plan.seconds * (memories.size() + 1) / REPORTS) report();
    }
    for (int way = 0; way < WAYS; way++) printf("%7lu ended: %s\n", totals.ended[way], NAMES[way]);
    printf("%lu connections, %lu messages, %lu questions, %lu answers\n", over, totals.messages, totals.asked, totals.answered);
    fflush(stdout);
    check_memory();
  }
};

int main(int argc, char** argv) {
  if (argc < 9) {
    fprintf(stderr, "usage: load PORT PID COUNT SECONDS AT-ONCE RATE SEED LINES [quiet]\n");
    return 2;
  }
  auto number = [&](int at) { return strtoull(argv[at], nullptr, 10); };
  Load load({unsigned(number(1)), "/proc/" + std::string(argv[2]), number(3), double(number(4)), number(5), double(number(6)), number(7), argv[8], argc > 9});
  try {
    load.run();
  } catch (const kj::Exception& exception) {
    fprintf(stderr, "%s\n", kj::str(exception).cStr());
    return 1;
  }
}
