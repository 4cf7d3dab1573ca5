// What an event of a server costs, by the number of entries of its vat's tables, and a call of the reference library's server beside it.
// Usage: vat [RUNS]     nanoseconds of processor time, each the least of RUNS runs (9)
//        vat counts     serves a short stream for each row of the same, for counts.py
//        vat worst      microseconds of single messages of at most 64 KiB
// Events of a kind come between marks: messages that are recognised by an allocation of theirs (session.hpp), at which the clock is read.
#include "desk.hpp"
#include "session.hpp"
#include <capnp/rpc-twoparty.h>
#include <kj/async-io.h>
#include <malloc.h>
#include <valgrind/callgrind.h>
#include <ctime>
#include <functional>
#include <string>

using session::Peer;
using session::times;
namespace rpc = capnp::rpc;

static int runs = 9;
static bool wrong = false;

static double now() {
  timespec time;
  clock_gettime(CLOCK_THREAD_CPUTIME_ID, &time);
  return 1e9 * time.tv_sec + time.tv_nsec;
}

// When each mark came; or with names, its instructions so far under each of these, in a file of callgrind's.
static std::vector<double> marks;
static std::vector<std::string> names;

extern "C" {
void* __real_malloc(size_t);
void* __wrap_malloc(size_t size) {
  if (size == 8 * session::MARK_WORDS) {
    if (marks.size() < names.size()) CALLGRIND_DUMP_STATS_AT(names[marks.size()].c_str());
    marks.push_back(now());
  }
  return __real_malloc(size);
}
}

// A stream whose events of a kind, all phases of a round in turn, are between marks.
struct Stream {
  Peer peer;
  size_t marks = 0;

  void add(const Peer& phase) {
    peer += phase;
    peer += session::mark();
    marks++;
  }
};

static void serve(const Stream& stream) {
  marks.clear();
  marks.reserve(stream.marks);
  session::serve(stream.peer);
  if (marks.size() == stream.marks) return;
  fprintf(stderr, "%zu marks, and not %zu\n", marks.size(), stream.marks);
  exit(1);
}

// The nanoseconds between marks, each the least of all runs.
static std::vector<double> between(const Stream& stream) {
  session::check(stream.peer);
  std::vector<double> least(stream.marks - 1, 1e18);
  for (int run = 0; run < runs; run++) {
    serve(stream);
    for (size_t i = 0; i < least.size(); i++) least[i] = std::min(least[i], marks[i + 1] - marks[i]);
  }
  return least;
}

// Questions of the peer's: HOST's answer is import 0, OPEN is left without an answer, and the table's answers are even from FIRST on.
constexpr uint32_t HOST = 10, OPEN = 11, FIRST = 1000;

// A session with entries in one of its tables, and the numbers that the server picks next.
struct Full {
  Peer peer = session::begun();
  uint32_t size, question = 0, exported = session::FIRST_FREE;

  explicit Full(uint32_t size) : size(size) {
    peer.given(HOST, session::IMPORT, session::table(1, [](rpc::CapDescriptor::Builder cap, uint32_t) { cap.setSenderHosted(0); }));
  }
  // A question among those of the table's answers, which none of them has.
  uint32_t middle() const { return FIRST + size + 1; }
};

struct Table {
  const char* name;
  std::function<void(Full&)> fill;
};

static const std::vector<Table> tables = {
    {"questions",
     [](Full& full) {
       for (uint32_t i = 0; i < full.size; i++) full.peer.pipelined(FIRST + 2 * i, HOST);
       full.question += full.size;
     }},
    {"answers",
     [](Full& full) {
       for (uint32_t i = 0; i < full.size; i++) full.peer.call(FIRST + 2 * i);
     }},
    {"exports",
     [](Full& full) {
       for (uint32_t i = 0; i < full.size; i++) full.peer.given(1, 10 + i).finish(1, false);
       full.exported += full.size;
     }},
    {"imports", [](Full& full) { full.peer += session::hosts(full.size); }},
    {"promises",
     [](Full& full) {
       full.peer.given(OPEN, session::NO_ANSWER);
       full.peer += session::naming(full.size, [](rpc::CapDescriptor::Builder cap, uint32_t) { cap.initReceiverAnswer().setQuestionId(OPEN); });
     }},
    {"waiting calls",
     [](Full& full) {
       full.peer.given(OPEN, session::NO_ANSWER);
       for (uint32_t i = 0; i < full.size; i++) full.peer.pipelined(FIRST + 2 * i, OPEN);
     }},
};

static const uint32_t SIZES[] = {10, 1000, 60000};

static Full full_of(const Table& table, uint32_t size) {
  Full full(size);
  table.fill(full);
  return full;
}

// Questions that a phase opens, in no order, among those of the table's answers, which none of them has.
constexpr uint32_t EACH = 200, ROUNDS = 25;

struct Phase {
  const char* name;
  // The message of each place, or the messages.
  std::function<void(Peer&, const Full&, uint32_t place)> add;
};

static uint32_t question(const Full& full, uint32_t place) {
  uint32_t step = std::max(full.size / EACH, 1u);
  return FIRST + 1 + 2 * step * (place * 73 % EACH);
}

static void add_finish(Peer& peer, const Full& full, uint32_t place) { peer.finish(question(full, place), false); }

static auto a_host = session::table(1, [](rpc::CapDescriptor::Builder cap, uint32_t) { cap.setSenderHosted(1000000); });

static const std::vector<Phase> phases = {
    {"Call, answer", [](Peer& peer, const Full& full, uint32_t place) { peer.call(question(full, place)); }},
    {"Finish", add_finish},
    {"Call that is forwarded", [](Peer& peer, const Full& full, uint32_t place) { peer.pipelined(question(full, place), HOST); }},
    {"Return, answer to the Call", [](Peer& peer, const Full& full, uint32_t place) { peer.results(full.question + place); }},
    {"its Finish", add_finish},
    {"Call, answer with an object", [](Peer& peer, const Full& full, uint32_t place) { peer.given(question(full, place), 100000 + place); }},
    {"its Finish", add_finish},
    {"Release of the object", [](Peer& peer, const Full& full, uint32_t place) { peer.release(full.exported + place); }},
    {"Call with an import, release", [](Peer& peer, const Full& full, uint32_t place) { peer.call(question(full, place), session::CELL, a_host); }},
    {"its Finish", add_finish},
    {"Call, one that waits, 2 Finish",
     [](Peer& peer, const Full& full, uint32_t place) {
       uint32_t first = question(full, place), second = 5;
       peer.call(first, session::DESK).pipelined(second, first, true).finish(first).finish(second);
     }},
};

// An entry of the table for each phase, before all the empty one.
static Stream rounds_of(const Full& full, uint32_t rounds) {
  Stream round;
  round.add(Peer());
  for (const Phase& phase : phases) {
    Peer peer;
    for (uint32_t place = 0; place < EACH; place++) phase.add(peer, full, place);
    round.add(peer);
  }
  Stream all{full.peer};
  all.add(Peer());
  all.peer += times(rounds, round.peer);
  all.marks += rounds * round.marks;
  return all;
}

// The nanoseconds of an event of each phase.
static std::vector<double> costs(const Full& full) {
  auto took = between(rounds_of(full, ROUNDS));
  std::vector<double> sums(phases.size() + 1);
  for (size_t i = 0; i < took.size(); i++) sums[i % sums.size()] += took[i];
  std::vector<double> costs;
  for (size_t i = 1; i < sums.size(); i++) costs.push_back((sums[i] - sums[0]) / (EACH * ROUNDS));
  return costs;
}

// The time at each size of each table: within a third; and of a Call and its answer within 1.5 microseconds.
static void print_costs() {
  printf("%-32s %-14s", "nanoseconds", "entries of");
  for (uint32_t size : SIZES) printf(" %7u", size);
  printf("  most over least\n");
  std::vector<std::vector<std::vector<double>>> by_table;
  for (const Table& table : tables) {
    by_table.emplace_back();
    for (uint32_t size : SIZES) by_table.back().push_back(costs(full_of(table, size)));
  }
  for (size_t phase = 0; phase < phases.size(); phase++) {
    for (size_t table = 0; table < tables.size(); table++) {
      double fewest = 1e18, most = 0;
      printf("%-32s %-14s", phases[phase].name, tables[table].name);
      for (auto& costs : by_table[table]) {
        fewest = std::min(fewest, costs[phase]);
        most = std::max(most, costs[phase]);
        printf(" %7.0f", costs[phase]);
      }
      bool good = 3 * most <= 4 * fewest && (phase || most <= 1500);
      wrong |= !good;
      printf("  %.2f%s\n", most / fewest, good ? "" : "  past its goal");
    }
  }
}

// One round for each table and size, after one that isn't counted. The phase of a name ends at its mark.
static void count() {
  serve(rounds_of(full_of(tables[0], SIZES[0]), 1));
  for (const Table& table : tables) {
    for (uint32_t size : SIZES) {
      auto name = [&](const char* phase) { return std::string(table.name) + "|" + std::to_string(size) + "|" + phase; };
      names = {name("before"), name("nothing")};
      for (const Phase& phase : phases) names.push_back(name(phase.name));
      CALLGRIND_ZERO_STATS;
      serve(rounds_of(full_of(table, size), 1));
    }
  }
}

// Messages of at most 64 KiB that take long.

// Chains of structs, 57 deep.
static void chains(rpc::Call::Builder call) {
  auto wide = call.getParams().getContent().initAsAnyList(capnp::ElementSize::POINTER, 140).as<capnp::List<capnp::AnyPointer>>();
  for (uint32_t i = 0; i < 140; i++) {
    capnp::AnyPointer::Builder place = wide[i];
    for (int levels = 0; levels < 57; levels++) place = place.initAsAnyStruct(0, 1).getPointerSection()[0];
  }
}

// Structs without words or pointers, all in one list.
static void flat(rpc::Call::Builder call) {
  auto list = call.getParams().getContent().initAsAnyList(capnp::ElementSize::POINTER, 8000).as<capnp::List<capnp::AnyPointer>>();
  for (uint32_t i = 0; i < 8000; i++) list[i].initAsAnyStruct(0, 0);
}

struct Message {
  const char* name;
  std::function<void(rpc::Call::Builder)> params;
};

static auto full_table(std::function<void(rpc::CapDescriptor::Builder, uint32_t)> set) { return session::table(1024, set); }

static const std::vector<Message> messages = {
    {"1,024 imports", full_table([](rpc::CapDescriptor::Builder cap, uint32_t i) { cap.setSenderHosted(58 * i); })},
    {"1,024 objects of the server's", full_table([](rpc::CapDescriptor::Builder cap, uint32_t) { cap.setReceiverHosted(0); })},
    {"1,024 promises, tied to HOST", full_table([](rpc::CapDescriptor::Builder cap, uint32_t) { cap.initReceiverAnswer().setQuestionId(HOST); })},
    {"8,100 words", [](rpc::Call::Builder call) { call.getParams().getContent().initAsAnyStruct(8100, 0); }},
    {"140 chains of 57 structs", chains},
    {"8,000 structs of size zero", flat},
};

// The microseconds of each message as a Call and its Finish, after one of each before.
static std::vector<double> worst_of(const Full& full) {
  const uint32_t turns = 4;
  Stream stream{full.peer};
  for (uint32_t turn = 0; turn <= turns; turn++) {
    stream.add(Peer());
    for (const Message& message : messages) stream.add(Peer().given(full.middle(), session::CELL, message.params).finish(full.middle()));
  }
  auto took = between(stream);
  std::vector<double> least(messages.size(), 1e18);
  for (uint32_t turn = 1; turn <= turns; turn++) {
    for (size_t i = 0; i < least.size(); i++) least[i] = std::min(least[i], took[turn * (least.size() + 1) + i]);
  }
  return least;
}

static void print_worst() {
  printf("microseconds of a Call, its answer and its Finish, at 10 and at 60,000 entries\n%-30s %6s", "params", "bytes");
  for (const Table& table : tables) printf(" %15s", table.name);
  printf("\n");
  std::vector<std::vector<double>> columns;
  for (const Table& table : tables) {
    for (uint32_t size : {10, 60000}) columns.push_back(worst_of(full_of(table, size)));
  }
  for (size_t i = 0; i < messages.size(); i++) {
    printf("%-30s %6zu", messages[i].name, Peer().given(1, session::CELL, messages[i].params).bytes.size());
    for (auto& column : columns) printf(" %7.0f", column[i] / 1000);
    printf("\n");
  }
  for (uint32_t size : SIZES) {
    Full full = full_of(tables.back(), size);
    Stream stream{full.peer};
    stream.add(Peer());
    stream.add(Peer().finish(OPEN));
    printf("Finish of a call for which %u calls wait: %.0f\n", size, between(stream)[0] / 1000);
  }
}

// The reference library.

// The nanoseconds of a job, the least of all runs.
template <class Job>
static double least(Job job) {
  double best = 1e18;
  for (int run = 0; run < runs; run++) {
    double start = now();
    asm volatile("" ::"r"(job()));
    best = std::min(best, now() - start);
  }
  return best;
}

// A connection whose peer has sent these bytes, until this number of messages was written.
class Memory final : public kj::AsyncIoStream {
  kj::ArrayPtr<const kj::byte> left;
  uint32_t awaited;
  kj::Own<kj::PromiseFulfiller<void>> done;

  void put(const void* bytes, size_t size) {
    memcpy(room.data() + written, bytes, size);
    written += size;
  }
  kj::Promise<void> count() {
    if (--awaited == 0) done->fulfill();
    return kj::READY_NOW;
  }

 public:
  static std::vector<kj::byte> room;
  size_t written = 0;

  Memory(const Peer& peer, uint32_t awaited, kj::Own<kj::PromiseFulfiller<void>> done)
      : left(peer.bytes.data(), peer.bytes.size()), awaited(awaited), done(kj::mv(done)) {}

  kj::Promise<size_t> tryRead(void* buffer, size_t least, size_t most) override {
    size_t size = std::min(most, left.size());
    if (size < least) return kj::NEVER_DONE;
    memcpy(buffer, left.begin(), size);
    left = left.slice(size, left.size());
    return size;
  }
  kj::Promise<void> write(const void* bytes, size_t size) override {
    put(bytes, size);
    return count();
  }
  kj::Promise<void> write(kj::ArrayPtr<const kj::ArrayPtr<const kj::byte>> pieces) override {
    for (auto& piece : pieces) put(piece.begin(), piece.size());
    return count();
  }
  kj::Promise<void> whenWriteDisconnected() override { return kj::NEVER_DONE; }
  void shutdownWrite() override {}
};

std::vector<kj::byte> Memory::room(session::ROOM);

// The reference's server takes a stream in, and sends this number of messages.
static size_t serve_by_reference(const Peer& peer, uint32_t awaited) {
  kj::EventLoop loop;
  kj::WaitScope scope(loop);
  auto done = kj::newPromiseAndFulfiller<void>();
  Memory memory(peer, awaited, kj::mv(done.fulfiller));
  capnp::TwoPartyVatNetwork network(memory, rpc::twoparty::Side::SERVER);
  auto server = capnp::makeRpcServer(network, kj::heap<DeskServer>());
  done.promise.wait(scope);
  return memory.written;
}

// The same bytes to both servers.
static void beside_reference() {
  const uint32_t turns = 30000;
  Peer before = session::begun();
  Peer all = before;
  all += times(turns, Peer().call(3).finish(3));
  session::check(all);
  double ours = (least([&] { return session::serve(all); }) - least([&] { return session::serve(before); })) / turns;
  double theirs = (least([&] { return serve_by_reference(all, 3 + turns); }) - least([&] { return serve_by_reference(before, 3); })) / turns;
  printf("Call, answer, Finish, the same bytes to both servers: ours %.0f, the reference's %.0f, ratio %.2f\n", ours, theirs, ours / theirs);
}

// The reference's client and its server in one thread, by a pipe.
static void reference_alone() {
  const uint32_t turns = 20000;
  auto io = kj::setupAsyncIo();
  auto& wait = io.waitScope;
  auto pipe = kj::newTwoWayPipe();
  capnp::TwoPartyVatNetwork theirs(*pipe.ends[0], rpc::twoparty::Side::SERVER), ours(*pipe.ends[1], rpc::twoparty::Side::CLIENT);
  auto server = capnp::makeRpcServer(theirs, kj::heap<DeskServer>());
  auto client = capnp::makeRpcClient(ours);
  capnp::MallocMessageBuilder message(8);
  auto id = message.initRoot<rpc::twoparty::VatId>();
  id.setSide(rpc::twoparty::Side::SERVER);
  auto cell = client.bootstrap(id).castAs<Desk>().nowRequest().send().wait(wait).getCell();
  auto get = [&] { return cell.getRequest(capnp::MessageSize{4, 0}).send(); };
  double one = least([&] {
    uint64_t last = 0;
    for (uint32_t i = 0; i < turns; i++) last += get().wait(wait).getValue();
    return last;
  });
  double window = least([&] {
    uint64_t last = 0;
    for (uint32_t i = 0; i < turns; i += 50) {
      std::vector<capnp::RemotePromise<Cell::GetResults>> under_way;
      for (int k = 0; k < 50; k++) under_way.push_back(get());
      for (auto& call : under_way) last += call.wait(wait).getValue();
    }
    return last;
  });
  printf("the reference's client and server, by a pipe in one thread: a call after another %.0f, 50 under way %.0f\n", one / turns, window / turns);
}

int main(int argc, char** argv) {
  // Freed memory is kept, since page faults would hide the time.
  mallopt(M_MMAP_THRESHOLD, 1 << 30);
  mallopt(M_TRIM_THRESHOLD, 1 << 30);
  mallopt(M_TOP_PAD, 64 << 20);
  std::string mode = argc > 1 ? argv[1] : "9";
  if (mode == "counts") {
    count();
  } else if (mode == "worst") {
    print_worst();
  } else {
    runs = std::stoi(mode);
    beside_reference();
    reference_alone();
    print_costs();
  }
  return wrong;
}
