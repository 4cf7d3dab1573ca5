// What a peer can make a server hold: the bytes that stay allocated for each entry beside those that the peer sent for it, and what a call costs
// that is short to send and long to read. malloc, realloc and free are wrapped (Makefile).
#include "session.hpp"
#include <malloc.h>
#include <ctime>
#include <functional>
#include <string>

using session::Peer;
namespace rpc = capnp::rpc;

// Bytes in use, with malloc's own 8 for each block; their most; and those at the last allocation, which the end of a session has none of.
static size_t live, peak, last;

extern "C" {
void* __real_malloc(size_t);
void* __real_realloc(void*, size_t);
void __real_free(void*);

static size_t size_of(void* block) { return block ? malloc_usable_size(block) + 8 : 0; }

static void* taken(void* block) {
  live += size_of(block);
  peak = std::max(peak, live);
  last = live;
  return block;
}

void* __wrap_malloc(size_t size) { return taken(__real_malloc(size)); }
void* __wrap_realloc(void* block, size_t size) {
  size_t before = size_of(block);
  void* moved = __real_realloc(block, size);
  if (!moved) return nullptr;
  live -= before;
  return taken(moved);
}
void __wrap_free(void* block) {
  live -= size_of(block);
  __real_free(block);
}
}

struct Held {
  size_t at_end, most;
};

static Held held(const Peer& peer) {
  session::serve(peer);  // so that what the program itself keeps isn't counted
  size_t before = live;
  peak = last = live;
  session::serve(peer);
  return {last - before, peak - before};
}

// The bytes of an entry: those of twice as many less those of this many. What the Script is to answer isn't the vat's, so both have it.
static void row(const char* name, uint32_t count, std::function<void(Peer&, uint32_t)> add) {
  Peer once = session::begun(), more = session::begun();
  add(once, count);
  add(more, 2 * count);
  session::check(more);
  double sent = double(more.bytes.size() - once.bytes.size()) / count;
  once.named = more.named;
  Held one = held(once), two = held(more);
  double stay = (double(two.at_end) - one.at_end) / count, most = (double(two.most) - one.most) / count;
  printf("%-58s sent %7.0f  held %10.0f  peak %10.0f  held over sent %9.1f\n", name, sent, stay, most, stay / sent);
  fflush(stdout);
}

constexpr uint32_t OPEN = 2, FIRST = 100;

static auto nothing = [](rpc::Call::Builder) {};

// Calls on what a call will give that is left without an answer.
static auto waiting(std::function<void(rpc::Call::Builder)> more) {
  return [=](Peer& peer, uint32_t count) {
    peer.given(OPEN, session::NO_ANSWER);
    for (uint32_t i = 0; i < count; i++) peer.pipelined(FIRST + i, OPEN, true, more);
  };
}

// Promises of the peer's, and the Resolve of each.
static auto promised(std::function<void(rpc::Resolve::Builder)> set) {
  return [=](Peer& peer, uint32_t count) {
    peer += session::naming(count, [](rpc::CapDescriptor::Builder cap, uint32_t id) { cap.setSenderPromise(id); });
    if (!set) return;
    for (uint32_t i = 0; i < count; i++) {
      peer.with([&](rpc::Message::Builder message) {
        auto resolve = message.initResolve();
        resolve.setPromiseId(i);
        set(resolve);
      });
    }
  };
}

// Promises of the server's that are tied to a call without an answer.
static auto tied(uint32_t operations) {
  return [=](Peer& peer, uint32_t count) {
    peer.given(OPEN, session::NO_ANSWER);
    peer += session::naming(count, [=](rpc::CapDescriptor::Builder cap, uint32_t) {
      auto answer = cap.initReceiverAnswer();
      answer.setQuestionId(OPEN);
      if (!operations) return;
      for (auto operation : answer.initTransform(operations)) operation.setGetPointerField(0);
    });
  };
}

// A Call on what an open call will give. Both pointers of each struct in it lead to the next one, so that a reader meets twice as many at each level.
// The library writes no such pointers, so they are put in by hand.
static Peer folded(uint32_t question, uint32_t levels) {
  Peer peer;
  peer.pipelined(question, OPEN, true, [&](rpc::Call::Builder call) {
    capnp::AnyPointer::Builder place = call.getParams().getContent();
    for (uint32_t i = 0; i < levels; i++) place = place.initAsAnyStruct(0, 2).getPointerSection()[0];
  });
  // The structs lie one after the other, each with its first pointer before the second, which is null. What lies right after both has offset 1 in
  // the first and 0 in the second.
  auto words = reinterpret_cast<uint64_t*>(peer.bytes.data());
  const uint64_t two = uint64_t(2) << 48;
  for (size_t i = 1; i + 1 < peer.bytes.size() / 8; i++)
    if (words[i] == (two | 1 << 2) && words[i + 1] == 0) words[i + 1] = two;
  return peer;
}

static double now() {
  timespec time;
  clock_gettime(CLOCK_THREAD_CPUTIME_ID, &time);
  return 1e9 * time.tv_sec + time.tv_nsec;
}

static void folded_row(uint32_t levels) {
  Peer before = session::begun().given(OPEN, session::NO_ANSWER);
  Peer one = folded(FIRST, levels), all = before;
  all += one;
  Held without = held(before), with = held(all);
  double start = now();
  session::serve(all);
  printf("Call that waits, each struct twice, %2u levels: sent %zu, held %zu, peak %zu, %.1f ms\n", levels, one.bytes.size(),
         with.at_end - without.at_end, with.most - without.most, (now() - start) / 1e6);
  fflush(stdout);
}

int main() {
  mallopt(M_MMAP_THRESHOLD, 1 << 30);
  const uint32_t N = 16384;
  row("Bootstrap, answer kept", N, [](Peer& peer, uint32_t n) {
    for (uint32_t i = 0; i < n; i++) peer.bootstrap(FIRST + i);
  });
  row("Call, answer of a word kept", N, [](Peer& peer, uint32_t n) {
    for (uint32_t i = 0; i < n; i++) peer.call(FIRST + i);
  });
  row("Call, answer with an object kept, and the export", N, [](Peer& peer, uint32_t n) {
    for (uint32_t i = 0; i < n; i++) peer.given(FIRST + i, 10 + i);
  });
  row("the export alone (Call, and Finish without release)", N, [](Peer& peer, uint32_t n) {
    for (uint32_t i = 0; i < n; i++) peer.given(FIRST + i, 10 + i).finish(FIRST + i, false);
  });
  row("Call that is forwarded to the peer, answer and question", N, [](Peer& peer, uint32_t n) {
    peer.given(OPEN, session::IMPORT, session::table(1, [](rpc::CapDescriptor::Builder cap, uint32_t) { cap.setSenderHosted(0); }));
    for (uint32_t i = 0; i < n; i++) peer.pipelined(FIRST + i, OPEN);
  });
  row("import: a senderHosted, of 1,000 in a table", 16000, [](Peer& peer, uint32_t n) { peer += session::hosts(n); });
  row("import of a promise: a senderPromise, of 1,000", 16000, promised(nullptr));
  row("the same, and its Resolve to an object of the server's", 16000, promised([](rpc::Resolve::Builder resolve) { resolve.initCap().setReceiverHosted(0); }));
  row("the same, and its Resolve to an exception of 10 bytes", 16000, promised([](rpc::Resolve::Builder resolve) { resolve.initException().setReason("0123456789"); }));
  row("promise tied: a receiverAnswer without operations, of 1,000", 16000, tied(0));
  row("promise tied: a receiverAnswer of 16 operations", 16000, tied(16));
  row("Call without an answer", N, [](Peer& peer, uint32_t n) {
    for (uint32_t i = 0; i < n; i++) peer.given(FIRST + i, session::NO_ANSWER);
  });
  row("Call that waits, null params", N, waiting(nothing));
  row("Call that waits, params of a word", N, waiting([](rpc::Call::Builder call) { call.getParams().getContent().initAsAnyStruct(1, 0); }));
  row("Call that waits, 8 KiB of words", 2048, waiting([](rpc::Call::Builder call) { call.getParams().getContent().initAsAnyStruct(1024, 0); }));
  row("Call that waits, 8,000 structs of size zero", 512, waiting([](rpc::Call::Builder call) {
        auto list = call.getParams().getContent().initAsAnyList(capnp::ElementSize::POINTER, 8000).as<capnp::List<capnp::AnyPointer>>();
        for (uint32_t i = 0; i < 8000; i++) list[i].initAsAnyStruct(0, 0);
      }));
  row("Call that waits, 1,000 imports that are held", 16, waiting(session::table(1000, [](rpc::CapDescriptor::Builder cap, uint32_t i) { cap.setSenderHosted(i); })));
  for (uint32_t levels : {10, 14, 18, 20, 21}) folded_row(levels);
}
