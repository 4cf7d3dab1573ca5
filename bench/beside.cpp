// beside CALLS TURNS    what a call costs that a program serves by libjamdrosek (embed/jamdrosek.h), beside a server in Rattle (cpb_serve): the
// same bytes of a peer, CALLS calls of a Cell and as many Finish. Each is timed TURNS times, and the least counts. Ends with 1 where the
// Returns of the two aren't the same bytes.
#include "../embed/jamdrosek.h"
#include "session.hpp"
#include <ctime>
#include <malloc.h>
using namespace session;

// Seconds of the processor: others may have it meanwhile.
static double now() { return static_cast<double>(clock()) / CLOCKS_PER_SEC; }

static void right(uint32_t code, const char* call) {
  if (!code) return;
  fprintf(stderr, "%s: %u\n", call, code);
  exit(1);
}

// A server over a connection of C's: as the sample objects, but that the Script answers with a struct whose pointer is the capability.
class Embedded {
  jd_connection connection = {};
  const Peer& peer;
  size_t answered = 0;

  void answer(const jd_event& event) {
    static const uint64_t cap_in_struct[] = {0x0000000200000000, 0x0001000000000000, 3}, one_word[] = {0x0000000200000000, 0x0000000100000000, 0};
    jd_cap cap = {JD_CAP_OBJECT, 0, 0, {0}};
    bool names = event.object == SCRIPT;
    if (names) cap.number = static_cast<uint32_t>(peer.named[answered++]);
    auto results = reinterpret_cast<const uint8_t*>(names ? cap_in_struct : one_word);
    right(jd_connection_answer(&connection, &event.origin, results, 24, &cap, names), "answer");
  }

 public:
  std::vector<uint8_t> written;

  Embedded(const Peer& peer) : peer(peer) {
    jd_limits limits = JD_STANDARD_LIMITS;
    right(jd_connection_open(&connection, false, &limits, true, SCRIPT), "open");
  }
  ~Embedded() { jd_connection_close(&connection); }

  void serve() {
    size_t taken;
    for (size_t at = 0; at < peer.bytes.size(); at += taken) {
      right(jd_connection_receive(&connection, peer.bytes.data() + at, peer.bytes.size() - at, &taken), "receive");
      jd_event event;
      for (right(jd_connection_next(&connection, &event), "next"); event.kind != JD_NOTHING; right(jd_connection_next(&connection, &event), "next")) {
        if (event.kind == JD_DELIVERED) answer(event);
      }
      jd_bytes out;
      right(jd_connection_outgoing(&connection, &out), "outgoing");
      written.insert(written.end(), out.at, out.at + out.len);
      right(jd_connection_wrote(&connection, out.len), "wrote");
    }
    right(jd_connection_end(&connection), "end");
  }
};

static std::vector<uint8_t> embedded(const Peer& peer, size_t room) {
  Embedded server(peer);
  server.written.reserve(room);
  server.serve();
  return std::move(server.written);
}

static std::vector<uint8_t> in_rattle(const Peer& peer, size_t room) {
  std::vector<uint8_t> written(room);
  auto served = cpb_serve(peer.bytes.data(), peer.bytes.size(), false, SIZE_MAX, SIZE_MAX, peer.named.data(), peer.named.size(), written.data(), room);
  if (served.how || served.written > room) fprintf(stderr, "the server ended by %d\n", served.how), exit(1);
  written.resize(served.written);
  return written;
}

template <class F>
static double least(int turns, F job) {
  double best = 1e9;
  for (int turn = 0; turn < turns; turn++) {
    double start = now();
    job();
    best = std::min(best, now() - start);
  }
  return best;
}

int main(int count, char** words) {
  if (count != 3) return 2;
  // Freed memory is kept, since page faults would hide the time.
  mallopt(M_MMAP_THRESHOLD, 1 << 30);
  mallopt(M_TRIM_THRESHOLD, 1 << 30);
  uint32_t calls = static_cast<uint32_t>(atoi(words[1]));
  int turns = atoi(words[2]);
  Peer first = begun(), all = first;
  all += times(calls, Peer().call(1, CELL).finish(1));
  // The first answers are others, those of the calls have one size.
  size_t room = 4096 + 128 * size_t(calls), ours = embedded(first, room).size(), theirs = in_rattle(first, room).size();
  auto a = embedded(all, room), b = in_rattle(all, room);
  bool same = a.size() - ours == b.size() - theirs && !memcmp(a.data() + ours, b.data() + theirs, a.size() - ours);
  double in_c = least(turns, [&] { embedded(all, room); }) - least(turns, [&] { embedded(first, room); });
  double rattle = least(turns, [&] { in_rattle(all, room); }) - least(turns, [&] { in_rattle(first, room); });
  printf("%u calls: %.0f ns each in Rattle, %.0f ns by libjamdrosek, ratio %.2f; %zu bytes of Returns, %s\n", calls, 1e9 * rattle / calls, 1e9 * in_c / calls,
         in_c / rattle, a.size() - ours, same ? "the same" : "OTHERS");
  return !same;
}
