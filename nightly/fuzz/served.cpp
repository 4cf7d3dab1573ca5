// Sessions of a peer that isn't trusted, served in memory over the static library cp_probes.
// Usage: served SEED EVENTS
//
// A session is a row of random messages. It is made while it is played, so that its numbers mostly fit what came back; one of four
// then has frames dropped, repeated or swapped, and one of eight bytes changed. It is served whole, by pieces of random sizes, and
// packed by pieces: the bytes that come back must be the same each time, and be messages that answer those that were sent. A
// session that takes longer than its limit, breaks one of these or leaks memory is reported with its number.
#include "random_session.hpp"
#include <malloc.h>
#include <cstdio>
#include <cstdlib>

namespace {

// Serves a session by pieces of several sizes. What comes back is the same each time.
void compare(const Session& session, Random& random, uint64_t& answers, std::map<std::string, uint64_t>& aborts) {
  auto bytes = joined(session.plain);
  auto whole = served(bytes, false, WHOLE, session.named);
  KJ_REQUIRE(whole.how <= REFUSED, "no device failed, and there is memory", whole.how);
  look_at(whole.bytes, session.plain, answers, aborts);
  for (size_t piece : {1 + random.below(7), 1 + random.below(2000)}) {
    KJ_REQUIRE(served(bytes, false, piece, session.named) == whole, "other bytes by pieces", piece);
    auto packed = served(joined(session.packed), true, piece, session.named);
    KJ_REQUIRE(packed.how == whole.how && unpacked(packed.bytes) == whole.bytes, "other bytes packed", piece);
  }
  events += 5 * session.plain.size();
}

// The same of its bytes, some of which were changed.
void compare_changed(const Session& session, Random& random) {
  auto bytes = joined(session.plain);
  for (uint32_t n = 1 + random.below(8); n > 0; n--) bytes[random.below(bytes.size())] = random.below(256);
  auto whole = served(bytes, false, WHOLE, session.named);
  KJ_REQUIRE(served(bytes, false, 1 + random.below(400), session.named) == whole, "other bytes of changed ones");
  events += 2 * session.plain.size();
}

}  // namespace

int main(int argc, char** argv) {
  if (argc != 3) {
    fprintf(stderr, "usage: served SEED EVENTS\n");
    return 2;
  }
  uint64_t seed = strtoull(argv[1], nullptr, 10), most = strtoull(argv[2], nullptr, 10), number = 0, answers = 0;
  size_t before = 0;
  std::map<std::string, uint64_t> aborts;
  for (; events < most; number++) {
    Random random{std::mt19937_64(seed * 1000003 + number)};
    try {
      Session session(random);
      if (random.one_in(4)) session.change(random);
      compare(session, random, answers, aborts);
      if (random.one_in(8)) compare_changed(session, random);
    } catch (const kj::Exception& exception) {
      fprintf(stderr, "session %llu of seed %llu: %s\n", (unsigned long long)number, (unsigned long long)seed, exception.getDescription().cStr());
      return 1;
    }
    if (number == 100) before = mallinfo2().uordblks;
  }
  printf("%llu sessions, %llu events, %llu answers\n", (unsigned long long)number, (unsigned long long)events, (unsigned long long)answers);
  printf("memory: %zu bytes after 100 sessions, %zu at the end\n", before, mallinfo2().uordblks);
  for (auto& [reason, times] : aborts) printf("  %llu ended by %s\n", (unsigned long long)times, reason.c_str());
  return 0;
}
