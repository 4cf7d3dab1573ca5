// Sessions of a peer that isn't trusted, served in memory over the static library cp_probes, and cut at each byte.
// Usage: cut SEED INPUTS
//
// A session is made as for `served`, of 12 messages at most; one of four then has frames dropped, repeated or swapped, and each is
// played with changed bytes too. It is served whole, in two pieces that are cut at each byte in turn, and byte by byte, plain and
// packed: the bytes that come back, and how it ended, must be the same each time. An input is a stream with its own cut.
#include "random_session.hpp"
#include <map>

namespace {

// Serves bytes with each cut, and gives what came back of the whole.
Answer compare(const Bytes& bytes, bool packed, const std::vector<uint64_t>& named) {
  auto serve = [&](Cut cut) { return served(bytes, packed, cut, named); };
  auto whole = serve(WHOLE);
  KJ_REQUIRE(whole.how <= REFUSED, "no device failed, and there is memory", whole.how);
  cut_everywhere(bytes.size(), whole, serve);
  return whole;
}

}  // namespace

int main(int argc, char** argv) {
  uint64_t answers = 0;
  std::map<std::string, uint64_t> aborts;
  auto status = play_all(argc, argv, [&](Random& random) {
    Session session(random, 12);
    if (random.one_in(4)) session.change(random);
    auto plain = joined(session.plain), packed = joined(session.packed);
    auto whole = compare(plain, false, session.named), other = compare(packed, true, session.named);
    KJ_REQUIRE(other.how == whole.how && unpacked(other.bytes) == whole.bytes, "other bytes packed");
    look_at(whole.bytes, session.plain, answers, aborts);
    auto& bytes = random.one_in(2) ? plain : packed;
    change(bytes, random);
    compare(bytes, &bytes == &packed, session.named);
  });
  printf("%llu answers\n", (unsigned long long)answers);
  for (auto& [reason, times] : aborts) printf("  %llu ended by %s\n", (unsigned long long)times, reason.c_str());
  return status;
}
