// Sessions that are served in memory, over the static library cp_probes.
#pragma once
#include "../../bench/cp_probes.h"
#include "cuts.hpp"

enum How : uint8_t { ENDED, CLOSED, REFUSED, DEVICE, OUT_OF_MEMORY };
inline uint64_t events = 0;  // that were served

// What comes back, and how it ended.
struct Answer {
  Bytes bytes;
  uint8_t how;
  bool operator==(const Answer& other) const { return bytes == other.bytes && how == other.how; }
};

// Serves these bytes, cut so. `named` is what the first calls of object 0 are answered with.
inline Answer served(const Bytes& bytes, bool packed, Cut cut, const std::vector<uint64_t>& named) {
  static Bytes room(1 << 20);
  auto served = timed([&] { return cpb_serve(bytes.data(), bytes.size(), packed, cut.first, cut.piece, named.data(), named.size(), room.data(), room.size()); });
  KJ_REQUIRE(served.written <= room.size(), "more bytes than were foreseen", served.written);
  return {{room.begin(), room.begin() + served.written}, served.how};
}

struct Session : Written {
  std::vector<uint64_t> named;

  // Makes the messages one by one, by what came back for those before.
  explicit Session(Random& random, uint32_t most = 100) {
    Maker maker(random);
    size_t heard = 0;
    for (uint32_t n = random.below(30); n > 0; n--) named.push_back(random.one_in(3) ? 0 : random.one_in(2) ? random.below(4) : (1ull << 32) + random.below(9));
    for (uint32_t n = 1 + random.below(most); n > 0; n--) {
      capnp::MallocMessageBuilder message;
      maker.make(message.initRoot<rpc::Message>());
      add(message);
      events += plain.size();
      heard = hear(served(joined(plain), false, WHOLE, named).bytes, heard, maker);
    }
  }
};
