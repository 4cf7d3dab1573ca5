// Streams through one direction of a relay in memory, over the static library cp_probes.
// Usage: passed SEED INPUTS
//
// A stream is a row of random messages, and one of two has changed bytes. One of eight is cut at each byte in turn, the others at some,
// plain and packed: what goes out, as it was read or written anew, and the fault that ends it, must be the same each time. What goes out
// as it was read are the first bytes of the stream, whole messages; the bytes after them hold none. What is written anew are as many
// messages, or fewer where one can't be written. An input is a stream with its own cut.
#include "../../bench/cp_probes.h"
#include "answers.hpp"
#include "cuts.hpp"

namespace {

uint64_t accepted = 0, refused = 0;

// What went out, and the fault.
struct Passed {
  Bytes bytes;
  std::string fault;
  bool operator==(const Passed& other) const { return bytes == other.bytes && fault == other.fault; }
};

Passed passed(const Bytes& bytes, bool packed, uint8_t form, Cut cut) {
  static Bytes line(1 << 12), room(1 << 20);
  auto told =
      timed([&] { return cpb_relay(bytes.data(), bytes.size(), packed, form, cut.first, cut.piece, line.data(), line.size(), room.data(), room.size()); });
  KJ_REQUIRE(told.lines <= line.size() && told.written <= room.size(), "more bytes than were foreseen", told.lines, told.written);
  return {{room.begin(), room.begin() + told.written}, {line.begin(), line.begin() + told.lines}};
}

uint64_t messages(const Bytes& bytes, bool packed) {
  return (packed ? cpb_packed_frames : cpb_read_frames)(bytes.data(), bytes.size(), 1);
}

// The bytes of the first frame, or all where it doesn't end.
Bytes first_frame(const Bytes& bytes) {
  auto word = [&](size_t place) { return bytes.size() < place + 4 ? 0 : bytes[place] | bytes[place + 1] << 8 | bytes[place + 2] << 16 | uint64_t(bytes[place + 3]) << 24; };
  uint64_t segments = word(0) + 1, size = (segments / 2 + 1) * 8;
  for (uint64_t i = 0; i < segments && size <= bytes.size(); i++) size += 8 * word(4 + 4 * i);
  return {bytes.begin(), bytes.begin() + std::min<uint64_t>(size, bytes.size())};
}

// What went out as it was read is what the stream begins with, and the message after it isn't accepted.
void look_at(const Bytes& bytes, const Passed& whole) {
  KJ_REQUIRE(begins(whole.bytes, bytes), "other bytes went out");
  KJ_REQUIRE(whole.bytes.empty() || messages(whole.bytes, false) > 0, "what went out isn't messages");
  KJ_REQUIRE((whole.bytes.size() == bytes.size()) == whole.fault.empty(), "not all went out, and no fault", whole.fault);
  if (whole.fault.empty()) return;
  KJ_REQUIRE(strtoull(whole.fault.c_str() + 16, nullptr, 10) == whole.bytes.size(), "another place", whole.fault);
  Bytes rest(bytes.begin() + whole.bytes.size(), bytes.end());
  KJ_REQUIRE(messages(first_frame(rest), false) == 0, "an accepted message didn't go out", whole.fault);
  refused++;
}

void play(Random& random) {
  Written stream;
  Maker caller(random);
  Answerer answerer(random);
  for (uint32_t n = 1 + random.below(16); n > 0; n--) {
    capnp::MallocMessageBuilder message;
    random.one_in(2) ? caller.make(message.initRoot<rpc::Message>()) : answerer.make(message.initRoot<rpc::Message>());
    stream.add(message);
    if (random.one_in(2)) answerer.note(message.getRoot<rpc::Message>().asReader());
  }
  auto plain = joined(stream.plain), packed = joined(stream.packed);
  if (random.one_in(2)) {
    change(plain, random);
    change(packed, random);
  }
  bool everywhere = random.one_in(8);
  for (auto bytes : {&plain, &packed}) {
    Passed whole[3];
    for (uint8_t form : {0, 1, 2}) {
      auto pass = [&](Cut cut) { return passed(*bytes, bytes == &packed, form, cut); };
      whole[form] = pass(WHOLE);
      if (everywhere) cut_everywhere(bytes->size(), whole[form], pass);
      else cut_somewhere(random, bytes->size(), whole[form], pass);
    }
    if (bytes == &plain) look_at(plain, whole[0]);
    else KJ_REQUIRE(begins(whole[0].bytes, packed), "other bytes went out");
    KJ_REQUIRE(whole[1].fault == whole[2].fault && whole[1].bytes == unpacked(whole[2].bytes), "other messages packed");
    auto went = messages(whole[0].bytes, bytes == &packed), anew = messages(whole[1].bytes, false);
    KJ_REQUIRE(whole[0].fault == whole[1].fault ? went == anew : anew <= went, "other messages written anew", went, anew);
    accepted += went;
  }
}

}  // namespace

int main(int argc, char** argv) {
  auto status = play_all(argc, argv, play);
  printf("%llu messages accepted, %llu plain streams refused\n", (unsigned long long)accepted, (unsigned long long)refused);
  return status;
}
