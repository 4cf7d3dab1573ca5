// Reading, writing and unpacking of bytes that nobody vouches for, over the static library cp_probes.
//
// An input is one byte and the rest. The byte says of what form the rest is (plain frames, packed ones, or words), within
// which limits it is read, and in segments of how many words it is written again. Besides cutting and joining, as
// libFuzzer does, inputs are changed by words: a pointer's offset, size or kind, a table's number, a bit. Packed inputs
// are unpacked for that and packed again, so that the change arrives at the reader.
#include "../../bench/cp_probes.h"
#include "../../embed/jamdrosek.h"
#include <chrono>
#include <cstddef>
#include <cstdint>
#include <cstdio>
#include <cstdlib>
#include <cstring>
#include <vector>

extern "C" size_t LLVMFuzzerMutate(uint8_t* data, size_t size, size_t max_size);

// The library has no counters of its own for libFuzzer, so it is shown what was answered: an input that brings a new
// answer is kept. One that is written as many words isn't, since it takes long each time.
__attribute__((section("__libfuzzer_extra_counters"))) uint8_t seen[1 << 14];

namespace {

constexpr size_t LIMIT = 1 << 16;
constexpr uint32_t SMALL = 1 << 16;
enum Form { Plain, Packed, Words, Forms };
const char* const NAMES[Forms] = {"plain frames", "packed frames", "words"};

// What an input's first byte says. A message that refers to its parts many times over takes as long as the limits allow, so
// most inputs are read within small ones, and one of 64 within the standard ones.
struct Head {
  int form;
  bool standard;
  uint32_t nesting = 64, traversal, words;
  explicit Head(uint8_t byte) : form(byte % Forms), standard(byte / Forms == 63) {
    static const uint32_t WORDS[] = {8u << 20, 1, 3, 16};
    traversal = standard ? 8u << 20 : SMALL;
    words = WORDS[byte / Forms % 4];
  }
  static uint8_t byte(int form, unsigned random) { return uint8_t(form + Forms * (random % 64)); }
};

// How many inputs there were of each form, and how many of them were accepted; printed at the end.
struct Tally {
  uint64_t tried[Forms] = {}, accepted[Forms] = {}, standard = 0;
  ~Tally() {
    for (int i = 0; i < Forms; i++) std::fprintf(stderr, "%s: %llu tried, %llu accepted\n", NAMES[i], (unsigned long long)tried[i], (unsigned long long)accepted[i]);
    std::fprintf(stderr, "within the standard limits: %llu\n", (unsigned long long)standard);
  }
} tally;

void note(const Head& head, uint64_t accepted, uint64_t answer) {
  tally.tried[head.form]++;
  tally.accepted[head.form] += accepted > 0;
  tally.standard += head.standard;
  seen[(head.form << 12 | answer % 4096) % sizeof seen] = 1;
}

void fail(const char* what) {
  std::fprintf(stderr, "fuzz: %s\n", what);
  std::abort();
}

// What takes long to read within the standard limits takes longer to build and write, and few of such inputs are built.
bool is_long(const Head& head, std::chrono::steady_clock::time_point before) {
  static unsigned turn = 0;
  return head.standard && std::chrono::steady_clock::now() - before > std::chrono::milliseconds(1) && ++turn % 64 != 0;
}

// Where each root is a message's, an owned tree of each is given as often.
uint64_t compare(uint64_t views, uint64_t trees) {
  if (views > 0 && views != trees) fail("more messages than trees, or fewer");
  return trees;
}

// The number of words that packed bytes give, or 0 where they don't unpack into so many at most.
size_t unpacked(const uint8_t* bytes, size_t length, uint64_t* words, size_t room) {
  size_t count;
  jd_unpack(bytes, length, words, room, &count);
  return count;
}

size_t packed_size(const uint64_t* words, size_t count, std::vector<uint8_t>& out) {
  size_t size;
  jd_pack(words, count, out.data(), out.size(), &size);
  return size;
}

uint64_t unpack(const uint8_t* bytes, size_t length) {
  static std::vector<uint64_t> words(LIMIT);
  static std::vector<uint8_t> packed(16 * LIMIT);
  size_t count = unpacked(bytes, length, words.data(), LIMIT);
  if (count > LIMIT) fail("unpacked past the limit");
  size_t size = packed_size(words.data(), count, packed);
  if (size > packed.size()) fail("packed too long");
  static std::vector<uint64_t> again(LIMIT);
  if (unpacked(packed.data(), size, again.data(), LIMIT) != count) fail("packed and unpacked, so many words more or less");
  if (std::memcmp(words.data(), again.data(), 8 * count) != 0) fail("packed and unpacked, other words");
  return count;
}

uint64_t pack(const uint8_t* bytes, size_t length) {
  static std::vector<uint8_t> packed(16 * LIMIT);
  std::vector<uint64_t> words(length / 8), again(length / 8 + 1);
  if (!words.empty()) std::memcpy(words.data(), bytes, 8 * words.size());
  size_t size = packed_size(words.data(), words.size(), packed);
  if (size > packed.size()) fail("packed too long");
  if (unpacked(packed.data(), size, again.data(), words.size()) != words.size()) fail("packed and unpacked, so many words more or less");
  if (!words.empty() && std::memcmp(words.data(), again.data(), 8 * words.size()) != 0) fail("packed and unpacked, other words");
  return size;
}

// Of trees that fit in the limits, what is written is read back, unless there are more segments than the limits have.
uint64_t write(const Head& head, const uint8_t* bytes, size_t length, uint64_t trees) {
  static std::vector<uint8_t> out(1 << 24);
  size_t size = cpb_write_frames_within(bytes, length, head.words, head.nesting, head.traversal, out.data(), out.size());
  if (size == 0 || size > out.size()) return 0;
  if (cpb_read_frames_within(out.data(), size, 2, head.nesting, head.traversal) != trees) fail("written, and read back otherwise");
  return size;
}

// One word of a frame is changed.
void change(uint64_t& word, unsigned random) {
  static const uint64_t ends[] = {0, 1, ~0ull, 1ull << 63, 0xfffffffcull, 0x7ffffffcull, 0x0000000700000001ull, 0xfffffff900000001ull};
  unsigned by = random >> 6;
  switch (random % 64) {
    case 0: word = (word & ~3ull) | by % 4; break;
    case 1: word = (word & ~0xfffffffcull) | (uint64_t(by % 64 - 8u) << 2 & 0xfffffffcull); break;
    case 2: case 3: word = (word & 0xffffffffull) | uint64_t(by % 4096) << 32; break;
    case 4: word = (word & 0xffff0000ffffffffull) | uint64_t(by % 8) << 32; break;
    case 5: word = (word & 0x0000ffffffffffffull) | uint64_t(by % 8) << 48; break;
    case 6: case 7: case 8: word = ends[by % (sizeof ends / sizeof *ends)]; break;
    case 9: word += by % 2 ? 4 : ~3ull; break;
    default: word ^= 1ull << by % 64; break;
  }
}

}  // namespace

extern "C" int LLVMFuzzerTestOneInput(const uint8_t* data, size_t size) {
  if (size == 0) return 0;
  const uint8_t* bytes = data + 1;
  size_t length = size - 1;
  Head head(data[0]);
  if (head.form == Words) return note(head, pack(bytes, length), 0), 0;
  auto read = head.form == Plain ? cpb_read_frames_within : cpb_packed_frames_within;
  if (head.form == Packed) unpack(bytes, length);
  uint64_t frames = read(bytes, length, 0, head.nesting, head.traversal);
  auto before = std::chrono::steady_clock::now();
  uint64_t views = read(bytes, length, 1, head.nesting, head.traversal);
  if (views > 0 && views != frames) fail("more messages than frames, or fewer");
  if (is_long(head, before)) return note(head, views, 0), 0;
  uint64_t trees = compare(views, read(bytes, length, 2, head.nesting, head.traversal));
  uint64_t words = head.form == Plain && trees > 0 ? write(head, bytes, length, trees) / 8 : trees;
  note(head, trees, words < 256 ? words : 0);
  return 0;
}

// Some words are changed, and half of the inputs become plain frames, three of eight packed ones.
extern "C" size_t LLVMFuzzerCustomMutator(uint8_t* data, size_t size, size_t max_size, unsigned seed) {
  if (size < 17 || seed % 4 == 0) return LLVMFuzzerMutate(data, size, max_size);
  bool packed = data[0] % Forms == Packed;
  static std::vector<uint64_t> words(LIMIT);
  size_t count = (size - 1) / 8;
  if (packed) count = unpacked(data + 1, size - 1, words.data(), LIMIT);
  else std::memcpy(words.data(), data + 1, 8 * count);
  if (count == 0) return LLVMFuzzerMutate(data, size, max_size);
  for (unsigned i = 0, turns = 1 + seed / 4 % 3; i < turns; i++) {
    seed = seed * 1664525u + 1013904223u;
    unsigned at = (seed >> 8) % count;
    seed = seed * 1664525u + 1013904223u;
    change(words[at], seed >> 8);
  }
  seed = seed * 1664525u + 1013904223u;
  static const uint8_t FORMS[] = {Plain, Plain, Plain, Plain, Packed, Packed, Packed, Words};
  int form = FORMS[seed >> 16 & 7];
  uint8_t first = Head::byte(form, seed >> 20);
  if (form != Packed) {
    size_t length = packed ? 8 * count : size - 1;
    if (length + 1 > max_size) return LLVMFuzzerMutate(data, size, max_size);
    std::memcpy(data + 1, words.data(), 8 * count);
    data[0] = first;
    return length + 1;
  }
  static std::vector<uint8_t> out(16 * LIMIT);
  size_t length = packed_size(words.data(), count, out);
  if (length == 0 || length + 1 > max_size) return LLVMFuzzerMutate(data, size, max_size);
  std::memcpy(data + 1, out.data(), length);
  data[0] = first;
  return length + 1;
}
