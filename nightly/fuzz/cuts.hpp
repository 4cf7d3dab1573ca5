// Bytes that come in pieces, and programs that cut those of one random case after another.
#pragma once
#include "messages.hpp"
#include <malloc.h>
#include <cstdio>
#include <cstdlib>
#include <ctime>

constexpr size_t WHOLE = ~size_t(0);
constexpr std::clock_t LIMIT = 2 * CLOCKS_PER_SEC;  // of processor time, as others may keep the machine busy
inline uint64_t inputs = 0;  // streams that were read, each with its own cut

// A piece of at most `first` bytes, and then pieces of at most `piece`.
struct Cut {
  size_t first, piece;
  Cut(size_t piece) : first(piece), piece(piece) {}
  Cut(size_t first, size_t piece) : first(first), piece(piece) {}
};

// Counts an input, and gives what this gives, if it doesn't take too long.
template <class Run>
auto timed(Run run) {
  inputs++;
  auto start = std::clock();
  auto given = run();
  KJ_REQUIRE(std::clock() - start < LIMIT, "too long");
  return given;
}

// Bytes in two pieces, cut at each place in turn, and byte by byte: each time `run` gives what it gave of the whole.
template <class Given, class Run>
void cut_everywhere(size_t length, const Given& whole, Run run) {
  for (size_t at = 1; at < length; at++) KJ_REQUIRE(run(Cut(at, WHOLE)) == whole, "something else, cut at", at);
  KJ_REQUIRE(run(Cut(1)) == whole, "something else, byte by byte");
}

// The same at some places.
template <class Given, class Run>
void cut_somewhere(Random& random, size_t length, const Given& whole, Run run) {
  for (int turn = 0; turn < 8 && length > 1; turn++) {
    Cut cut(1 + random.below(length), 1 + random.below(random.one_in(2) ? 16 : 400));
    KJ_REQUIRE(run(cut) == whole, "something else by pieces", cut.first, cut.piece);
  }
  KJ_REQUIRE(run(Cut(1)) == whole, "something else, byte by byte");
}

// Some bytes are changed, or the end is cut off.
inline void change(Bytes& bytes, Random& random) {
  for (uint32_t n = 1 + random.below(6); n > 0; n--) {
    auto& byte = bytes[random.below(bytes.size())];
    byte = random.one_in(3) ? random.below(256) : random.one_in(2) ? byte ^ 1 << random.below(8) : random.below(4);
  }
  if (random.one_in(8)) bytes.resize(1 + random.below(bytes.size()));
}

// Plays cases until there were this many inputs. One that breaks a rule or leaks memory is reported with its number.
template <class Play>
int play_all(int argc, char** argv, Play play) {
  if (argc != 3) {
    fprintf(stderr, "usage: %s SEED INPUTS\n", argv[0]);
    return 2;
  }
  uint64_t seed = strtoull(argv[1], nullptr, 10), most = strtoull(argv[2], nullptr, 10), number = 0;
  size_t before = 0;
  for (; inputs < most; number++) {
    Random random{std::mt19937_64(seed * 1000003 + number)};
    try {
      play(random);
    } catch (const kj::Exception& exception) {
      fprintf(stderr, "case %llu of seed %llu: %s\n", (unsigned long long)number, (unsigned long long)seed, exception.getDescription().cStr());
      return 1;
    }
    if (number == 100) before = mallinfo2().uordblks;
  }
  printf("%llu cases, %llu inputs; memory: %zu bytes after 100 cases, %zu at the end\n", (unsigned long long)number, (unsigned long long)inputs, before,
         mallinfo2().uordblks);
  return 0;
}
