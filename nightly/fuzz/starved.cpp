// Sessions of a peer that are served in memory, where each allocation fails in turn.
// Usage: starved SEED SESSIONS
//
// A session is made as for `served`. Then it is served once for each of its allocations, which fails. The server must end by a refusal
// or for lack of memory, what it wrote must be a beginning of the whole, and all memory must come back. malloc and its like are wrapped (Makefile).
#include "random_session.hpp"
#include <cstdio>
#include <cstdlib>

static uint64_t allocations, failing, blocks;  // since a session began, the number of the one that fails, and the blocks in use

static bool fails() { return ++allocations == failing; }

static void* taken(void* block) {
  blocks += block != nullptr;
  return block;
}

extern "C" {
void* __real_malloc(size_t);
void* __real_calloc(size_t, size_t);
void* __real_realloc(void*, size_t);
void* __real_aligned_alloc(size_t, size_t);
void __real_free(void*);

void* __wrap_malloc(size_t size) { return fails() ? nullptr : taken(__real_malloc(size)); }
void* __wrap_calloc(size_t count, size_t size) { return fails() ? nullptr : taken(__real_calloc(count, size)); }
void* __wrap_aligned_alloc(size_t align, size_t size) { return fails() ? nullptr : taken(__real_aligned_alloc(align, size)); }
void* __wrap_realloc(void* block, size_t size) {
  if (!block) return __wrap_malloc(size);
  return fails() ? nullptr : __real_realloc(block, size);
}
void __wrap_free(void* block) {
  blocks -= block != nullptr;
  __real_free(block);
}
}

namespace {

// Serves a session whose allocation of this number fails; 0 is none.
Answer starved(const Bytes& bytes, const Session& session, uint64_t number) {
  allocations = 0;
  failing = number;
  auto before = blocks;
  auto answer = served(bytes, false, WHOLE, session.named);
  failing = 0;
  KJ_REQUIRE(blocks == before, "memory is left", number, blocks - before);
  return answer;
}

// Gives the number of allocations.
uint64_t starve(const Session& session) {
  auto bytes = joined(session.plain);
  auto whole = starved(bytes, session, 0);
  auto count = allocations;
  for (uint64_t number = 1; number <= count; number++) {
    auto answer = starved(bytes, session, number);
    KJ_REQUIRE(answer.how == REFUSED || answer.how == OUT_OF_MEMORY, "it ended otherwise", number, answer.how);
    KJ_REQUIRE(begins(answer.bytes, whole.bytes), "no beginning of what the whole wrote", number);
  }
  return count;
}

}  // namespace

int main(int argc, char** argv) {
  if (argc != 3) {
    fprintf(stderr, "usage: starved SEED SESSIONS\n");
    return 2;
  }
  uint64_t seed = strtoull(argv[1], nullptr, 10), count = strtoull(argv[2], nullptr, 10), failed = 0;
  for (uint64_t number = 0; number < count; number++) {
    Random random{std::mt19937_64(seed * 1000003 + number)};
    try {
      failed += starve(Session(random));
    } catch (const kj::Exception& exception) {
      fprintf(stderr, "session %llu of seed %llu: %s\n", (unsigned long long)number, (unsigned long long)seed, exception.getDescription().cStr());
      return 1;
    }
  }
  printf("%llu sessions, %llu allocations failed, each in turn\n", (unsigned long long)count, (unsigned long long)failed);
  return 0;
}
