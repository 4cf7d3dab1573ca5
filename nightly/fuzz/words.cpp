// Texts by a schema, calls by name, and rules with the streams that they guard, over the static library of words/. FUZZ_DATA names the folder
// with the requests that are read, of ../../tests/test_interop/data.
//
// An input is a byte and the rest, which the byte says how to read. Each is read whole and again in pieces, and must come to the same. Texts that are
// frames are shown, and what is shown is read again and shown the same.
#include <cstddef>
#include <cstdint>
#include <cstdio>
#include <cstdlib>
#include <fstream>
#include <iterator>
#include <string>

extern "C" size_t wp_texts(const uint8_t* request, size_t, const uint8_t* name, size_t, const uint8_t* texts, size_t, size_t first, size_t piece,
                           uint8_t* said, size_t);
extern "C" size_t wp_calls(const uint8_t* request, size_t, const uint8_t* words, size_t, uint8_t* said, size_t);
extern "C" size_t wp_guard(const uint8_t* request, size_t, const uint8_t* words, size_t, const uint8_t* stream, size_t, size_t piece, uint8_t* said, size_t);

// The library has no counters of its own for libFuzzer, so it is shown what was answered.
__attribute__((section("__libfuzzer_extra_counters"))) uint8_t seen[1 << 14];

namespace {

enum Kind { Texts, Calls, Guard, Kinds };
const char* const NAMES[Kinds] = {"texts", "calls", "guarded streams"};
std::string requests[Kinds], structs[16];
size_t count_of_structs = 0;

struct Tally {
  uint64_t tried[Kinds] = {}, accepted[Kinds] = {};
  ~Tally() {
    for (int i = 0; i < Kinds; i++) std::fprintf(stderr, "%s: %llu tried, %llu accepted\n", NAMES[i], (unsigned long long)tried[i], (unsigned long long)accepted[i]);
  }
} tally;

void fail(const char* what) {
  std::fprintf(stderr, "words: %s\n", what);
  std::abort();
}

std::string read(const std::string& path) {
  std::ifstream file(path, std::ios::binary);
  return std::string(std::istreambuf_iterator<char>(file), {});
}

const uint8_t* at(const std::string& text) { return reinterpret_cast<const uint8_t*>(text.data()); }

template <typename F>
std::string said(F f) {
  static std::string room(1 << 22, 0);
  size_t length = f(reinterpret_cast<uint8_t*>(&room[0]), room.size());
  if (length > room.size()) fail("more is said than was foreseen");
  return room.substr(0, length);
}

std::string of_texts(const std::string& name, const std::string& texts, size_t first, size_t piece) {
  auto& request = requests[Texts];
  return said([&](uint8_t* room, size_t size) {
    return wp_texts(at(request), request.size(), at(name), name.size(), at(texts), texts.size(), first, piece, room, size);
  });
}

std::string of_calls(const std::string& words) {
  auto& request = requests[Calls];
  return said([&](uint8_t* room, size_t size) { return wp_calls(at(request), request.size(), at(words), words.size(), room, size); });
}

std::string of_stream(const std::string& words, const std::string& stream, size_t piece) {
  auto& request = requests[Guard];
  return said([&](uint8_t* room, size_t size) {
    return wp_guard(at(request), request.size(), at(words), words.size(), at(stream), stream.size(), piece, room, size);
  });
}

bool texts(uint8_t byte, const std::string& text) {
  auto& name = structs[byte % count_of_structs];
  std::string lines = of_texts(name, text, text.size(), 1);
  if (lines != of_texts(name, text, byte / 3, byte % 7)) fail("texts in pieces come to something else");
  if (lines.empty() || lines[0] == '?') fail("what was made of texts can't be shown");
  if (lines[0] == '=' && of_texts(name, lines.substr(1), lines.size(), 1) != lines) fail("what is shown is read as something else");
  return lines[0] == '=';
}

bool calls(const std::string& words) {
  std::string lines = of_calls(words);
  if (lines != of_calls(words)) fail("calls come to something else");
  return lines.find(" i=") != std::string::npos;
}

bool guarded(uint8_t byte, const std::string& input) {
  size_t end = input.find('\n');
  if (end == std::string::npos) return false;
  std::string words = input.substr(0, end), stream = input.substr(end + 1);
  std::string lines = of_stream(words, stream, stream.size());
  if (lines != of_stream(words, stream, byte)) fail("a guarded stream in pieces comes to something else");
  return lines.size() > 2 && lines.find('!') == std::string::npos;
}

}  // namespace

extern "C" int LLVMFuzzerInitialize(int*, char***) {
  const char* folder = std::getenv("FUZZ_DATA");
  if (!folder) fail("FUZZ_DATA names no folder");
  const char* const files[Kinds] = {"texts", "calls", "guards"};
  for (int i = 0; i < Kinds; i++) requests[i] = read(std::string(folder) + "/" + files[i] + ".request");
  std::ifstream rows(std::string(folder) + "/texts.txt");
  for (std::string line; std::getline(rows, line);) {
    if (line.empty() || line[0] == '#' || count_of_structs == 16) continue;
    std::string name = line.substr(0, line.find('\t'));
    bool is_new = true;
    for (size_t i = 0; i < count_of_structs; i++) is_new = is_new && structs[i] != name;
    if (is_new) structs[count_of_structs++] = name;
  }
  if (count_of_structs == 0) fail("there are no structs");
  return 0;
}

extern "C" int LLVMFuzzerTestOneInput(const uint8_t* data, size_t size) {
  if (size == 0) return 0;
  std::string rest(reinterpret_cast<const char*>(data) + 1, size - 1);
  int kind = data[0] % Kinds;
  uint8_t byte = data[0] / Kinds;
  bool accepted = kind == Texts ? texts(byte, rest) : kind == Calls ? calls(rest) : guarded(byte, rest);
  tally.tried[kind]++;
  tally.accepted[kind] += accepted;
  seen[(kind << 12 | (accepted << 11) | rest.size() % 2048) % sizeof seen] = 1;
  return 0;
}
