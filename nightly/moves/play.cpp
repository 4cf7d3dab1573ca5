// Plays events of vats, as docs/TESTING.md has their lines.
// play FILE: prints what each event of a file gives.
// play: two vats do what the lines of the input tell. `A EVENT` and `B EVENT` are done; `A? EVENT` and `B? EVENT` are tried on a copy, which is
// dropped; `new` begins anew, with bootstrap object 0 at each end. Each is done twice, with messages taken in as values, and read in place. After
// the lines of what a line gave comes a line with a point, and before it, where the second gave something else, `= in place` and that.
#include "../../bench/cp_probes.h"
#include <fstream>
#include <iostream>
#include <iterator>
#include <string>

// What a text of events gives, but for its first events.
static std::string play(const std::string& text, size_t skipped) {
  static std::string buffer(1 << 16, 0);
  auto bytes = reinterpret_cast<const uint8_t*>(text.data());
  size_t length = cpb_play(bytes, text.size(), skipped, reinterpret_cast<uint8_t*>(&buffer[0]), buffer.size());
  if (length > buffer.size()) {
    buffer.resize(length);
    cpb_play(bytes, text.size(), skipped, reinterpret_cast<uint8_t*>(&buffer[0]), buffer.size());
  }
  return buffer.substr(0, length);
}

// A vat is kept as its events: the same events always give the same.
struct Vat {
  std::string text;
  size_t events = 0;

  std::string tried(const std::string& event) const {
    std::string given = play("vat object:0\n" + text + event + "\n", events);
    std::string in_place = play("vat object:0 in place\n" + text + event + "\n", events);
    return in_place == given ? given : given + "= in place\n" + in_place;
  }
  std::string done(const std::string& event) {
    std::string given = tried(event);
    text += event + "\n";
    events++;
    return given;
  }
};

int main(int count, char** words) {
  if (count > 1) {
    std::ifstream file(words[1]);
    std::cout << play(std::string(std::istreambuf_iterator<char>(file), {}), 0);
    return 0;
  }
  Vat vats[2];
  for (std::string line; std::getline(std::cin, line);) {
    if (line == "new") {
      vats[0] = vats[1] = Vat();
    } else if (line.size() > 3 && (line[0] == 'A' || line[0] == 'B')) {
      Vat& vat = vats[line[0] - 'A'];
      std::cout << (line[1] == '?' ? vat.tried(line.substr(3)) : vat.done(line.substr(2)));
    }
    std::cout << "." << std::endl;
  }
}
