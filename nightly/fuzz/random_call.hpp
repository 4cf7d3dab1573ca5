// Conversations of a client in memory, over the static library cp_probes: a script of its calls, and what its peer sends.
#pragma once
#include "../../bench/cp_probes.h"
#include "answers.hpp"
#include "cuts.hpp"
#include <sstream>

using Lines = std::vector<std::string>;

inline Lines lines_of(const std::string& text) {
  std::istringstream stream(text);
  Lines lines;
  for (std::string line; std::getline(stream, line);) lines.push_back(line);
  return lines;
}

// What each line of a script gave, and what the client wrote.
struct Told {
  std::string lines;
  Bytes written;
  bool operator==(const Told& other) const { return lines == other.lines && written == other.written; }
};

// Plays a script on a client to which these bytes come, cut so.
inline Told called(const std::string& script, const Bytes& bytes, bool packed, Cut cut) {
  static Bytes lines(1 << 20), room(1 << 20);
  auto from = bytes.empty() ? room.data() : bytes.data();
  auto told = timed([&] {
    return cpb_call((const uint8_t*)script.data(), script.size(), from, bytes.size(), packed, cut.first, cut.piece, lines.data(), lines.size(), room.data(),
                    room.size());
  });
  KJ_REQUIRE(told.lines > 0 && told.lines <= lines.size() && told.written <= room.size(), "no lines, or more than were foreseen", told.lines, told.written);
  return {{lines.begin(), lines.begin() + told.lines}, {room.begin(), room.begin() + told.written}};
}

// Makes the lines of a script by what those before gave.
class Scripter {
  Random& random;
  std::vector<uint32_t> questions, imports;  // that were asked and not finished, and that were named and not released

  static uint32_t one_of(Random& random, const std::vector<uint32_t>& numbers) {
    return numbers.empty() || random.one_in(50) ? random.below(9) : numbers[random.below(numbers.size())];
  }

  static void remove(std::vector<uint32_t>& numbers, uint32_t number) { numbers.erase(std::remove(numbers.begin(), numbers.end(), number), numbers.end()); }

  std::string question() { return std::to_string(one_of(random, questions)); }

  std::string cap() {
    auto number = [&](const char* kind, uint32_t n) { return kind + std::to_string(n); };
    switch (random.below(40)) {
      case 0: return "none";
      case 1: return number("promise:", random.below(3));
      case 2: case 3: case 4: case 5: case 6: case 7: return number("object:", random.below(3));
      default:
        if (!imports.empty() && random.one_in(3)) return number("import:", one_of(random, imports));
        return "question:" + question() + (random.one_in(3) ? "[]" : random.one_in(8) ? "[1,0]" : number("[", random.below(3)) + "]");
    }
  }

  std::string call() {
    std::string pointers, caps;
    for (uint32_t n = random.one_in(2) ? random.below(4) : 0, i = 0; i < n; i++) {
      pointers += (i ? ",cap:" : "cap:") + std::to_string(i);
      caps += (i ? "," : "") + cap();
    }
    return "call " + cap() + " i=e5a100000000000" + std::to_string(1 + random.below(2)) + " m=" + std::to_string(random.below(3)) + " {(" +
           (random.one_in(2) ? "2900000000000000" : "") + ";" + pointers + ") caps[" + caps + "]}";
  }

 public:
  explicit Scripter(Random& random) : random(random) {}

  std::string line() {
    auto kind = random.below(100);
    if (questions.empty() || kind < 3) return "bootstrap";
    if (kind < 50) return call();
    if (kind < 80) return "wait " + question();
    if (kind < 92) return "finish " + question();
    if (kind < 98 && !imports.empty()) return "release " + std::to_string(one_of(random, imports));
    return "serve";
  }

  // Notes what the last line gave.
  void note(const std::string& line, const std::string& given) {
    uint32_t number;
    if (sscanf(given.c_str(), "question:%u", &number) == 1 && line[0] != 'w') questions.push_back(number);
    if (sscanf(line.c_str(), "finish %u", &number) == 1 && given == "done") remove(questions, number);
    if (sscanf(line.c_str(), "release %u", &number) == 1 && given == "done") remove(imports, number);
    for (auto at = given.find("import:"); at != given.npos; at = given.find("import:", at + 1)) {
      number = strtoul(given.c_str() + at + 7, nullptr, 10);
      remove(imports, number);
      imports.push_back(number);
    }
  }
};

struct Conversation : Written {
  std::string script;

  // Makes lines and messages one by one: a message mostly where a line waits for one, so that both fit.
  explicit Conversation(Random& random) {
    Scripter scripter(random);
    Answerer answerer(random);
    size_t heard = 0;
    bool waits = false;
    for (uint32_t n = 8 + random.below(64); n > 0; n--) {
      if (waits ? random.one_in(30) : !random.one_in(20)) script += scripter.line() + "\n";
      else {
        capnp::MallocMessageBuilder message;
        answerer.make(message.initRoot<rpc::Message>());
        add(message);
      }
      auto told = called(script, joined(plain), false, WHOLE);
      auto script_lines = lines_of(script), given = lines_of(told.lines);
      if (script_lines.empty()) continue;
      auto& last = given[script_lines.size() - 1];
      scripter.note(script_lines.back(), last);
      waits = last == "refused: the peer's messages ended";
      heard = note(told.written, heard, answerer);
    }
    script += "serve\n";
  }

  // Notes the messages of these bytes but for the first ones. Gives how many there are.
  static size_t note(const Bytes& written, size_t heard, Answerer& answerer) {
    size_t number = 0;
    kj::ArrayInputStream input(kj::arrayPtr(written.data(), written.size()));
    while (input.tryGetReadBuffer().size()) {
      capnp::InputStreamMessageReader reader(input);
      if (++number > heard) answerer.note(reader.getRoot<rpc::Message>());
    }
    return std::max(number, heard);
  }
};
