// A peer of the Desk and the Cell of `capnp_cli serve`: it makes random messages, and tests what comes back.
// A Cell's answers are sums, of random amounts, in the order in which it was called: so each sum says which call it answers.
#pragma once
#include "../fuzz/messages.hpp"
#include <chrono>
#include <cstring>
#include <deque>
#include <functional>

using Clock = std::chrono::steady_clock;

// Of all askers together.
struct Counts {
  uint64_t messages = 0, asked = 0, answered = 0;
};

// NO_METHOD calls a method that the object lacks, NO_POINTER a pointer that results lack.
enum class Kind { BOOTSTRAP, NOW, LATER, ADD, GET, NO_METHOD, NO_POINTER };

// What is called: an import, or what a question gives.
struct Target {
  uint64_t interface;
  bool is_import;
  uint32_t number;
  uint64_t name;  // of the import, or of the question, which no other one has
  bool waits;     // a `later` may have to be answered first
};

struct Question {
  Kind kind;
  uint64_t serial;  // the number of its message
  uint64_t target;  // the name of what it calls
  uint64_t amount;
  bool waits;
  Clock::time_point asked;
  bool returned = false, finished = false, releases = false;
  std::vector<uint32_t> imports;  // that its results name
};

// What the server exports to this peer.
struct Import {
  uint64_t interface;
  uint32_t count = 0, kept = 0;  // how often it came, and how often of these no open question names it
};

class Asker {
  static constexpr uint32_t NUMBERS = 256, NEVER = 1 << 20;

  Random& random;
  Counts& counts;
  std::map<uint32_t, Question> questions;       // those whose number is in use
  std::map<uint32_t, Import> imports;
  std::map<uint32_t, uint32_t> gifts;           // how often each object was given away and not released
  std::map<uint64_t, uint64_t> last_answered;   // of each target, the serial of the question
  std::deque<uint64_t> echoes;                  // what is to be sent back
  uint64_t sum = 0;                             // of the Cell
  uint64_t messages = 0;

  template <class F>
  void put(F make) {
    capnp::MallocMessageBuilder message;
    make(message.initRoot<rpc::Message>());
    auto frame = bytes_of(message, false);
    made.insert(made.end(), frame.begin(), frame.end());
    messages++;
    counts.messages++;
  }

  std::vector<Target> targets() {
    std::vector<Target> all;
    for (auto& [id, it] : imports) all.push_back({it.interface, true, id, id, false});
    for (auto& [number, it] : questions) {
      bool is_cell = it.kind == Kind::NOW || it.kind == Kind::LATER;
      if (it.finished || !(is_cell || it.kind == Kind::BOOTSTRAP)) continue;
      all.push_back({is_cell ? CELL : DESK, false, number, it.serial << 32, it.waits && !it.returned});
    }
    return all;
  }

  // Some of the questions, as a condition says.
  std::vector<uint32_t> numbers(std::function<bool(const Question&)> is_wanted) {
    std::vector<uint32_t> some;
    for (auto& [number, it] : questions) {
      if (is_wanted(it)) some.push_back(number);
    }
    return some;
  }

  template <class T>
  T one_of(const std::vector<T>& some) { return some[random.below(some.size())]; }

  // Notes a question under a number that isn't in use, and gives that.
  uint32_t open(Kind kind, uint64_t target, uint64_t amount, bool waits) {
    uint32_t number = random.below(NUMBERS);
    while (questions.count(number)) number = (number + 1) % NUMBERS;
    questions[number] = {kind, messages + 1, target, amount, waits, Clock::now()};
    counts.asked++;
    return number;
  }

  void bootstrap() {
    auto number = open(Kind::BOOTSTRAP, NEVER, 0, false);
    put([&](rpc::Message::Builder message) { message.initBootstrap().setQuestionId(number); });
  }

  Kind kind_of_call(uint64_t interface) {
    if (random.one_in(40)) return Kind::NO_METHOD;
    if (interface == CELL) return random.one_in(4) ? Kind::GET : Kind::ADD;
    return random.one_in(2) ? Kind::NOW : Kind::LATER;
  }

  void call(const Target& target, Kind kind) {
    uint64_t amount = random.engine();
    auto number = open(kind, target.name, amount, target.waits || kind == Kind::LATER);
    put([&](rpc::Message::Builder message) {
      auto call = message.initCall();
      call.setQuestionId(number);
      call.setInterfaceId(target.interface);
      call.setMethodId(kind == Kind::NO_METHOD ? 2 : kind == Kind::LATER || kind == Kind::GET);
      if (target.is_import) call.initTarget().setImportedCap(target.number);
      else {
        auto answer = call.initTarget().initPromisedAnswer();
        answer.setQuestionId(target.number);
        if (target.interface == CELL) answer.initTransform(1)[0].setGetPointerField(0);
      }
      give(call.initParams(), amount);
    });
  }

  // Calls a pointer of what an `add` or a `get` gives, which has none.
  void call_value(uint32_t number) {
    auto& question = questions[number];
    call({CELL, false, number, question.serial << 32, question.waits && !question.returned}, Kind::NO_POINTER);
  }

  // Params: the amount, sometimes much beside it, and objects that the server is to release, also those of a call that fails before it gets
  // to an object.
  void give(rpc::Payload::Builder params, uint64_t amount) {
    uint32_t more = random.one_in(500) ? random.below(1 << 14) : random.below(8);
    auto words = params.getContent().initAsAnyStruct(1 + more, 0).getDataSection();
    memcpy(words.begin(), &amount, sizeof amount);
    for (size_t i = sizeof amount; i < words.size(); i += 8) words[i] = random.below(256);
    for (auto descriptor : params.initCapTable(random.one_in(3) ? random.below(4) : 0)) {
      uint32_t id = random.below(20);
      descriptor.setSenderHosted(id);
      gifts[id]++;
    }
  }

  void finish(uint32_t number) {
    auto& question = questions[number];
    question.finished = true;
    question.releases = random.one_in(2);
    put([&](rpc::Message::Builder message) {
      auto finish = message.initFinish();
      finish.setQuestionId(number);
      finish.setReleaseResultCaps(question.releases);
    });
    if (question.returned) forget(number);
  }

  // What a question gave is kept or was released by its Finish.
  void forget(uint32_t number) {
    auto& question = questions[number];
    for (auto id : question.imports) {
      if (question.releases) lower(id, 1);
      else imports[id].kept++;
    }
    questions.erase(number);
  }

  void lower(uint32_t id, uint32_t count) {
    imports[id].count -= count;
    if (imports[id].count == 0) imports.erase(id);
  }

  void release(uint32_t id, uint32_t count) {
    put([&](rpc::Message::Builder message) {
      auto release = message.initRelease();
      release.setId(id);
      release.setReferenceCount(count);
    });
    imports[id].kept -= count;
    lower(id, count);
  }

  void release_one() {
    std::vector<uint32_t> kept;
    for (auto& [id, it] : imports) {
      if (it.kept) kept.push_back(id);
    }
    if (kept.empty()) return;
    uint32_t id = one_of(kept);
    release(id, 1 + random.below(imports[id].kept));
  }

  void take_value(rpc::Payload::Reader results, uint64_t wanted) {
    auto words = results.getContent().getAs<capnp::AnyStruct>().getDataSection();
    KJ_REQUIRE(words.size() == sizeof wanted && results.getCapTable().size() == 0);
    memcpy(&sum, words.begin(), sizeof sum);
    KJ_REQUIRE(sum == wanted, "a value of another call");
  }

  void take_object(rpc::Payload::Reader results, Question& question) {
    uint64_t interface = question.kind == Kind::BOOTSTRAP ? DESK : CELL;
    auto content = results.getContent();
    if (interface == CELL) content = content.getAs<capnp::AnyStruct>().getPointerSection()[0];
    KJ_REQUIRE(content.isCapability() && results.getCapTable().size() == 1);
    auto descriptor = results.getCapTable()[0];
    KJ_REQUIRE(descriptor.isSenderHosted());
    auto& import = imports[descriptor.getSenderHosted()];
    KJ_REQUIRE(import.count++ == 0 || import.interface == interface, "another object has this number");
    import.interface = interface;
    question.imports.push_back(descriptor.getSenderHosted());
  }

  void take_outcome(rpc::Return::Reader answer, Question& question) {
    if (answer.isCanceled()) {
      KJ_REQUIRE(question.finished, "canceled, and not finished");
    } else if (question.kind == Kind::NO_METHOD || question.kind == Kind::NO_POINTER) {
      KJ_REQUIRE(answer.isException(), "no exception");
      bool lacks_method = answer.getException().getType() == rpc::Exception::Type::UNIMPLEMENTED;
      KJ_REQUIRE(lacks_method == (question.kind == Kind::NO_METHOD), answer.getException());
    } else {
      KJ_REQUIRE(answer.isResults(), "no results", answer);
      if (question.kind == Kind::ADD) take_value(answer.getResults(), sum + question.amount);
      else if (question.kind == Kind::GET) take_value(answer.getResults(), sum);
      else take_object(answer.getResults(), question);
    }
  }

  void take_return(rpc::Return::Reader answer) {
    auto found = questions.find(answer.getAnswerId());
    KJ_REQUIRE(found != questions.end() && !found->second.returned, "a Return that answers nothing", answer.getAnswerId());
    auto& question = found->second;
    KJ_REQUIRE(!answer.getReleaseParamCaps());
    if (question.kind != Kind::LATER) {
      auto& last = last_answered[question.target];
      KJ_REQUIRE(last < question.serial, "calls of one target are answered out of order");
      last = question.serial;
    }
    take_outcome(answer, question);
    question.returned = true;
    took = Clock::now() - question.asked;
    counts.answered++;
    if (question.finished) forget(found->first);
  }

  void take_release(rpc::Release::Reader release) {
    auto gift = gifts.find(release.getId());
    KJ_REQUIRE(gift != gifts.end() && release.getReferenceCount() <= gift->second, "a Release of what it doesn't hold");
    gift->second -= release.getReferenceCount();
    if (gift->second == 0) gifts.erase(gift);
  }

  void take_echo(rpc::Message::Reader message) {
    KJ_REQUIRE(message.isObsoleteSave() && !echoes.empty(), "an Unimplemented of what is implemented");
    auto words = message.getObsoleteSave().getAs<capnp::AnyStruct>().getDataSection();
    KJ_REQUIRE(words.size() == sizeof echoes[0] && memcmp(words.begin(), &echoes[0], words.size()) == 0, "another echo");
    echoes.pop_front();
  }

 public:
  Bytes made;              // messages that weren't taken to be sent
  Clock::duration took{};  // from the last question that was answered to its answer
  std::string aborted;     // the reason of the server's Abort

  Asker(Random& random, Counts& counts) : random(random), counts(counts) {}

  // Makes a random message, mostly a call.
  void ask() {
    auto known = targets();
    auto kind = random.below(100);
    auto ended = numbers([](const Question& it) { return !it.finished && (it.returned || it.kind == Kind::LATER || it.kind == Kind::GET); });
    auto values = numbers([](const Question& it) { return !it.finished && (it.kind == Kind::ADD || it.kind == Kind::GET); });
    bool is_full = questions.size() == NUMBERS;
    if (known.empty() && !is_full) bootstrap();
    else if ((kind < 30 || is_full) && !ended.empty()) finish(one_of(ended));
    else if (kind < 40 || is_full) release_one();
    else if (kind < 43) echo();
    else if (kind < 45) bootstrap();
    else if (kind < 47 && !values.empty()) call_value(one_of(values));
    else {
      auto target = one_of(known);
      call(target, kind_of_call(target.interface));
    }
  }

  // Makes a message that comes back, and so do before it all answers that needn't wait.
  void echo() {
    echoes.push_back(random.engine());
    put([&](rpc::Message::Builder message) {
      auto words = message.initObsoleteSave().initAsAnyStruct(1, 0).getDataSection();
      memcpy(words.begin(), &echoes.back(), words.size());
    });
  }

  void abort() {
    put([](rpc::Message::Builder message) { message.initAbort().setReason("enough"); });
  }

  // Makes a message that is a fault, and gives the reason of the Abort for it.
  std::string fault() {
    auto in_use = numbers([](const Question& it) { return !it.finished; });
    constexpr const char* REASONS[] = {"P3 unknown answer", "P2 unknown question", "P4 unknown export", "P12 peer lacks level 1", "P1 question in use"};
    auto kind = random.below(in_use.empty() ? 4 : 5);
    put([&](rpc::Message::Builder message) {
      switch (kind) {
        case 0: message.initFinish().setQuestionId(NEVER); break;
        case 1: message.initReturn().setAnswerId(NEVER); break;
        case 2: message.initRelease().setId(NEVER); break;
        case 3: message.initUnimplemented().initCall(); break;
        default: message.initBootstrap().setQuestionId(one_of(in_use));
      }
    });
    return REASONS[kind];
  }

  // Finishes what was answered, and releases what nothing names.
  void give_up() {
    for (auto number : numbers([](const Question& it) { return it.returned && !it.finished; })) finish(number);
    auto before = imports;
    for (auto& [id, it] : before) {
      if (it.kept) release(id, it.kept);
    }
  }

  // Nothing is open at either end.
  bool is_clean() const { return questions.empty() && imports.empty() && gifts.empty() && echoes.empty(); }

  // Something still has to come: with `at_once` something that waits for no `later`.
  bool awaits(bool at_once = false) const {
    auto is_due = [&](auto& it) { return !it.second.returned && !(at_once && it.second.waits); };
    return !echoes.empty() || std::any_of(questions.begin(), questions.end(), is_due);
  }

  bool has_gifts_out() const { return !gifts.empty(); }

  void take(rpc::Message::Reader message) {
    KJ_REQUIRE(aborted.empty(), "a message behind an Abort");
    if (message.isReturn()) take_return(message.getReturn());
    else if (message.isRelease()) take_release(message.getRelease());
    else if (message.isUnimplemented()) take_echo(message.getUnimplemented());
    else {
      KJ_REQUIRE(message.isAbort(), "a message that it has no reason to send", message);
      aborted = message.getAbort().getReason().cStr();
    }
  }
};
