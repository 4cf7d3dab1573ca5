// Random sessions of a peer: the messages that it sends, and what must hold of those that come back.
#pragma once
#include <capnp/message.h>
#include <capnp/rpc.capnp.h>
#include <capnp/serialize-packed.h>
#include <capnp/serialize.h>
#include <kj/debug.h>
#include <kj/io.h>
#include <algorithm>
#include <cstdint>
#include <map>
#include <random>
#include <string>
#include <vector>

namespace rpc = capnp::rpc;
using Bytes = std::vector<kj::byte>;
using Frames = std::vector<Bytes>;

constexpr uint64_t DESK = 0xe5a1000000000001, CELL = 0xe5a1000000000002;

struct Random {
  std::mt19937_64 engine;
  uint32_t below(uint32_t n) { return engine() % n; }
  bool one_in(uint32_t n) { return below(n) == 0; }
};

// Makes the messages of one session.
class Maker {
 protected:
  Random& random;
  std::map<uint32_t, std::vector<uint32_t>> questions;  // those that were not finished, with the exports that their results name
  std::map<uint32_t, uint32_t> exports;                 // of the server, as often as they were named and not given back
  uint32_t next_question = 0, next_export = 0, next_embargo = 0;

  // A number that was never heard of, now and then.
  uint32_t number(uint32_t fitting) { return random.one_in(1500) ? random.below(70000) : fitting; }

  template <class T>
  uint32_t one_of(const std::map<uint32_t, T>& map) {
    return map.empty() ? 0 : number(std::next(map.begin(), random.below(map.size()))->first);
  }

  uint32_t a_new_question() {
    auto question = number(next_question++);
    questions[question];
    return question;
  }

  void lower(uint32_t id, uint32_t count) {
    auto found = exports.find(id);
    if (found != exports.end() && found->second > count) found->second -= count;
    else exports.erase(id);
  }

  void make(rpc::PromisedAnswer::Builder answer) {
    answer.setQuestionId(one_of(questions));
    auto transform = answer.initTransform(random.one_in(3) ? 1 : random.one_in(20) ? random.below(17 + random.one_in(20)) : 0);
    for (auto op : transform) {
      if (random.one_in(10)) op.setNoop();
      else op.setGetPointerField(random.one_in(10) ? random.below(4) : 0);
    }
  }

  void make(rpc::MessageTarget::Builder target) {
    if (random.one_in(2) && !exports.empty()) target.setImportedCap(one_of(exports));
    else make(target.initPromisedAnswer());
  }

  void make(rpc::CapDescriptor::Builder descriptor) {
    switch (random.below(8)) {
      case 0: descriptor.setNone(); break;
      case 1: case 2: descriptor.setSenderHosted(random.one_in(2) && next_export ? random.below(next_export) : next_export++); break;
      case 3: case 4: descriptor.setSenderPromise(random.one_in(2) && next_export ? random.below(next_export) : next_export++); break;
      case 5:
        if (!exports.empty()) descriptor.setReceiverHosted(one_of(exports));
        break;
      case 6: make(descriptor.initReceiverAnswer()); break;
      default:
        if (random.one_in(20)) descriptor.initThirdPartyHosted().setVineId(next_export++);
        else descriptor.setNone();
    }
  }

  void make(rpc::Payload::Builder payload) {
    auto content = payload.getContent().initAsAnyStruct(random.below(3), random.below(3));
    for (auto& byte : content.getDataSection()) byte = random.below(256);
    auto table = payload.initCapTable(random.one_in(3) ? random.below(5) : 0);
    for (auto descriptor : table) make(descriptor);
    auto pointers = content.getPointerSection();
    for (capnp::uint i = 0; i < pointers.size(); i++) {
      if (random.one_in(3)) pointers[i].setAs<capnp::Text>("text");
      else if (random.one_in(10)) pointers[i].initAsAnyStruct(1, 1).getPointerSection()[0].initAsListOfAnyStruct(1, 1, random.below(5));
    }
  }

  void make_call(rpc::Call::Builder call) {
    make(call.initTarget());
    call.setInterfaceId(random.one_in(20) ? random.below(9) : random.one_in(2) ? DESK : CELL);
    call.setMethodId(random.one_in(20) ? 2 : random.below(2));
    if (at_once && call.getInterfaceId() == DESK) call.setMethodId(0);
    make(call.initParams());
    if (random.one_in(150)) call.getSendResultsTo().setYourself();
    call.setQuestionId(a_new_question());
  }

  void make_finish(rpc::Finish::Builder finish) {
    uint32_t question = one_of(questions);
    finish.setQuestionId(question);
    finish.setReleaseResultCaps(random.one_in(2));
    if (finish.getReleaseResultCaps()) {
      for (auto id : questions[question]) lower(id, 1);
    }
    questions.erase(question);
  }

  void make_release(rpc::Release::Builder release) {
    uint32_t id = one_of(exports);
    release.setId(id);
    release.setReferenceCount(random.one_in(3) ? exports[id] : 1);
    lower(id, release.getReferenceCount());
  }

  void make_resolve(rpc::Resolve::Builder resolve) {
    resolve.setPromiseId(number(next_export ? random.below(next_export) : 0));
    if (random.one_in(5)) resolve.initException().setReason("broken");
    else make(resolve.initCap());
  }

  void make_disembargo(rpc::Disembargo::Builder disembargo) {
    make(disembargo.initTarget());
    if (random.one_in(50)) disembargo.getContext().setReceiverLoopback(next_embargo);
    else if (random.one_in(50)) disembargo.getContext().setAccept();
    else disembargo.getContext().setSenderLoopback(next_embargo++);
  }

 public:
  bool at_once = false;  // whether no call of a Desk's is answered later, with a poll

  explicit Maker(Random& random) : random(random) {}

  // What came back: a Return names exports once more.
  void note(rpc::Message::Reader message) {
    if (!message.isReturn() || !message.getReturn().isResults()) return;
    auto question = questions.find(message.getReturn().getAnswerId());
    for (auto descriptor : message.getReturn().getResults().getCapTable()) {
      if (!descriptor.isSenderHosted() && !descriptor.isSenderPromise()) continue;
      auto id = descriptor.isSenderHosted() ? descriptor.getSenderHosted() : descriptor.getSenderPromise();
      exports[id]++;
      if (question != questions.end()) question->second.push_back(id);
    }
  }

  void make(rpc::Message::Builder message) {
    auto kind = random.below(3000);
    if (questions.empty() || kind < 150) message.initBootstrap().setQuestionId(a_new_question());
    else if (kind < 1950) make_call(message.initCall());
    else if (kind < 2500) make_finish(message.initFinish());
    else if (kind < 2700 && !exports.empty()) make_release(message.initRelease());
    else if (kind < 2730) make_resolve(message.initResolve());
    else if (kind < 2780) message.initProvide().setQuestionId(random.below(9));
    else if (kind < 2980) message.initObsoleteSave().initAsAnyStruct(1, 0);
    else if (kind < 2985) make_disembargo(message.initDisembargo());
    else if (kind < 2990) make(message.initUnimplemented());
    else if (kind < 2992) message.initReturn().setAnswerId(random.below(9));
    else if (kind < 2995) message.initAbort().setReason("enough");
    else make_call(message.initCall());
  }
};

// Has a Maker note the messages of these bytes but for the first ones. Gives how many there are.
template <class Noting>
size_t hear(const Bytes& back, size_t heard, Noting& maker) {
  size_t number = 0;
  kj::ArrayInputStream input(kj::arrayPtr(back.data(), back.size()));
  while (input.tryGetReadBuffer().size()) {
    capnp::InputStreamMessageReader reader(input);
    if (++number > heard) maker.note(reader.getRoot<rpc::Message>());
  }
  return std::max(number, heard);
}

inline Bytes bytes_of(capnp::MessageBuilder& message, bool packed) {
  kj::VectorOutputStream output;
  if (packed) capnp::writePackedMessage(output, message);
  else capnp::writeMessage(output, message);
  auto bytes = output.getArray();
  return {bytes.begin(), bytes.end()};
}

inline Bytes unpacked(const Bytes& bytes) {
  kj::ArrayInputStream input(kj::arrayPtr(bytes.data(), bytes.size()));
  Bytes all;
  while (input.tryGetReadBuffer().size()) {
    capnp::PackedMessageReader message(input);
    capnp::MallocMessageBuilder copy;
    auto segments = kj::Vector<kj::ArrayPtr<const capnp::word>>();
    for (capnp::uint i = 0;; i++) {
      auto segment = message.getSegment(i);
      if (segment == nullptr) break;
      segments.add(segment);
    }
    auto words = capnp::messageToFlatArray(segments.asPtr());
    all.insert(all.end(), words.asBytes().begin(), words.asBytes().end());
  }
  return all;
}

inline Bytes joined(const Frames& frames) {
  Bytes all;
  for (auto& frame : frames) all.insert(all.end(), frame.begin(), frame.end());
  return all;
}

// The frames of a session, plain and packed.
struct Written {
  Frames plain, packed;

  void add(capnp::MessageBuilder& message) {
    plain.push_back(bytes_of(message, false));
    packed.push_back(bytes_of(message, true));
  }

  // Frames are dropped, repeated and swapped.
  void change(Random& random) {
    for (uint32_t n = 1 + random.below(3); n > 0 && plain.size() > 1; n--) {
      uint32_t at = random.below(plain.size() - 1);
      switch (random.below(3)) {
        case 0: for (auto frames : {&plain, &packed}) frames->erase(frames->begin() + at); break;
        case 1: for (auto frames : {&plain, &packed}) frames->insert(frames->begin() + at, Bytes((*frames)[at])); break;
        case 2: for (auto frames : {&plain, &packed}) std::swap((*frames)[at], (*frames)[at + 1]); break;
      }
    }
  }
};

// The bytes that came back are messages; each Return answers a question that was asked, each of its lives once.
inline void look_at(const Bytes& back, const Frames& frames, uint64_t& answers, std::map<std::string, uint64_t>& aborts) {
  std::map<uint32_t, int> asked, returned;
  for (auto& frame : frames) {
    kj::ArrayInputStream input(kj::arrayPtr(frame.data(), frame.size()));
    capnp::InputStreamMessageReader reader(input);
    auto message = reader.getRoot<rpc::Message>();
    if (message.isCall()) asked[message.getCall().getQuestionId()]++;
    if (message.isBootstrap()) asked[message.getBootstrap().getQuestionId()]++;
  }
  kj::ArrayInputStream input(kj::arrayPtr(back.data(), back.size()));
  while (input.tryGetReadBuffer().size()) {
    capnp::InputStreamMessageReader reader(input);
    auto message = reader.getRoot<rpc::Message>();
    answers++;
    if (message.isReturn()) {
      auto id = message.getReturn().getAnswerId();
      KJ_REQUIRE(++returned[id] <= asked[id], "a Return that answers nothing", id);
    }
    if (message.isAbort()) {
      KJ_REQUIRE(input.tryGetReadBuffer().size() == 0, "messages after an Abort");
      aborts[message.getAbort().getReason().cStr()]++;
    }
  }
}

// Whether a message depends on when a server gives imports up: a Release, and the Abort for a Resolve of what isn't a promise, which is a fault
// only while that import is held.
inline bool depends_on_releases(rpc::Message::Reader message) {
  return message.isRelease() || (message.isAbort() && message.getAbort().getReason() == "P6 not an open promise");
}

// The bytes that came back, up to the last whole frame, without such messages.
inline Bytes without_releases(const Bytes& back) {
  Bytes kept;
  kj::ArrayInputStream input(kj::arrayPtr(back.data(), back.size()));
  for (size_t from = 0; from < back.size();) {
    bool depends;
    try {
      capnp::InputStreamMessageReader reader(input);
      depends = depends_on_releases(reader.getRoot<rpc::Message>());
    } catch (const kj::Exception&) {
      break;
    }
    size_t to = back.size() - input.tryGetReadBuffer().size();
    if (!depends) kept.insert(kept.end(), back.begin() + from, back.begin() + to);
    from = to;
  }
  return kept;
}

inline bool begins(const Bytes& part, const Bytes& whole) { return part.size() <= whole.size() && std::equal(part.begin(), part.end(), whole.begin()); }
