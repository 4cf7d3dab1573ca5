// What a peer sends to the server of cpb_serve: a Script, a Cell and a Desk, objects 0 to 2.
#pragma once
#include "cp_probes.h"
#include <capnp/message.h>
#include <capnp/rpc.capnp.h>
#include <capnp/serialize.h>
#include <kj/io.h>
#include <algorithm>
#include <cstdio>
#include <cstdlib>
#include <cstring>
#include <vector>

namespace session {
namespace rpc = capnp::rpc;

// The exports of a session that has begun. The Script answers as `named` says, the Cell by a word at once, and the Desk by a
// pointer to the Cell, two messages later.
enum Export : uint32_t { SCRIPT, CELL, DESK, FIRST_FREE };

// What the Script answers a call with: an object by its number, or one of these.
constexpr uint64_t NO_ANSWER = 0, IMPORT = uint64_t(1) << 32;

struct Peer {
  std::vector<uint8_t> bytes;   // frames, one after another
  std::vector<uint64_t> named;  // what the Script answers its calls with

  Peer& operator+=(const Peer& more) {
    bytes.insert(bytes.end(), more.bytes.begin(), more.bytes.end());
    named.insert(named.end(), more.named.begin(), more.named.end());
    return *this;
  }

  // A message, as a frame of one segment.
  template <class F>
  Peer& with(F make) {
    static capnp::word segment[1 << 16];
    capnp::MallocMessageBuilder message(kj::ArrayPtr<capnp::word>(segment, 1 << 16));
    make(message.initRoot<rpc::Message>());
    kj::VectorOutputStream output;
    capnp::writeMessage(output, message);
    auto written = output.getArray();
    bytes.insert(bytes.end(), written.begin(), written.end());
    return *this;
  }

  Peer& bootstrap(uint32_t question) {
    return with([&](rpc::Message::Builder message) { message.initBootstrap().setQuestionId(question); });
  }

  // A call of an export, and what else it has: of the Script as of a Desk's `now`, of the Desk's `later`, and else of a Cell's `get`.
  template <class F>
  Peer& call(uint32_t question, uint32_t to, F more) {
    return with([&](rpc::Message::Builder message) {
      auto call = message.initCall();
      call.setQuestionId(question);
      call.setInterfaceId(to == CELL ? 0xe5a1000000000002 : 0xe5a1000000000001);
      call.setMethodId(to != SCRIPT);
      call.initTarget().setImportedCap(to);
      call.initParams();
      more(call);
    });
  }

  Peer& call(uint32_t question, uint32_t to = CELL) {
    return call(question, to, [](rpc::Call::Builder) {});
  }

  // A call of the Script, and what that answers.
  template <class F>
  Peer& given(uint32_t question, uint64_t cap, F more) {
    named.push_back(cap);
    return call(question, SCRIPT, more);
  }

  Peer& given(uint32_t question, uint64_t cap) {
    return given(question, cap, [](rpc::Call::Builder) {});
  }

  // A call of what a call gives, or of a pointer of that, and what else it has.
  template <class F>
  Peer& pipelined(uint32_t question, uint32_t on, bool of_pointer, F more) {
    return call(question, CELL, [&](rpc::Call::Builder call) {
      auto answer = call.getTarget().initPromisedAnswer();
      answer.setQuestionId(on);
      if (of_pointer) answer.initTransform(1)[0].setGetPointerField(0);
      more(call);
    });
  }

  Peer& pipelined(uint32_t question, uint32_t on, bool of_pointer = false) {
    return pipelined(question, on, of_pointer, [](rpc::Call::Builder) {});
  }

  // A Return of results, and what else they have.
  template <class F>
  Peer& results(uint32_t question, F more) {
    return with([&](rpc::Message::Builder message) {
      auto returned = message.initReturn();
      returned.setAnswerId(question);
      returned.setReleaseParamCaps(false);
      more(returned.initResults());
    });
  }

  Peer& results(uint32_t question) {
    return results(question, [](rpc::Payload::Builder) {});
  }

  Peer& finish(uint32_t question, bool releases = true) {
    return with([&](rpc::Message::Builder message) {
      auto finish = message.initFinish();
      finish.setQuestionId(question);
      finish.setReleaseResultCaps(releases);
    });
  }

  Peer& release(uint32_t id) {
    return with([&](rpc::Message::Builder message) {
      auto release = message.initRelease();
      release.setId(id);
      release.setReferenceCount(1);
    });
  }
};

inline Peer times(uint32_t count, const Peer& one) {
  Peer all;
  all.bytes.reserve(count * one.bytes.size());
  for (uint32_t i = 0; i < count; i++) all += one;
  return all;
}

// A call whose params are so large that a program recognises it by their allocation. (The Desk has them as a tree; a Cell reads them in place.)
constexpr uint32_t MARK_WORDS = 1237;

inline Peer mark() {
  return Peer().call(1, DESK, [](rpc::Call::Builder call) { call.getParams().getContent().initAsAnyStruct(MARK_WORDS, 0); }).finish(1);
}

// The three objects are exported, and no answer is kept.
inline Peer begun() {
  Peer peer;
  peer.bootstrap(0).finish(0, false);
  for (uint32_t object : {CELL, DESK}) peer.given(1, object).finish(1, false);
  return peer;
}

// Fills a capability table.
template <class F>
auto table(uint32_t count, F set) {
  return [=](rpc::Call::Builder call) {
    auto caps = call.getParams().initCapTable(count);
    for (uint32_t i = 0; i < count; i++) set(caps[i], i);
  };
}

// Calls of the Script whose tables have this many descriptors of the peer's, which the server keeps. They leave no answer.
template <class F>
Peer naming(uint32_t count, F set) {
  Peer peer;
  for (uint32_t at = 0; at < count; at += 1000) {
    auto some = table(std::min(1000u, count - at), [=](rpc::CapDescriptor::Builder cap, uint32_t i) { set(cap, at + i); });
    peer.given(1, CELL, some).finish(1);
  }
  return peer;
}

inline Peer hosts(uint32_t count) {
  return naming(count, [](rpc::CapDescriptor::Builder cap, uint32_t id) { cap.setSenderHosted(id); });
}

constexpr size_t ROOM = 64 << 20;

// The server takes all that in. Gives the number of bytes that it wrote.
inline size_t serve(const Peer& peer) {
  static std::vector<uint8_t> room(ROOM);
  auto served = cpb_serve(peer.bytes.data(), peer.bytes.size(), false, SIZE_MAX, SIZE_MAX, peer.named.data(), peer.named.size(), room.data(), ROOM);
  if (served.how || served.written > ROOM) {
    fprintf(stderr, "a session ended by %d with %zu bytes written\n", served.how, served.written);
    exit(1);
  }
  return served.written;
}

// The same, and tests that nothing failed in what the server sends.
inline void check(const Peer& peer) {
  std::vector<capnp::word> room(ROOM / 8);
  auto served = cpb_serve(peer.bytes.data(), peer.bytes.size(), false, SIZE_MAX, SIZE_MAX, peer.named.data(), peer.named.size(),
                          reinterpret_cast<uint8_t*>(room.data()), ROOM);
  kj::ArrayPtr<const capnp::word> left(room.data(), served.written / 8);
  while (left.size()) {
    capnp::FlatArrayMessageReader reader(left);
    auto message = reader.getRoot<rpc::Message>();
    if (message.isAbort() || message.isUnimplemented() || (message.isReturn() && message.getReturn().isException())) {
      fprintf(stderr, "the server sent %s\n", kj::str(message).cStr());
      exit(1);
    }
    left = kj::arrayPtr(reader.getEnd(), left.end());
  }
}
}  // namespace session
