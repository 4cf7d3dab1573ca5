// A whole message read by the reference library, as `capnp_cli check` does it: each field, each pointer, each word.
#pragma once
#include <capnp/any.h>
#include <capnp/message.h>
#include <capnp/rpc.capnp.h>
#include <capnp/serialize-packed.h>
#include <capnp/serialize.h>
#include <kj/io.h>
#include <cstdint>
#include <cstring>

namespace whole {
namespace rpc = capnp::rpc;

// The limits that the command keeps to where no other are asked for.
inline capnp::ReaderOptions limits() {
  capnp::ReaderOptions options;
  options.traversalLimitInWords = 8u << 20;
  options.nestingLimit = 64;
  return options;
}

inline uint64_t words_of(const uint8_t* bytes, size_t count) {
  uint64_t sum = 0, word = 0;
  for (; count >= 8; count -= 8, bytes += 8) {
    memcpy(&word, bytes, 8);
    sum ^= word;
  }
  for (; count; count--) sum ^= *bytes++;
  return sum;
}

inline uint64_t tree(capnp::AnyPointer::Reader pointer);

inline uint64_t tree(capnp::AnyStruct::Reader body) {
  auto data = body.getDataSection();
  uint64_t sum = words_of(data.begin(), data.size());
  for (auto pointer : body.getPointerSection()) sum += tree(pointer);
  return sum;
}

inline uint64_t tree(capnp::AnyList::Reader list) {
  uint64_t sum = 0;
  if (list.getElementSize() == capnp::ElementSize::POINTER) {
    for (auto pointer : list.as<capnp::List<capnp::AnyPointer>>()) sum += tree(pointer);
  } else if (list.getElementSize() == capnp::ElementSize::INLINE_COMPOSITE) {
    for (auto body : list.as<capnp::List<capnp::AnyStruct>>()) sum += tree(body);
  } else {
    auto bytes = list.getRawBytes();
    sum = words_of(bytes.begin(), bytes.size());
  }
  return sum;
}

inline uint64_t tree(capnp::AnyPointer::Reader pointer) {
  if (pointer.isStruct()) return 1 + tree(pointer.getAs<capnp::AnyStruct>());
  if (pointer.isList()) return 1 + tree(pointer.getAs<capnp::AnyList>());
  return pointer.isCapability() ? 3 : 0;
}

inline uint64_t target(rpc::MessageTarget::Reader target) {
  if (target.isImportedCap()) return target.getImportedCap();
  auto answer = target.getPromisedAnswer();
  uint64_t sum = answer.getQuestionId();
  for (auto op : answer.getTransform()) sum += op.isGetPointerField() ? op.getGetPointerField() : 0;
  return sum;
}

inline uint64_t payload(rpc::Payload::Reader payload) {
  uint64_t sum = tree(payload.getContent());
  for (auto descriptor : payload.getCapTable()) {
    if (descriptor.isSenderHosted()) sum += descriptor.getSenderHosted();
    else if (descriptor.isReceiverHosted()) sum += descriptor.getReceiverHosted();
    else sum += descriptor.which();
  }
  return sum;
}

inline uint64_t message(rpc::Message::Reader message) {
  switch (message.which()) {
    case rpc::Message::CALL: {
      auto call = message.getCall();
      return call.getQuestionId() + call.getInterfaceId() + call.getMethodId() + target(call.getTarget()) + call.getSendResultsTo().which() + payload(call.getParams());
    }
    case rpc::Message::RETURN: {
      auto answer = message.getReturn();
      return answer.getAnswerId() + answer.getReleaseParamCaps() + (answer.isResults() ? payload(answer.getResults()) : answer.which());
    }
    case rpc::Message::FINISH: return message.getFinish().getQuestionId() + message.getFinish().getReleaseResultCaps();
    case rpc::Message::RELEASE: return message.getRelease().getId() + message.getRelease().getReferenceCount();
    case rpc::Message::BOOTSTRAP: return message.getBootstrap().getQuestionId();
    default: return message.which();
  }
}

// What is written into a buffer that is large enough.
struct Room final : kj::BufferedOutputStream {
  uint8_t *start, *at, *end;
  Room(uint8_t* room, size_t size) : start(room), at(room), end(room + size) {}
  kj::ArrayPtr<kj::byte> getWriteBuffer() override { return kj::arrayPtr(at, end); }
  void write(const void* bytes, size_t count) override {
    if (bytes != at) memcpy(at, bytes, count);
    at += count;
  }
  size_t size() const { return at - start; }
};
}  // namespace whole
