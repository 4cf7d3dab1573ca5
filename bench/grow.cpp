// Writes one message COUNT times as plain frames: grow KIND SIZE COUNT > FILE. The script growth.py times the command on them.
//
//   small     a Finish; SIZE says nothing
//   data      a Call with SIZE bytes of data
//   texts     a Call with a list of structs of a word and a text, SIZE bytes together
//   segments  a Call with 65,280 texts, in SIZE segments: all but the first hold texts, each reached by a far pointer
//   nesting   a Call with a list of chains of structs, 65,536 structs together, so that structs and lists nest SIZE levels deep
#include "whole.hpp"
#include <unistd.h>
#include <algorithm>
#include <cstdio>
#include <cstdlib>
#include <string>
#include <vector>

using whole::rpc::Message;

// Segments of the sizes that are asked for: a first one, and then others of one size.
struct Cut final : capnp::MessageBuilder {
  size_t first, other;
  std::vector<std::vector<uint64_t>> rooms;
  Cut(size_t first, size_t other) : first(first), other(other) {}
  kj::ArrayPtr<capnp::word> allocateSegment(capnp::uint least) override {
    rooms.emplace_back(std::max<size_t>(least, rooms.empty() ? first : other));
    return kj::arrayPtr((capnp::word*)rooms.back().data(), rooms.back().size());
  }
};

static capnp::AnyPointer::Builder parameter(capnp::MessageBuilder& builder) {
  auto call = builder.initRoot<Message>().initCall();
  call.initTarget().setImportedCap(7);
  return call.initParams().getContent().initAsAnyStruct(0, 1).getPointerSection()[0];
}

static void small(capnp::MessageBuilder& builder) {
  auto finish = builder.initRoot<Message>().initFinish();
  finish.setQuestionId(7);
  finish.setReleaseResultCaps(true);
}

// Each byte is another than the one before, and none is zero.
static void data(capnp::MessageBuilder& builder, size_t bytes) {
  auto body = parameter(builder).initAs<capnp::Data>(bytes);
  for (size_t place = 0; place < bytes; place++) body[place] = 1 + place % 251;
}

// An item takes a word, a pointer and a text of one word.
static void texts(capnp::MessageBuilder& builder, size_t bytes) {
  uint64_t number = 0;
  for (auto item : parameter(builder).initAsListOfAnyStruct(1, 1, bytes / 24)) {
    memcpy(item.getDataSection().begin(), &++number, 8);
    item.getPointerSection()[0].setAs<capnp::Text>("letters");
  }
}

constexpr capnp::uint TEXTS = 65280;

static capnp::List<capnp::Text>::Builder places(capnp::MessageBuilder& builder) { return parameter(builder).initAs<capnp::List<capnp::Text>>(TEXTS); }

// How many words there are with no text in them.
static size_t words_of_places() {
  capnp::MallocMessageBuilder builder(4 * TEXTS);
  places(builder);
  return builder.getSegmentsForOutput()[0].size();
}

// A text takes one word, and one for the far pointer to arrive at.
static void segments(Cut& builder, size_t count) {
  if (count > 1) {
    builder.first = words_of_places();
    builder.other = 2 * ((TEXTS + count - 2) / (count - 1));
  }
  auto list = places(builder);
  for (capnp::uint place = 0; place < TEXTS; place++) list.set(place, "letters");
}

// The message, its Call, the payload, a struct and the list are the levels above the chains, and the list's items begin them.
static void nesting(capnp::MessageBuilder& builder, size_t levels) {
  size_t chain = levels - 5;
  for (auto body : parameter(builder).initAsListOfAnyStruct(1, 1, 65536 / chain)) {
    for (size_t level = 1; level < chain; level++) {
      memcpy(body.getDataSection().begin(), &level, 8);
      body = body.getPointerSection()[0].initAsAnyStruct(1, 1);
    }
  }
}

static void write(capnp::MessageBuilder& builder, size_t count) {
  auto frame = capnp::messageToFlatArray(builder);
  kj::FdOutputStream standard(1);
  auto room = kj::heapArray<kj::byte>(1 << 20);
  kj::BufferedOutputStreamWrapper out(standard, room);
  for (; count; count--) out.write(frame.asBytes().begin(), frame.asBytes().size());
  out.flush();
}

int main(int argc, char** argv) {
  std::string kind = argc == 4 ? argv[1] : "";
  size_t size = argc == 4 ? std::strtoull(argv[2], nullptr, 10) : 0, count = argc == 4 ? std::strtoull(argv[3], nullptr, 10) : 0;
  Cut builder(6 << 20, 1 << 10);
  if (kind == "small") small(builder);
  else if (kind == "data" && size <= 256 << 20) data(builder, size);
  else if (kind == "texts" && size <= 32 << 20) texts(builder, size);
  else if (kind == "segments" && size >= 1) segments(builder, size);
  else if (kind == "nesting" && size > 5) nesting(builder, size);
  else {
    fprintf(stderr, "usage: grow small|data|texts|segments|nesting SIZE COUNT > FILE\n");
    return 2;
  }
  write(builder, count);
}
