// Writes the inputs: generate FOLDER [SEED] [MEGABYTES]. NAME.plain is a stream of frames, NAME.packed the same packed.
// The same seed gives the same bytes. small, typical, blob, list, listp and mix are messages of rpc.capnp; zeros and
// noise are segments of words alone, for packing.
#include "whole.hpp"
#include <fcntl.h>
#include <unistd.h>
#include <cstdio>
#include <functional>
#include <random>
#include <string>

using Builder = capnp::MallocMessageBuilder;
using whole::rpc::Message;
static std::mt19937_64 random_words;
static std::string folder;

static uint64_t below(uint64_t bound) { return random_words() % bound; }

static void letters(capnp::Text::Builder text) {
  for (auto& letter : text) letter = char('a' + below(26));
}

static void set_words(capnp::AnyStruct::Builder body, std::initializer_list<uint64_t> words) {
  memcpy(body.getDataSection().begin(), words.begin(), 8 * words.size());
}

// Finish, Release and Bootstrap.
static void small(Builder& builder) {
  auto message = builder.initRoot<Message>();
  auto kind = below(3);
  if (kind == 0) {
    auto finish = message.initFinish();
    finish.setQuestionId(below(200));
    finish.setReleaseResultCaps(below(2));
  } else if (kind == 1) {
    auto release = message.initRelease();
    release.setId(below(200));
    release.setReferenceCount(1 + below(3));
  } else {
    message.initBootstrap().setQuestionId(below(200));
  }
}

// A struct with numbers of many sizes, texts, a list of numbers and a list of structs: some 200 bytes.
static void content(capnp::AnyPointer::Builder pointer) {
  auto body = pointer.initAsAnyStruct(4, 4);
  set_words(body, {below(1000), below(1 << 20), random_words(), below(2)});
  auto pointers = body.getPointerSection();
  letters(pointers[0].initAs<capnp::Text>(20 + below(24)));
  auto numbers = pointers[1].initAs<capnp::List<uint32_t>>(6);
  for (unsigned place = 0; place < 6; place++) numbers.set(place, below(100000));
  auto inner = pointers[2].initAsAnyStruct(2, 1);
  set_words(inner, {below(1 << 30), below(100)});
  letters(inner.getPointerSection()[0].initAs<capnp::Text>(12));
  auto list = pointers[3].initAsListOfAnyStruct(1, 0, 4);
  for (auto item : list) set_words(item, {below(1000)});
}

static whole::rpc::Call::Builder call(Builder& builder) {
  auto call = builder.initRoot<Message>().initCall();
  call.setQuestionId(below(200));
  if (below(2)) {
    call.initTarget().setImportedCap(below(20));
  } else {
    auto answer = call.initTarget().initPromisedAnswer();
    answer.setQuestionId(below(200));
    answer.initTransform(1)[0].setGetPointerField(0);
  }
  call.setInterfaceId(0xe5a1000000000002);
  call.setMethodId(below(4));
  return call;
}

// Calls, and a Return for each three of them.
static void typical(Builder& builder) {
  if (below(4)) {
    auto params = call(builder).initParams();
    content(params.getContent());
    params.initCapTable(1)[0].setReceiverHosted(below(20));
    return;
  }
  auto answer = builder.initRoot<Message>().initReturn();
  answer.setAnswerId(below(200));
  answer.setReleaseParamCaps(false);
  auto results = answer.initResults();
  content(results.getContent());
  results.initCapTable(1)[0].setSenderHosted(below(20));
}

static capnp::AnyPointer::Builder parameter(Builder& builder) {
  return call(builder).initParams().getContent().initAsAnyStruct(0, 1).getPointerSection()[0];
}

// A Call with 1 MiB of bytes.
static void blob(Builder& builder) {
  auto bytes = parameter(builder).initAs<capnp::Data>(1 << 20);
  for (size_t place = 0; place < bytes.size(); place += 8) {
    uint64_t word = random_words();
    memcpy(bytes.begin() + place, &word, 8);
  }
}

// A Call with 100,000 structs of two words.
static void list(Builder& builder) {
  uint64_t number = 0;
  for (auto item : parameter(builder).initAsListOfAnyStruct(2, 0, 100000)) set_words(item, {number++, below(1 << 16)});
}

// A Call with 100,000 structs of a word and a text.
static void listp(Builder& builder) {
  uint64_t number = 0;
  for (auto item : parameter(builder).initAsListOfAnyStruct(1, 1, 100000)) {
    set_words(item, {number++});
    letters(item.getPointerSection()[0].initAs<capnp::Text>(7));
  }
}

static void mix(Builder& builder) {
  auto kind = below(10000);
  (kind < 5500 ? small : kind < 9990 ? typical : kind < 9996 ? blob : listp)(builder);
}

struct Output {
  kj::FdOutputStream plain_file, packed_file;
  kj::BufferedOutputStreamWrapper plain{plain_file}, packed{packed_file};
  std::string name;
  size_t bytes = 0, frames = 0;

  static int file(const std::string& name, const char* form) { return open((folder + "/" + name + form).c_str(), O_CREAT | O_TRUNC | O_WRONLY, 0644); }
  Output(const char* name) : plain_file(kj::AutoCloseFd(file(name, ".plain"))), packed_file(kj::AutoCloseFd(file(name, ".packed"))), name(name) {}
  void write(kj::ArrayPtr<const kj::ArrayPtr<const capnp::word>> segments) {
    capnp::writeMessage(plain, segments);
    capnp::writePackedMessage(packed, segments);
    bytes += 8 * capnp::computeSerializedSizeInWords(segments);
    frames++;
  }
  ~Output() {
    plain.flush();
    packed.flush();
    printf("%-8s %9zu bytes %8zu frames\n", name.c_str(), bytes, frames);
  }
};

// Messages of one segment, as the command's crates write them.
static void messages(const char* name, size_t bytes, std::function<void(Builder&)> make) {
  auto room = kj::heapArray<capnp::word>(1 << 19);
  memset(room.begin(), 0, room.asBytes().size());
  for (Output output(name); output.bytes < bytes;) {
    Builder builder(room);
    make(builder);
    output.write(builder.getSegmentsForOutput());
  }
}

// Segments of 131,072 words.
static void segments(const char* name, size_t bytes, std::function<uint64_t()> word) {
  auto segment = kj::heapArray<capnp::word>(131072);
  for (Output output(name); output.bytes < bytes;) {
    for (auto& place : segment) {
      uint64_t value = word();
      memcpy((void*)&place, &value, 8);
    }
    kj::ArrayPtr<const capnp::word> one[1] = {segment.asPtr()};
    output.write(kj::arrayPtr(one, 1));
  }
}

// Nine words of ten are zero, and the others have one to three bytes.
static uint64_t mostly_zero() {
  if (below(10)) return 0;
  uint64_t word = 0;
  for (auto bytes = 1 + below(3); bytes; bytes--) word |= (1 + below(255)) << (8 * below(8));
  return word;
}

int main(int argc, char** argv) {
  if (argc < 2) {
    fprintf(stderr, "usage: generate FOLDER [SEED] [MEGABYTES]\n");
    return 2;
  }
  folder = argv[1];
  random_words.seed(argc > 2 ? std::stoull(argv[2]) : 1);
  size_t bytes = (argc > 3 ? std::stoull(argv[3]) : 64) << 20;
  messages("small", bytes / 4, small);
  messages("typical", bytes, typical);
  messages("blob", bytes, blob);
  messages("list", bytes, list);
  messages("listp", bytes, listp);
  messages("mix", bytes, mix);
  segments("zeros", bytes, mostly_zero);
  segments("noise", bytes, [] { return random_words(); });
}
