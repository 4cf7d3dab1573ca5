// The jobs of capnp_cli over a file, done by the reference library: reference check|pack|unpack [--packed] [--traversal WORDS] FILE
#include "whole.hpp"
#include <fcntl.h>
#include <cstdio>
#include <string>
#include <vector>

template <class Reader, class Job>
static uint64_t each(kj::BufferedInputStream& in, capnp::ReaderOptions options, Job job) {
  uint64_t count = 0;
  for (; in.tryGetReadBuffer().size(); count++) {
    Reader reader(in, options);
    job(reader);
  }
  return count;
}

static std::vector<kj::ArrayPtr<const capnp::word>> segments_of(capnp::MessageReader& reader) {
  std::vector<kj::ArrayPtr<const capnp::word>> segments;
  for (capnp::uint place = 0;; place++) {
    auto segment = reader.getSegment(place);
    if (segment == nullptr) return segments;
    segments.push_back(segment);
  }
}

int main(int argc, char** argv) {
  bool packed = false;
  auto limits = whole::limits();
  std::vector<std::string> words;
  for (int place = 1; place < argc; place++) {
    if (std::string(argv[place]) == "--packed") packed = true;
    else if (std::string(argv[place]) == "--traversal" && place + 1 < argc) limits.traversalLimitInWords = std::stoull(argv[++place]);
    else words.push_back(argv[place]);
  }
  int descriptor = words.size() == 2 ? open(words[1].c_str(), O_RDONLY) : -1;
  if (descriptor < 0) {
    fprintf(stderr, "usage: reference check|pack|unpack [--packed] [--traversal WORDS] FILE\n");
    return 2;
  }
  kj::FdInputStream file(descriptor);
  auto buffer = kj::heapArray<kj::byte>(65536);
  kj::BufferedInputStreamWrapper in(file, buffer);
  if (words[0] == "check") {
    uint64_t sum = 0;
    auto look = [&](capnp::MessageReader& reader) { sum += whole::message(reader.getRoot<whole::rpc::Message>()); };
    uint64_t count = packed ? each<capnp::PackedMessageReader>(in, limits, look) : each<capnp::InputStreamMessageReader>(in, limits, look);
    asm volatile("" ::"r"(sum));
    printf("messages %llu\n", (unsigned long long)count);
    return 0;
  }
  kj::FdOutputStream standard(1);
  auto room = kj::heapArray<kj::byte>(65536);
  kj::BufferedOutputStreamWrapper out(standard, room);
  if (words[0] == "pack") {
    each<capnp::InputStreamMessageReader>(in, limits, [&](capnp::MessageReader& reader) {
      auto segments = segments_of(reader);
      capnp::writePackedMessage(out, kj::arrayPtr(segments.data(), segments.size()));
    });
  } else {
    each<capnp::PackedMessageReader>(in, limits, [&](capnp::MessageReader& reader) {
      auto segments = segments_of(reader);
      capnp::writeMessage(out, kj::arrayPtr(segments.data(), segments.size()));
    });
  }
  out.flush();
  return 0;
}
