// Our library beside the reference library in one process: inprocess FOLDER [MEGABYTES]. The inputs are generate's.
#include "../embed/jamdrosek.h"
#include "cp_probes.h"
#include "owned.hpp"
#include "whole.hpp"
#include <algorithm>
#include <cstdio>
#include <ctime>
#include <fstream>
#include <malloc.h>
#include <map>
#include <string>
#include <vector>

// Seconds of processor time: what else runs isn't counted.
static double now() {
  timespec time;
  clock_gettime(CLOCK_THREAD_CPUTIME_ID, &time);
  return time.tv_sec + 1e-9 * time.tv_nsec;
}

// The least time of seven runs.
template <class Job>
static double least(Job job) {
  double best = 1e9;
  for (int run = 0; run < 7; run++) {
    double start = now();
    asm volatile("" ::"r"(job()));
    best = std::min(best, now() - start);
  }
  return best;
}

// The most that our time may be of the other's.
static const std::map<std::string, std::map<std::string, double>> goals = {
    {"view", {{"small", 0.8}, {"typical", 0.8}, {"blob", 1.1}, {"list", 0.6}, {"listp", 0.6}, {"mix", 0.6}}},
    {"owned", {{"small", 0.9}, {"typical", 1.3}, {"blob", 1.2}, {"list", 4}, {"listp", 2.3}, {"mix", 1.6}}},
    {"written", {{"small", 0.6}, {"typical", 1}, {"blob", 1.3}, {"list", 2}, {"listp", 1.4}, {"mix", 1.1}}},
};

static void print(const char* job, const std::string& name, size_t bytes, double mine, double other) {
  printf("%-14s %-8s %8.0f MB/s %8.0f MB/s  ratio %5.2f", job, name.c_str(), bytes / mine / 1e6, bytes / other / 1e6, mine / other);
  if (goals.count(job)) printf("  goal %4.2f", goals.at(job).at(name));
  printf("\n");
  fflush(stdout);
}

template <class Ours, class Theirs>
static void row(const char* job, const std::string& name, size_t bytes, Ours ours, Theirs theirs) {
  double mine = least(ours), other = least(theirs);
  print(job, name, bytes, mine, other);
}

static std::vector<uint8_t> read_file(const std::string& path, size_t most) {
  std::vector<uint8_t> bytes(most);
  std::ifstream file(path, std::ios::binary);
  file.read((char*)bytes.data(), most);
  bytes.resize(file.gcount() / 8 * 8);
  return bytes;
}

// The sum of what the job makes of each message of a stream.
template <class Reader, class Job>
static uint64_t read(const std::vector<uint8_t>& bytes, Job job) {
  kj::ArrayInputStream in(kj::arrayPtr(bytes.data(), bytes.size()));
  uint64_t sum = 0;
  while (in.tryGetReadBuffer().size()) {
    Reader reader(in, whole::limits());
    sum += job(reader);
  }
  return sum;
}

static uint64_t look(capnp::MessageReader& reader) { return whole::message(reader.getRoot<whole::rpc::Message>()); }

static uint64_t copy(capnp::MessageReader& reader) {
  capnp::MallocMessageBuilder message;
  message.setRoot(reader.getRoot<whole::rpc::Message>());
  return message.getSegmentsForOutput().size();
}

// The trees are built and written, one frame after another.
static size_t write(const std::vector<owned::Tree>& trees, std::vector<uint8_t>& room) {
  whole::Room out(room.data(), room.size());
  for (auto& tree : trees) {
    capnp::MallocMessageBuilder message;
    owned::build(message.getRoot<capnp::AnyPointer>(), tree);
    capnp::writeMessage(out, message);
  }
  return out.size();
}

// Ours reads the trees first; the time of that alone is taken off.
static void written_row(const std::string& name, const std::vector<uint8_t>& bytes) {
  const int turns = 8;
  std::vector<owned::Tree> trees;
  read<capnp::InputStreamMessageReader>(bytes, [&](capnp::MessageReader& reader) {
    trees.push_back(owned::read(reader.getRoot<capnp::AnyPointer>()));
    return 1;
  });
  std::vector<uint8_t> room(2 * bytes.size() + 4096);
  auto ours = [&](int turns) { return [&, turns] { return cpb_write_frames(bytes.data(), bytes.size(), turns, room.data(), 0); }; };
  double mine = (least(ours(turns)) - least(ours(0))) / turns;
  print("written", name, bytes.size(), mine, least([&] { return write(trees, room); }));
}

int main(int argc, char** argv) {
  if (argc < 2) {
    fprintf(stderr, "usage: inprocess FOLDER [MEGABYTES]\n");
    return 2;
  }
  // Freed memory is kept, since page faults would hide the time of both.
  mallopt(M_MMAP_THRESHOLD, 1 << 30);
  mallopt(M_TRIM_THRESHOLD, 1 << 30);
  mallopt(M_TOP_PAD, 64 << 20);
  std::string folder = argv[1];
  size_t most = (argc > 2 ? std::stoull(argv[2]) : 8) << 20;
  bool wrong = false;
  auto expect = [&](bool good, const char* job, const std::string& name) {
    if (!good) printf("wrong: %s %s\n", job, name.c_str());
    wrong |= !good;
  };
  for (std::string name : {"small", "typical", "blob", "list", "listp", "mix"}) {
    auto bytes = read_file(folder + "/" + name + ".plain", most);
    // Whole frames alone.
    kj::ArrayPtr<const capnp::word> rest((const capnp::word*)bytes.data(), bytes.size() / 8);
    size_t words = 0;
    uint64_t frames = 0;
    for (; words < rest.size(); frames++) {
      size_t size = capnp::expectedSizeInWordsFromPrefix(rest.slice(words, rest.size()));
      if (size > rest.size() - words) break;
      words += size;
    }
    if (!frames) continue;
    bytes.resize(8 * words);
    std::vector<uint8_t> packed(bytes.size() * 5 / 4 + 4096), room(bytes.size());
    whole::Room out(packed.data(), packed.size());
    kj::ArrayInputStream in(kj::arrayPtr(bytes.data(), bytes.size()));
    for (uint64_t frame = 0; frame < frames; frame++) {
      capnp::InputStreamMessageReader reader(in, whole::limits());
      kj::ArrayPtr<const capnp::word> one[1] = {reader.getSegment(0)};
      capnp::writePackedMessage(out, kj::arrayPtr(one, 1));
    }
    packed.resize(out.size());
    for (int kind = 1; kind <= 2; kind++) {
      expect(cpb_read_frames(bytes.data(), bytes.size(), kind) == frames, "plain", name);
      expect(cpb_packed_frames(packed.data(), packed.size(), kind) == frames, "packed", name);
    }
    expect(cpb_write_frames(bytes.data(), bytes.size(), 1, room.data(), room.size()) == bytes.size() && room == bytes, "write", name);
    auto ours = [&](int kind) { return [&, kind] { return cpb_read_frames(bytes.data(), bytes.size(), kind); }; };
    row("view", name, bytes.size(), ours(1), [&] { return read<capnp::InputStreamMessageReader>(bytes, look); });
    row("view packed", name, bytes.size(), [&] { return cpb_packed_frames(packed.data(), packed.size(), 1); }, [&] { return read<capnp::PackedMessageReader>(packed, look); });
    row("owned", name, bytes.size(), ours(2), [&] { return read<capnp::InputStreamMessageReader>(bytes, copy); });
    written_row(name, bytes);
  }
  for (std::string name : {"zeros", "typical", "mix", "noise"}) {
    auto bytes = read_file(folder + "/" + name + ".plain", most);
    auto words = (const uint64_t*)bytes.data();
    std::vector<uint8_t> packed(bytes.size() * 5 / 4 + 4096), room(packed.size());
    std::vector<uint64_t> back(bytes.size() / 8);
    auto pack = [&] {
      whole::Room out(packed.data(), packed.size());
      capnp::_::PackedOutputStream(out).write(bytes.data(), bytes.size());
      return out.size();
    };
    size_t length = pack(), count = 0;
    auto ours_packs = [&] { return jd_pack(words, back.size(), room.data(), room.size(), &count), count; };
    auto ours_unpacks = [&] { return jd_unpack(packed.data(), length, back.data(), back.size(), &count), count; };
    expect(ours_packs() == length && !memcmp(room.data(), packed.data(), length), "pack", name);
    expect(ours_unpacks() == back.size() && !memcmp(back.data(), words, bytes.size()), "unpack", name);
    row("pack", name, bytes.size(), ours_packs, pack);
    row("unpack", name, bytes.size(), ours_unpacks, [&] {
      kj::ArrayInputStream in(kj::arrayPtr(packed.data(), length));
      return capnp::_::PackedInputStream(in).tryRead(back.data(), bytes.size(), bytes.size());
    });
  }
  return wrong;
}
