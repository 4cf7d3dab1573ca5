// Calls a server of a Desk and its Cell, and prints the nanoseconds that a call took.
// Usage: client PORT MODE CALLS
//   seq          one call of Cell.add after another
//   window       64 calls of Cell.add under way at a time
//   pipeline     Desk.now, and Cell.add on what it will give, in one round trip; each counts as one call
//   large        one call of Cell.add after another, whose params hold 1 MiB that the Cell doesn't read
//   large-N      the same with N MB
//   params-N     the same with N bytes
//   large-results   one call of Blob.get after another, whose results hold 1 MiB that the client doesn't read; the server offers a Blob
//   echo-N-W     W calls of Blob.echo under way at a time, whose params and results hold N MiB; the server offers a Blob
//   raw-seq      as seq, by frames made beforehand over a bare socket, so that nearly all the time is the server's
//   raw-window   as window, by such frames
//   raw-full     as raw-seq, after 60,000 calls that were answered and not finished, so that the server's tables are nearly full
// The status is 0 if the number of the Cell or the Blob is right in the end.
#include "../../nightly/connect.hpp"
#include "blob.capnp.h"
#include "desk.capnp.h"
#include <capnp/rpc-twoparty.h>
#include <capnp/rpc.capnp.h>
#include <capnp/serialize.h>
#include <kj/async-io.h>
#include <kj/debug.h>
#include <sys/socket.h>
#include <unistd.h>
#include <chrono>
#include <cstdio>
#include <cstdlib>
#include <cstring>
#include <deque>
#include <string>
#include <vector>

namespace rpc = capnp::rpc;

constexpr uint64_t DESK = 0xe5a1000000000001, CELL = 0xe5a1000000000002;
constexpr size_t LARGE = 1 << 20;

static bool is_large(const std::string& mode) { return mode.rfind("large", 0) == 0 || mode.rfind("params-", 0) == 0; }

// How many bytes the params of such a call hold.
static size_t size_of(const std::string& mode) {
  size_t number;
  if (sscanf(mode.c_str(), "params-%zu", &number) == 1) return number;
  return sscanf(mode.c_str(), "large-%zu", &number) == 1 ? 1000000 * number : LARGE;
}

class Timer {
  std::chrono::steady_clock::time_point start = std::chrono::steady_clock::now();

 public:
  void report(uint64_t calls) {
    std::chrono::duration<double, std::nano> took = std::chrono::steady_clock::now() - start;
    printf("%.0f\n", took.count() / calls);
  }
};

// A server, as the reference library's client has it.
struct Peer {
  kj::AsyncIoContext io = kj::setupAsyncIo();
  kj::WaitScope& wait = io.waitScope;
  kj::Own<kj::AsyncIoStream> stream;
  capnp::TwoPartyVatNetwork network;
  capnp::RpcSystem<rpc::twoparty::VatId> system;

  explicit Peer(unsigned port)
      : stream(io.provider->getNetwork().parseAddress("127.0.0.1", port).wait(wait)->connect().wait(wait)),
        network(*stream, rpc::twoparty::Side::CLIENT),
        system(capnp::makeRpcClient(network)) {}

  template <class T>
  typename T::Client bootstrap() {
    capnp::MallocMessageBuilder message(8);
    auto id = message.initRoot<rpc::twoparty::VatId>();
    id.setSide(rpc::twoparty::Side::SERVER);
    return system.bootstrap(id).castAs<T>();
  }
};

static void by_library(unsigned port, const std::string& mode, uint64_t calls) {
  Peer peer(port);
  auto& wait = peer.wait;
  auto desk = peer.bootstrap<Desk>();
  auto cell = desk.nowRequest().send().wait(wait).getCell();
  auto add = [&](Cell::Client cell) {
    auto request = cell.addRequest(capnp::MessageSize{4, 0});
    request.setAmount(1);
    return request.send();
  };
  std::vector<kj::byte> bytes(size_of(mode), 0x5a);
  auto add_large = [&] {
    auto request = cell.typelessRequest(CELL, 0, capnp::MessageSize{bytes.size() / 8 + 8, 0});
    auto params = request.initAsAnyStruct(1, 2);
    uint64_t one = 1;
    memcpy(params.getDataSection().begin(), &one, 8);
    params.getPointerSection()[1].setAs<capnp::Data>(kj::arrayPtr(bytes.data(), bytes.size()));
    return request.send();
  };

  uint64_t last = add(cell).wait(wait).getValue();
  uint64_t adds = calls;
  Timer timer;
  if (mode == "seq") {
    for (uint64_t i = 0; i < calls; i++) last = add(cell).wait(wait).getValue();
  } else if (mode == "window") {
    for (uint64_t done = 0; done < calls; done += 64) {
      std::vector<capnp::RemotePromise<Cell::AddResults>> window;
      for (int k = 0; k < 64; k++) window.push_back(add(cell));
      for (auto& one : window) last = one.wait(wait).getValue();
    }
  } else if (mode == "pipeline") {
    adds = calls / 2;
    for (uint64_t i = 0; i < adds; i++) last = add(desk.nowRequest(capnp::MessageSize{4, 0}).send().getCell()).wait(wait).getValue();
  } else {
    KJ_REQUIRE(is_large(mode), "no such mode");
    for (uint64_t i = 0; i < calls; i++) {
      auto response = add_large().wait(wait);
      memcpy(&last, response.getAs<capnp::AnyStruct>().getDataSection().begin(), 8);
    }
  }
  timer.report(calls);
  KJ_REQUIRE(last == 1 + adds, last);
}

static void large_results(unsigned port, uint64_t calls) {
  Peer peer(port);
  auto blob = peer.bootstrap<Blob>();
  auto get = [&] {
    auto response = blob.getRequest(capnp::MessageSize{4, 0}).send().wait(peer.wait);
    KJ_REQUIRE(response.getBytes().size() == LARGE);
    return response.getCalls();
  };
  uint64_t last = get();
  Timer timer;
  for (uint64_t i = 0; i < calls; i++) last = get();
  timer.report(calls);
  KJ_REQUIRE(last == 1 + calls, last);
}

// `size` is that of the bytes of a call, both ways.
static void echo(unsigned port, size_t size, size_t window, uint64_t calls) {
  Peer peer(port);
  auto blob = peer.bootstrap<Blob>();
  std::vector<kj::byte> bytes(size, 0x5a);
  std::deque<capnp::RemotePromise<Blob::EchoResults>> under_way;
  uint64_t answered = 0;
  auto end_oldest = [&] {
    auto response = under_way.front().wait(peer.wait);
    under_way.pop_front();
    KJ_REQUIRE(response.getNumber() == answered++ && response.getBytes().size() == size);
  };
  Timer timer;
  for (uint64_t i = 0; i < calls; i++) {
    if (under_way.size() == window) end_oldest();
    auto request = blob.echoRequest(capnp::MessageSize{size / 8 + 8, 0});
    request.setNumber(i);
    request.setBytes(kj::arrayPtr(bytes.data(), size));
    under_way.push_back(request.send());
  }
  while (!under_way.empty()) end_oldest();
  timer.report(calls);
}

// A connection that frames of one segment come by.
class Socket {
  int fd;
  std::vector<uint8_t> input;
  size_t from = 0;

 public:
  explicit Socket(unsigned port) : fd(connected(port)) {}

  void write_all(const std::vector<uint8_t>& bytes) {
    for (size_t done = 0; done < bytes.size();) {
      ssize_t n;
      KJ_SYSCALL(n = write(fd, bytes.data() + done, bytes.size() - done));
      done += n;
    }
  }

  // The words of the next frame after its header, until the next call.
  kj::ArrayPtr<const capnp::word> frame() {
    for (;;) {
      if (input.size() - from >= 8) {
        uint32_t head[2];
        memcpy(head, &input[from], 8);
        KJ_REQUIRE(head[0] == 0, "a frame of several segments");
        if (input.size() - from >= 8 + 8 * size_t(head[1])) {
          auto words = reinterpret_cast<const capnp::word*>(&input[from + 8]);
          from += 8 + 8 * size_t(head[1]);
          return kj::arrayPtr(words, head[1]);
        }
      }
      input.erase(input.begin(), input.begin() + from);
      from = 0;
      size_t length = input.size();
      input.resize(length + 65536);
      ssize_t n;
      KJ_SYSCALL(n = read(fd, &input[length], 65536));
      KJ_REQUIRE(n > 0, "the server closed the connection");
      input.resize(length + n);
    }
  }

  // The words of the next Return. A message's kind is in the first half word of its data.
  kj::ArrayPtr<const capnp::word> next_return() {
    for (;;) {
      auto words = frame();
      auto data = reinterpret_cast<const uint16_t*>(words.begin() + 1 + (*reinterpret_cast<const int32_t*>(words.begin()) >> 2));
      KJ_REQUIRE(*data != rpc::Message::ABORT, "an Abort");
      if (*data == rpc::Message::RETURN) return words;
    }
  }
};

static std::vector<uint8_t> bytes_of(capnp::MessageBuilder& message) {
  auto words = capnp::messageToFlatArray(message);
  auto bytes = words.asBytes();
  return {bytes.begin(), bytes.end()};
}

// A frame, and where in it the number of its question is.
class Frame {
  std::vector<uint8_t> bytes;
  size_t place = 0;

 public:
  template <class F>
  explicit Frame(F make) {
    capnp::MallocMessageBuilder one, other;
    make(one.initRoot<rpc::Message>(), 0);
    make(other.initRoot<rpc::Message>(), 1);
    bytes = bytes_of(one);
    auto differs = bytes_of(other);
    while (bytes[place] == differs[place]) place++;
  }

  void append_to(std::vector<uint8_t>& output, uint32_t question) {
    memcpy(&bytes[place], &question, 4);
    output.insert(output.end(), bytes.begin(), bytes.end());
  }
};

// The results of a Return.
template <class F>
static void read_results(kj::ArrayPtr<const capnp::word> words, F read) {
  auto segment = kj::heapArray<capnp::word>(words.size());
  memcpy((void*)segment.begin(), words.begin(), words.size() * 8);
  kj::ArrayPtr<const capnp::word> segments[] = {segment};
  capnp::SegmentArrayMessageReader message(segments);
  read(message.getRoot<rpc::Message>().getReturn().getResults());
}

// Asks for the Desk (question 0) and its Cell (question 1), and returns the Cell's number.
static uint32_t find_cell(Socket& socket) {
  std::vector<uint8_t> output;
  Frame([](rpc::Message::Builder message, uint32_t question) { message.initBootstrap().setQuestionId(question); }).append_to(output, 0);
  Frame([](rpc::Message::Builder message, uint32_t question) {
    auto call = message.initCall();
    call.setQuestionId(question);
    call.initTarget().initPromisedAnswer().setQuestionId(0);
    call.setInterfaceId(DESK);
    call.initParams().getContent().initAsAnyStruct(0, 0);
  }).append_to(output, 1);
  socket.write_all(output);
  socket.next_return();
  uint32_t cell = 0;
  read_results(socket.next_return(), [&](rpc::Payload::Reader results) {
    auto descriptor = results.getCapTable()[0];
    cell = descriptor.isSenderHosted() ? descriptor.getSenderHosted() : descriptor.getSenderPromise();
  });
  return cell;
}

static void by_frames(unsigned port, uint32_t window, uint32_t kept, uint64_t calls) {
  Socket socket(port);
  uint32_t cell = find_cell(socket);
  Frame call([&](rpc::Message::Builder message, uint32_t question) {
    auto call = message.initCall();
    call.setQuestionId(question);
    call.initTarget().setImportedCap(cell);
    call.setInterfaceId(CELL);
    uint64_t one = 1;
    memcpy(call.initParams().getContent().initAsAnyStruct(1, 0).getDataSection().begin(), &one, 8);
  });
  Frame finish([](rpc::Message::Builder message, uint32_t question) { message.initFinish().setQuestionId(question); });
  std::vector<uint8_t> output;
  kj::ArrayPtr<const capnp::word> answer;
  for (uint32_t question = 0; question < kept; question++) {
    output.clear();
    call.append_to(output, 1000 + question);
    socket.write_all(output);
    socket.next_return();
  }
  uint64_t turns = (calls + window - 1) / window;
  Timer timer;
  for (uint64_t turn = 0; turn < turns; turn++) {
    // The questions of the turn before are finished in the same write.
    uint32_t these = 2 + turn % 2 * window, those = 2 + (turn + 1) % 2 * window;
    output.clear();
    for (uint32_t k = 0; turn > 0 && k < window; k++) finish.append_to(output, those + k);
    for (uint32_t k = 0; k < window; k++) call.append_to(output, these + k);
    socket.write_all(output);
    for (uint32_t k = 0; k < window; k++) answer = socket.next_return();
  }
  timer.report(turns * window);
  read_results(answer, [&](rpc::Payload::Reader results) {
    uint64_t value;
    memcpy(&value, results.getContent().getAs<capnp::AnyStruct>().getDataSection().begin(), 8);
    KJ_REQUIRE(value == kept + turns * window, value);
  });
}

int main(int argc, char** argv) {
  if (argc != 4) {
    fprintf(stderr, "usage: client PORT seq|window|pipeline|large|large-N|params-N|large-results|echo-N-W|raw-seq|raw-window|raw-full CALLS\n");
    return 2;
  }
  unsigned port = atoi(argv[1]);
  std::string mode = argv[2];
  uint64_t calls = strtoull(argv[3], nullptr, 10);
  if (mode == "raw-seq") by_frames(port, 1, 0, calls);
  else if (mode == "raw-window") by_frames(port, 64, 0, calls);
  else if (mode == "raw-full") by_frames(port, 1, 60000, calls);
  else if (mode == "large-results") large_results(port, calls);
  else if (mode.rfind("echo-", 0) == 0) {
    size_t size = 0, window = 0;
    KJ_REQUIRE(sscanf(mode.c_str(), "echo-%zu-%zu", &size, &window) == 2, "no such mode");
    echo(port, size << 20, window, calls);
  }
  else by_library(port, mode, is_large(mode) ? calls : (calls + 63) / 64 * 64);
  return 0;
}
