// Many connections that call a server of a Desk and its Cell at the same time, by frames made beforehand.
// Usage: load PORT CONNECTIONS CALLS SILENT PID [KEPT]
// SILENT more connections are opened first, of which each second one sends half a message. Each of CONNECTIONS makes KEPT calls, none by default,
// that are answered and not finished. Then each makes its next call when the last one was answered, CALLS in all. PID is the server's, which has
// one thread. Prints: calls a second, microseconds of the median call, of the 99th in a hundred and of the server's processor a call, and the
// server's kB before the connections and with them. Its own memory counts. Pages of its program don't: the first connections bring them in, and
// all share them.
#include "../../nightly/connect.hpp"
#include <capnp/message.h>
#include <capnp/rpc.capnp.h>
#include <capnp/serialize.h>
#include <kj/debug.h>
#include <kj/io.h>
#include <sys/epoll.h>
#include <sys/resource.h>
#include <unistd.h>
#include <algorithm>
#include <chrono>
#include <cstdio>
#include <cstdlib>
#include <cstring>
#include <string>
#include <vector>

namespace rpc = capnp::rpc;
using Bytes = std::vector<kj::byte>;
using Clock = std::chrono::steady_clock;

constexpr uint64_t DESK = 0xe5a1000000000001, CELL = 0xe5a1000000000002;

template <class F>
void put(Bytes& bytes, F make) {
  capnp::MallocMessageBuilder message;
  make(message.initRoot<rpc::Message>());
  kj::VectorOutputStream output;
  capnp::writeMessage(output, message);
  auto written = output.getArray();
  bytes.insert(bytes.end(), written.begin(), written.end());
}

// A call on what a question gives.
void put_call(Bytes& bytes, uint32_t question, uint32_t on, bool first_pointer, uint64_t interface, uint16_t method) {
  put(bytes, [&](rpc::Message::Builder message) {
    auto call = message.initCall();
    call.setQuestionId(question);
    call.setInterfaceId(interface);
    call.setMethodId(method);
    auto target = call.initTarget().initPromisedAnswer();
    target.setQuestionId(on);
    if (first_pointer) target.initTransform(1)[0].setGetPointerField(0);
    auto params = call.initParams().initContent().initAsAnyStruct(1, 0);
    params.getDataSection()[0] = 1;
  });
}

struct Caller {
  int fd;
  Bytes input;
  Clock::time_point sent;

  void write_all(const Bytes& bytes) {
    sent = Clock::now();
    for (size_t done = 0; done < bytes.size();) {
      ssize_t n;
      KJ_SYSCALL(n = write(fd, bytes.data() + done, bytes.size() - done));
      done += n;
    }
  }

  // The frames that came whole by one read, which are dropped.
  int frames() {
    kj::byte piece[4096];
    ssize_t n;
    KJ_SYSCALL(n = read(fd, piece, sizeof piece));
    KJ_REQUIRE(n > 0, "the server closed");
    input.insert(input.end(), piece, piece + n);
    int count = 0;
    size_t at = 0;
    for (;; count++) {
      uint32_t head[2];
      if (input.size() - at < 8) break;
      memcpy(head, &input[at], 8);
      KJ_REQUIRE(head[0] == 0, "a frame of several segments");
      if (input.size() - at < 8 + 8 * size_t(head[1])) break;
      at += 8 + 8 * size_t(head[1]);
    }
    input.erase(input.begin(), input.begin() + at);
    return count;
  }
};

long own_memory(const std::string& pid) {
  long kilobytes = 0;
  char line[256];
  FILE* file = fopen(("/proc/" + pid + "/status").c_str(), "r");
  KJ_REQUIRE(file != nullptr, "no such process");
  while (fgets(line, sizeof line, file)) sscanf(line, "RssAnon: %ld", &kilobytes);
  fclose(file);
  return kilobytes;
}

// The microseconds of a processor that the server took so far.
double worked(const std::string& pid) {
  double nanoseconds;
  FILE* file = fopen(("/proc/" + pid + "/schedstat").c_str(), "r");
  KJ_REQUIRE(file != nullptr && fscanf(file, "%lf", &nanoseconds) == 1, "no such process");
  fclose(file);
  return nanoseconds / 1e3;
}

int main(int argc, char** argv) {
  if (argc != 6 && argc != 7) {
    fprintf(stderr, "usage: load PORT CONNECTIONS CALLS SILENT PID [KEPT]\n");
    return 2;
  }
  unsigned port = atoi(argv[1]);
  size_t count = atol(argv[2]), calls = atol(argv[3]), silent = atol(argv[4]), kept = argc > 6 ? atol(argv[6]) : 0;
  rlimit most{65536, 65536};
  setrlimit(RLIMIT_NOFILE, &most);
  long before = own_memory(argv[5]);
  Bytes begin, next;
  put(begin, [](rpc::Message::Builder message) { message.initBootstrap().setQuestionId(0); });
  std::vector<int> others;
  for (size_t i = 0; i < silent; i++) {
    others.push_back(connected(port));
    if (i % 2) {
      KJ_SYSCALL(write(others[i], begin.data(), begin.size() / 2));
    }
  }
  put_call(begin, 1, 0, false, DESK, 0);
  put_call(begin, 2, 1, true, CELL, 0);
  put(next, [](rpc::Message::Builder message) { message.initFinish().setQuestionId(2); });
  put_call(next, 2, 1, true, CELL, 0);

  // Of these there are PIECE in a write.
  constexpr size_t PIECE = 100;
  std::vector<Bytes> unfinished((kept + PIECE - 1) / PIECE);
  for (size_t i = 0; i < kept; i++) put_call(unfinished[i / PIECE], 1000 + i, 1, true, CELL, 0);

  int poll;
  KJ_SYSCALL(poll = epoll_create1(0));
  std::vector<Caller> callers(count);
  for (size_t i = 0; i < count; i++) {
    callers[i].fd = connected(port);
    epoll_event event{};
    event.events = EPOLLIN;
    event.data.u64 = i;
    KJ_SYSCALL(epoll_ctl(poll, EPOLL_CTL_ADD, callers[i].fd, &event));
    callers[i].write_all(begin);
    for (int frames = 0; frames < 3;) frames += callers[i].frames();
    size_t answered = 0;
    for (auto& piece : unfinished) {
      callers[i].write_all(piece);
      size_t sent = std::min(kept, answered + PIECE);
      while (answered < sent) answered += callers[i].frames();
    }
  }
  long with = own_memory(argv[5]);

  std::vector<double> took;
  double worked_before = worked(argv[5]);
  auto start = Clock::now();
  size_t sent = 0;
  for (auto& caller : callers) {
    caller.write_all(next);
    sent++;
  }
  std::vector<epoll_event> events(256);
  while (took.size() < calls) {
    int ready;
    KJ_SYSCALL(ready = epoll_wait(poll, events.data(), events.size(), 10000));
    KJ_REQUIRE(ready > 0, "no answer in ten seconds");
    for (int k = 0; k < ready; k++) {
      auto& caller = callers[events[k].data.u64];
      if (caller.frames() == 0) continue;
      took.push_back(std::chrono::duration<double, std::micro>(Clock::now() - caller.sent).count());
      if (sent < calls) {
        caller.write_all(next);
        sent++;
      }
    }
  }
  double seconds = std::chrono::duration<double>(Clock::now() - start).count();
  double work = (worked(argv[5]) - worked_before) / took.size();
  std::sort(took.begin(), took.end());
  printf("%.0f %.1f %.1f %.2f %ld %ld\n", took.size() / seconds, took[took.size() / 2], took[took.size() * 99 / 100], work, before, with);
  return 0;
}
