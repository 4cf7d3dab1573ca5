// Sessions of a peer that isn't trusted, with `capnp_cli serve` and `capnp_cli serve --packed`.
// Usage: sessions PLAIN-PORT PACKED-PORT SEED COUNT [at-once]
//
// A session is a row of random messages. It is made while it is played, so that its numbers mostly fit what came back; then it is
// played again: at once, cut at random places, and packed and cut, one of four with frames dropped, repeated or swapped. The
// bytes that come back must be the same each time, and be messages that answer those that were sent. A session that takes longer
// than its limit, or breaks one of these, is reported with its number. With `at-once` no call is answered later, and what depends on
// Releases isn't compared: when `serve --at-once` polls its objects, and gives up what none of them holds, depends on when bytes come.
#include "../connect.hpp"
#include "messages.hpp"
#include <fcntl.h>
#include <poll.h>
#include <sys/socket.h>
#include <unistd.h>
#include <chrono>
#include <cstdio>
#include <cstdlib>

namespace {

constexpr int LIMIT_MILLISECONDS = 10000;

struct Session : Written {
  // Makes the messages one by one. After each comes one that isn't supported: when it comes back, so did all that the message led to.
  Session(Random& random, unsigned port, bool at_once) {
    kj::AutoCloseFd connection(connected(port));
    kj::FdInputStream bare(connection.get());
    kj::BufferedInputStreamWrapper input(bare);
    Maker maker(random);
    maker.at_once = at_once;
    for (uint32_t n = 1 + random.below(200); n > 0; n--) {
      capnp::MallocMessageBuilder message, mark;
      maker.make(message.initRoot<rpc::Message>());
      mark.initRoot<rpc::Message>().initObsoleteDelete().initAsAnyStruct(1, 0);
      add(message);
      add(mark);
      auto sent = joined({*(plain.end() - 2), plain.back()});
      if (send(connection, sent.data(), sent.size(), MSG_NOSIGNAL) < 0 || !hear(input, maker)) return;
    }
  }

  // Reads until the mark comes back. `false` says that the server closed.
  static bool hear(kj::BufferedInputStreamWrapper& input, Maker& maker) {
    try {
      while (input.tryGetReadBuffer().size()) {
        capnp::InputStreamMessageReader reader(input);
        auto message = reader.getRoot<rpc::Message>();
        if (message.isUnimplemented() && message.getUnimplemented().isObsoleteDelete()) return true;
        maker.note(message);
      }
    } catch (const kj::Exception& exception) {
      // It closed with bytes of ours that it didn't read.
      KJ_REQUIRE(exception.getType() == kj::Exception::Type::DISCONNECTED, exception);
    }
    return false;
  }
};

// Sends these bytes, cut at random places if so asked, and gives all that comes back until the other end closes.
Bytes play(unsigned port, const Bytes& bytes, Random* cuts) {
  kj::AutoCloseFd connection(connected(port));
  int fd = connection;
  KJ_SYSCALL(fcntl(fd, F_SETFL, O_NONBLOCK));
  auto start = std::chrono::steady_clock::now();
  Bytes back;
  size_t sent = 0;
  bool can_write = true;
  kj::byte piece[65536];
  for (;;) {
    if (can_write && sent == bytes.size()) {
      shutdown(fd, SHUT_WR);
      can_write = false;
    }
    pollfd events{fd, short(can_write ? POLLIN | POLLOUT : POLLIN), 0};
    KJ_SYSCALL(poll(&events, 1, 1000));
    KJ_REQUIRE(std::chrono::steady_clock::now() - start < std::chrono::milliseconds(LIMIT_MILLISECONDS), "too long");
    if (can_write && (events.revents & POLLOUT)) {
      size_t n = std::min<size_t>(bytes.size() - sent, cuts ? 1 + cuts->below(cuts->one_in(3) ? 8 : 400) : bytes.size());
      ssize_t done = send(fd, bytes.data() + sent, n, MSG_NOSIGNAL);
      // A server that closed takes no more.
      if (done < 0 && errno != EAGAIN) can_write = false;
      if (done > 0) sent += done;
    }
    if (events.revents & (POLLIN | POLLHUP | POLLERR)) {
      ssize_t n = read(fd, piece, sizeof piece);
      if (n == 0) return back;
      if (n < 0 && errno == EAGAIN) continue;
      // It closed with bytes of ours that it didn't read: what it sent before may be lost.
      if (n < 0) return back;
      back.insert(back.end(), piece, piece + n);
    }
  }
}

}  // namespace

int main(int argc, char** argv) {
  if (argc != 5 && argc != 6) {
    fprintf(stderr, "usage: sessions PLAIN-PORT PACKED-PORT SEED COUNT [at-once]\n");
    return 2;
  }
  unsigned plain = atoi(argv[1]), packed = atoi(argv[2]);
  uint64_t seed = strtoull(argv[3], nullptr, 10), count = strtoull(argv[4], nullptr, 10), messages = 0, answers = 0;
  std::map<std::string, uint64_t> aborts;
  for (uint64_t number = 0; number < count; number++) {
    Random random{std::mt19937_64(seed * 1000003 + number)};
    Session session(random, plain, argc == 6);
    if (random.one_in(4)) session.change(random);
    messages += session.plain.size();
    auto bytes = joined(session.plain);
    auto whole = play(plain, bytes, nullptr), cut = play(plain, bytes, &random), other = unpacked(play(packed, joined(session.packed), &random));
    // Where the server closed early, the system may drop the end of what it sent.
    auto agree = [&](const Bytes& one, const Bytes& two) { return begins(one, two) || begins(two, one); };
    auto all_agree = [&](const Bytes& first, const Bytes& second, const Bytes& third) { return agree(first, second) && agree(first, third); };
    bool same = argc == 6 ? all_agree(without_releases(whole), without_releases(cut), without_releases(other)) : all_agree(whole, cut, other);
    if (!same) {
      fprintf(stderr, "session %llu of seed %llu: other bytes came back\n", (unsigned long long)number, (unsigned long long)seed);
      return 1;
    }
    try {
      look_at(whole, session.plain, answers, aborts);
    } catch (const kj::Exception& exception) {
      fprintf(stderr, "session %llu of seed %llu: %s\n", (unsigned long long)number, (unsigned long long)seed, exception.getDescription().cStr());
      return 1;
    }
  }
  printf("%llu sessions, %llu messages, %llu answers\n", (unsigned long long)count, (unsigned long long)messages, (unsigned long long)answers);
  for (auto& [reason, times] : aborts) printf("  %llu ended by %s\n", (unsigned long long)times, reason.c_str());
  return 0;
}
