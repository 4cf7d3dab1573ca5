// A connection of an Asker with a server: what it sends and reads, and how it ends.
#pragma once
#include "../connect.hpp"
#include "asker.hpp"
#include <sys/epoll.h>
#include <unistd.h>
#include <cmath>
#include <cstdio>
#include <fstream>

// How a connection ends: closed with nothing open; closed for writing with answers outstanding; by a fault; by an Abort; closed with answers
// outstanding; reset; closed inside a frame; by bytes that are no frame; by the server, after silence, or after silence inside a frame.
enum Way { ORDERLY, HALF, FAULT, ABORT, HASTY, RESET, CUT, GARBAGE, SILENT, STOPPED, WAYS };
constexpr const char* NAMES[] = {"orderly", "half closed", "a fault", "an Abort", "with answers outstanding", "reset", "inside a frame",
                                 "no frame", "silent", "silent inside a frame"};

// Seconds: of the server's limits, and in which something must come.
constexpr double IDLE = 40, MESSAGE = 30, PATIENCE = 30;

using Seconds = std::chrono::duration<double>;

inline double seconds_since(Clock::time_point since) { return Seconds(Clock::now() - since).count(); }

// Of all connections together.
struct Totals : Counts {
  uint64_t ended[WAYS] = {};
  std::vector<double> milliseconds;  // that answers took
  std::ofstream must, may;           // what the server must say, and what it may say
};

class Connection {
  // TIDYING: all is given up; SENDING: all that was made goes out; LEAVING: the server is to close.
  enum Phase { ASKING, TIDYING, SENDING, LEAVING, OVER };

  Totals& totals;
  Random random;
  Asker asker;
  Way way;
  uint32_t turns;  // in which it asks
  bool is_slow;    // it sends parts of frames, and reads at its turns
  int fd;
  std::string peer;
  Phase phase = ASKING;
  Bytes unsent, sent, came;
  size_t taken = 0;                        // of what came
  Clock::time_point heard = Clock::now();  // or nothing was to come
  std::string reason;                      // of the Abort that is to come

  // Whether it ends with nothing open.
  bool is_tidy() const { return way == ORDERLY || way == ABORT || way == CUT || way == SILENT || way == STOPPED; }

  void close_it(bool resets = false) {
    linger none{resets, 0};
    KJ_SYSCALL(setsockopt(fd, SOL_SOCKET, SO_LINGER, &none, sizeof none));
    close(fd);
    phase = OVER;
    totals.ended[way]++;
  }

  // Sends what was made; of a slow one not all before the next turn. `false`: some of it is left.
  bool flush(bool wholly) {
    size_t most = unsent.size() + (is_slow && !wholly ? random.below(asker.made.size() + 1) : asker.made.size());
    unsent.insert(unsent.end(), asker.made.begin(), asker.made.end());
    asker.made.clear();
    ssize_t n = send(fd, unsent.data(), most, MSG_DONTWAIT | MSG_NOSIGNAL);
    KJ_REQUIRE(n >= 0 || errno == EAGAIN, "the server closed before it was to", errno);
    if (n > 0) {
      sent.insert(sent.end(), unsent.begin(), unsent.begin() + n);
      unsent.erase(unsent.begin(), unsent.begin() + n);
    }
    return unsent.empty();
  }

  void send_now(const Bytes& bytes) {
    KJ_REQUIRE(send(fd, bytes.data(), bytes.size(), MSG_NOSIGNAL) == ssize_t(bytes.size()));
    sent.insert(sent.end(), bytes.begin(), bytes.end());
  }

  void send_part_of_a_frame() {
    asker.echo();
    asker.made.resize(1 + random.below(asker.made.size() - 1));
    send_now(asker.made);
  }

  void ask() {
    if (turns == 0 && is_tidy()) {
      phase = TIDYING;
      return;
    }
    if (!asker.awaits()) heard = Clock::now();
    for (auto n = 1 + random.below(random.one_in(50) ? 400 : 8); n > 0; n--) asker.ask();
    if (turns == 0) phase = SENDING;
    else {
      turns--;
      flush(false);
    }
  }

  // Gives up what was answered. The echo in the end shows that nothing of that was a fault.
  void tidy() {
    asker.give_up();
    flush(true);
    if (!asker.is_clean()) return;
    asker.echo();
    heard = Clock::now();
    phase = SENDING;
  }

  void will_say(const std::string& line) { totals.must << line << peer; }
  void will_refuse(const char* fault) { will_say("refused at byte " + std::to_string(sent.size()) + ": " + fault); }

  // Ends, or has the server end. All was sent.
  void leave() {
    phase = LEAVING;
    if (way != SILENT) heard = Clock::now();
    switch (way) {
      case ORDERLY: return close_it();
      case HALF: KJ_SYSCALL(shutdown(fd, SHUT_WR)); return;
      case FAULT: reason = asker.fault(); return send_now(asker.made);
      case ABORT:
        asker.abort();
        send_now(asker.made);
        if (!random.one_in(10)) close_it();
        return;
      case HASTY:
        for (auto cause : {"Connection reset by peer (os error 104)", "Broken pipe (os error 32)"}) totals.may << "device: " << cause << peer;
        return close_it();
      case RESET: will_say("device: Connection reset by peer (os error 104)"); return close_it(true);
      case CUT: will_refuse("F3 Truncated"); send_part_of_a_frame(); return close_it();
      case GARBAGE:
        will_refuse("F1 TooManySegments");
        reason = "F1 too many segments";
        return send_now(Bytes(64, 0xff));
      case STOPPED: will_say("closed: a message didn't come whole in time"); return send_part_of_a_frame();
      default: will_say("closed: no byte moved in time");
    }
  }

  // The server sends no more.
  void end() {
    KJ_REQUIRE(phase == LEAVING, "the server closed before it was to");
    KJ_REQUIRE(asker.aborted == reason, asker.aborted, reason);
    // Half a frame asks for nothing, and after a fault the server answers no `later`.
    KJ_REQUIRE(way == STOPPED || !asker.awaits(way == FAULT || way == GARBAGE), "answers are missing");
    KJ_REQUIRE(way != HALF || !asker.has_gifts_out(), "not all that it was given was released");
    if (way == SILENT || way == STOPPED) {
      double waited = seconds_since(heard), limit = way == SILENT ? IDLE : MESSAGE;
      KJ_REQUIRE(std::abs(waited - limit) < 10, "it waited for another time", waited);
    }
    close_it();
  }

  // Looks at the frames that came whole.
  void take_frames() {
    uint32_t head[2];
    while (came.size() - taken >= sizeof head) {
      memcpy(head, &came[taken], sizeof head);
      KJ_REQUIRE(head[0] == 0, "a frame of several segments");
      std::vector<capnp::word> frame(1 + head[1]);
      if (came.size() - taken < 8 * frame.size()) return;
      memcpy(frame.data(), &came[taken], 8 * frame.size());
      taken += 8 * frame.size();
      capnp::FlatArrayMessageReader reader(kj::arrayPtr(frame.data(), frame.size()));
      auto answered = totals.answered;
      asker.take(reader.getRoot<rpc::Message>());
      if (totals.answered > answered && !is_slow) totals.milliseconds.push_back(1e3 * Seconds(asker.took).count());
    }
  }

 public:
  Connection(Totals& totals, unsigned port, uint64_t seed, Way way, uint32_t turns)
      : totals(totals), random{std::mt19937_64(seed)}, asker(random, totals), way(way), turns(turns),
        is_slow(way < SILENT && random.one_in(4)), fd(connected(port)) {
    sockaddr_in address{};
    socklen_t size = sizeof address;
    KJ_SYSCALL(getsockname(fd, (sockaddr*)&address, &size));
    peer = " (peer 127.0.0.1:" + std::to_string(ntohs(address.sin_port)) + ")\n";
  }

  bool is_over() const { return phase == OVER; }

  void watch(int poll) {
    epoll_event event{};
    event.events = is_slow ? 0 : EPOLLIN;
    event.data.ptr = this;
    KJ_SYSCALL(epoll_ctl(poll, EPOLL_CTL_ADD, fd, &event));
  }

  // Reads what came.
  void take() {
    kj::byte piece[65536];
    ssize_t n = recv(fd, piece, sizeof piece, MSG_DONTWAIT);
    if (n < 0 && errno == EAGAIN) return;
    KJ_REQUIRE(n >= 0, "the connection broke", errno);
    if (n == 0) return end();
    heard = Clock::now();
    came.insert(came.end(), piece, piece + n);
    take_frames();
  }

  // Goes on by a step.
  void turn() {
    take();
    if (phase == OVER) return;
    bool waits = phase == LEAVING || asker.awaits();
    KJ_REQUIRE(!waits || seconds_since(heard) < PATIENCE + (phase == LEAVING ? IDLE : 0), "nothing comes");
    if (phase == ASKING) ask();
    if (phase == TIDYING) tidy();
    if (phase == SENDING && flush(true) && (!is_tidy() || asker.is_clean())) leave();
  }

  // Keeps what was sent and what came.
  void keep(const std::string& lines) {
    fprintf(stderr, "it was to end: %s%s", NAMES[way], peer.c_str());
    std::ofstream(lines + ".sent").write((char*)sent.data(), sent.size());
    std::ofstream(lines + ".came").write((char*)came.data(), came.size());
  }
};
