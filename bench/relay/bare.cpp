// A bare TCP relay: what comes on one side goes out on the other, both ways at once, over readiness. It looks at nothing, or with
// `whole` at the segment tables alone: then a frame is held until its last byte has come, as by a relay that checks it.
// Usage: bare PORT TARGET_PORT COUNT [whole]    COUNT connections of 127.0.0.1, several at once
#include "../../nightly/connect.hpp"
#include <sys/epoll.h>
#include <fcntl.h>
#include <unistd.h>
#include <algorithm>
#include <cerrno>
#include <cstdlib>
#include <cstring>
#include <unordered_set>
#include <vector>

constexpr size_t PIECE = 16384;

static bool by_frames = false;

// One direction: what was read and not written, of which the bytes before `end` may go, and the rest of it is the open frame.
struct Way {
  int from, to;
  std::vector<char> bytes = std::vector<char>(PIECE);
  size_t start = 0, end = 0, read_end = 0;
  bool readable = true, writable = true, finished = false, shut = false;

  bool goes_on() const { return start < end ? writable : !finished && readable; }

  // How many bytes the frame has that begins at `end`, as far as it is known.
  size_t frame() const {
    uint32_t last, size;
    if (read_end - end < 4) return 8;
    memcpy(&last, &bytes[end], 4);
    size_t table = 8 + (last + 1) / 2 * 8, words = 0;
    if (read_end - end < table) return table;
    for (size_t i = 0; i <= last; i++) {
      memcpy(&size, &bytes[end + 4 + 4 * i], 4);
      words += size;
    }
    return table + 8 * words;
  }

  // Makes capacity for a piece, or for the rest of a longer frame.
  void begin() {
    memmove(bytes.data(), &bytes[start], read_end - start);
    read_end -= start;
    start = end = 0;
    size_t wanted = std::max(read_end + PIECE, by_frames ? frame() : 0);
    if (bytes.size() < wanted) bytes.resize(wanted);
  }

  // What was read may go, or the frames of it that are whole.
  void let_go() {
    if (!by_frames) end = read_end;
    while (by_frames && end < read_end && frame() <= read_end - end) end += frame();
  }

  // False where a stream failed.
  bool turn() {
    if (start == end && readable && !finished) {
      if (start > 0 || bytes.size() < read_end + PIECE) begin();
      ssize_t n = read(from, &bytes[read_end], PIECE);
      if (n > 0) {
        read_end += n;
        let_go();
      } else if (n == 0) {
        finished = true;
      } else if (errno == EAGAIN) {
        readable = false;
      } else {
        return false;
      }
    }
    while (start < end && writable) {
      ssize_t n = write(to, &bytes[start], end - start);
      if (n >= 0) {
        start += n;
      } else if (errno == EAGAIN) {
        writable = false;
      } else {
        return false;
      }
    }
    if (finished && start == end && !shut) {
      shut = true;
      shutdown(to, SHUT_WR);
    }
    return true;
  }
};

struct Link {
  int near, far;
  Way there{near, far}, back{far, near};
  Link(int near, int far) : near(near), far(far) {}
  ~Link() {
    close(near);
    close(far);
  }
};

// What an event says of one end of a link.
struct End {
  Link* link;
  bool is_far;
};

static void at_once(int fd) {
  int one = 1;
  KJ_SYSCALL(setsockopt(fd, IPPROTO_TCP, TCP_NODELAY, &one, sizeof one));
  KJ_SYSCALL(fcntl(fd, F_SETFL, fcntl(fd, F_GETFL) | O_NONBLOCK));
}

static void watch(int set, int fd, End* end) {
  epoll_event event{};
  event.events = EPOLLIN | EPOLLOUT | EPOLLET;
  event.data.ptr = end;
  KJ_SYSCALL(epoll_ctl(set, EPOLL_CTL_ADD, fd, &event));
}

int main(int argc, char** argv) {
  unsigned port = atoi(argv[1]), target = atoi(argv[2]), count = atoi(argv[3]), open = 0;
  by_frames = argc > 4 && !strcmp(argv[4], "whole");
  int listener = socket(AF_INET, SOCK_STREAM, 0), one = 1, set = epoll_create1(0);
  KJ_SYSCALL(setsockopt(listener, SOL_SOCKET, SO_REUSEADDR, &one, sizeof one));
  sockaddr_in address{};
  address.sin_family = AF_INET;
  address.sin_port = htons(port);
  address.sin_addr.s_addr = htonl(INADDR_LOOPBACK);
  KJ_SYSCALL(bind(listener, (sockaddr*)&address, sizeof address));
  KJ_SYSCALL(listen(listener, 128));
  fcntl(listener, F_SETFL, O_NONBLOCK);
  watch(set, listener, nullptr);
  while (count > 0 || open > 0) {
    epoll_event events[256];
    int n = epoll_wait(set, events, 256, -1);
    std::unordered_set<Link*> ready;
    for (int i = 0; i < n; i++) {
      auto end = (End*)events[i].data.ptr;
      if (end == nullptr) {
        int near;
        while (count > 0 && (near = accept(listener, nullptr, nullptr)) >= 0) {
          auto link = new Link(near, connected(target));
          at_once(near);
          at_once(link->far);
          watch(set, near, new End{link, false});
          watch(set, link->far, new End{link, true});
          count--;
          open++;
        }
        continue;
      }
      bool reads = events[i].events & (EPOLLIN | EPOLLHUP | EPOLLERR | EPOLLRDHUP), writes = events[i].events & (EPOLLOUT | EPOLLHUP | EPOLLERR);
      auto& from = end->is_far ? end->link->back : end->link->there;
      auto& to = end->is_far ? end->link->there : end->link->back;
      from.readable |= reads;
      to.writable |= writes;
      ready.insert(end->link);
    }
    for (auto link : ready) {
      bool well = true;
      while (well && (link->there.goes_on() || link->back.goes_on())) well = link->there.turn() && link->back.turn();
      if (!well || (link->there.shut && link->back.shut)) {
        delete link;
        open--;
      }
    }
  }
}
