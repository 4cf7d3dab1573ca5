// Preloaded into a program, changes one of its system calls: of those named CALL the one whose number, counted from 1, is NUMBER; none where that is 0,
// and each where it is -1. HOW is what happens: `late` (it begins 20 ms later), `short` (it moves one byte), `kill N` (signal N ends the program before
// it), or the number of the error with which it fails. At its end the program writes to the file COUNT how many such calls there were, and the descriptor of
// the one that was changed.
#define _GNU_SOURCE
#include <dlfcn.h>
#include <errno.h>
#include <poll.h>
#include <signal.h>
#include <stdio.h>
#include <stdlib.h>
#include <string.h>
#include <sys/epoll.h>
#include <sys/socket.h>
#include <time.h>
#include <unistd.h>

enum { LATE_NANOSECONDS = 20000000, MOST_DESCRIPTORS = 1024 };

static long count, changed = -1;

// Where each descriptor is watched, and what for.
static struct { int epoll; struct epoll_event event; } watched[MOST_DESCRIPTORS];

static const char* setting(const char* name) {
  const char* value = getenv(name);
  return value ? value : "";
}

static int is_meant(const char* name) {
  if (strcmp(name, setting("CALL"))) return 0;
  long number = atol(setting("NUMBER"));
  return ++count == number || number == -1;
}

// What a short call leaves, or one that would wait, comes with an event of its own, as bytes do that come later.
static void announce(int fd) {
  static __typeof__(&epoll_ctl) real;
  if (!real) real = dlsym(RTLD_NEXT, "epoll_ctl");
  if (fd >= 0 && fd < MOST_DESCRIPTORS && watched[fd].epoll) real(watched[fd].epoll, EPOLL_CTL_MOD, fd, &watched[fd].event);
}

// A connection whose call fails is gone, so no other call waits for it.
static void end(int fd, int error) {
  static __typeof__(&shutdown) real;
  if (!real) real = dlsym(RTLD_NEXT, "shutdown");
  if (error && error != EINTR && error != EAGAIN) real(fd, SHUT_RDWR);
}

// Whether the call fails; else `size`, where it has one, is what it moves.
static int fails(const char* name, int fd, size_t* size) {
  const char* how = setting("HOW");
  if (!is_meant(name)) return 0;
  changed = fd;
  if (!strncmp(how, "kill", 4)) raise(atoi(how + 4));
  if (!strcmp(how, "late")) nanosleep(&(struct timespec){0, LATE_NANOSECONDS}, NULL);
  if (!strcmp(how, "short") && size && *size) *size = 1;
  announce(fd);
  if (size) end(fd, atoi(how));
  return (errno = atoi(how));
}

#define CALL(result, name, parameters, arguments, fd, size) \
  result name parameters {                                  \
    static __typeof__(&name) real;                          \
    if (!real) real = dlsym(RTLD_NEXT, #name);              \
    return fails(#name, fd, size) ? -1 : real arguments;    \
  }

// A call that fails and yet does what it does, since nothing is left open by one that fails.
#define LAST_CALL(name, parameters, arguments) \
  int name parameters {                        \
    static __typeof__(&name) real;             \
    if (!real) real = dlsym(RTLD_NEXT, #name); \
    int error = fails(#name, fd, NULL);        \
    int result = real arguments;               \
    if (error) errno = error;                  \
    return error ? -1 : result;                \
  }

CALL(ssize_t, read, (int fd, void* to, size_t size), (fd, to, size), fd, &size)
CALL(ssize_t, recv, (int fd, void* to, size_t size, int flags), (fd, to, size, flags), fd, &size)
CALL(ssize_t, write, (int fd, const void* from, size_t size), (fd, from, size), fd, &size)
CALL(ssize_t, send, (int fd, const void* from, size_t size, int flags), (fd, from, size, flags), fd, &size)
CALL(int, socket, (int domain, int type, int protocol), (domain, type, protocol), -1, NULL)
CALL(int, bind, (int fd, const struct sockaddr* at, socklen_t size), (fd, at, size), fd, NULL)
CALL(int, listen, (int fd, int most), (fd, most), fd, NULL)
CALL(int, accept4, (int fd, struct sockaddr* at, socklen_t* size, int flags), (fd, at, size, flags), fd, NULL)
CALL(int, connect, (int fd, const struct sockaddr* to, socklen_t size), (fd, to, size), fd, NULL)
CALL(int, getsockname, (int fd, struct sockaddr* at, socklen_t* size), (fd, at, size), fd, NULL)
CALL(int, getsockopt, (int fd, int level, int name, void* to, socklen_t* size), (fd, level, name, to, size), fd, NULL)
CALL(int, setsockopt, (int fd, int level, int name, const void* from, socklen_t size), (fd, level, name, from, size), fd, NULL)
CALL(int, poll, (struct pollfd* of, nfds_t some, int timeout), (of, some, timeout), -1, NULL)
CALL(int, epoll_create1, (int flags), (flags), -1, NULL)
CALL(int, epoll_wait, (int fd, struct epoll_event* to, int most, int timeout), (fd, to, most, timeout), fd, NULL)
CALL(int, open, (const char* path, int flags, unsigned mode), (path, flags, mode), -1, NULL)
LAST_CALL(shutdown, (int fd, int how), (fd, how))
LAST_CALL(close, (int fd), (fd))

int epoll_ctl(int epoll, int what, int fd, struct epoll_event* event) {
  static __typeof__(&epoll_ctl) real;
  if (!real) real = dlsym(RTLD_NEXT, "epoll_ctl");
  if (fails("epoll_ctl", fd, NULL)) return -1;
  if (what == EPOLL_CTL_ADD && fd < MOST_DESCRIPTORS) {
    watched[fd].epoll = epoll;
    watched[fd].event = *event;
  }
  return real(epoll, what, fd, event);
}

__attribute__((destructor)) static void tell(void) {
  FILE* file = fopen(setting("COUNT"), "w");
  if (!file) return;
  fprintf(file, "%ld %ld\n", count, changed);
  fclose(file);
}
