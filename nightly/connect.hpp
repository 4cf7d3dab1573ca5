// A connection with a server on 127.0.0.1.
#pragma once
#include <kj/debug.h>
#include <arpa/inet.h>
#include <netinet/in.h>
#include <netinet/tcp.h>
#include <sys/socket.h>

// A socket that sends at once what is written to it.
inline int connected(unsigned port) {
  int fd, one = 1;
  KJ_SYSCALL(fd = socket(AF_INET, SOCK_STREAM, 0));
  sockaddr_in address{};
  address.sin_family = AF_INET;
  address.sin_port = htons(port);
  address.sin_addr.s_addr = htonl(INADDR_LOOPBACK);
  KJ_SYSCALL(connect(fd, (sockaddr*)&address, sizeof address));
  KJ_SYSCALL(setsockopt(fd, IPPROTO_TCP, TCP_NODELAY, &one, sizeof one));
  return fd;
}
