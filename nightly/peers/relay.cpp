// Between a client of the plain form and a server of the packed one: the reference library packs and unpacks.
// Usage: relay PORT SERVER_PORT COUNT    COUNT connections, one after another
#include <capnp/serialize.h>
#include <capnp/serialize-packed.h>
#include <kj/debug.h>
#include <kj/io.h>
#include <arpa/inet.h>
#include <netinet/in.h>
#include <netinet/tcp.h>
#include <sys/socket.h>
#include <unistd.h>
#include <cstdio>
#include <cstdlib>
#include <thread>
#include <vector>

static sockaddr_in local(unsigned port) {
  sockaddr_in address{};
  address.sin_family = AF_INET;
  address.sin_port = htons(port);
  address.sin_addr.s_addr = htonl(INADDR_LOOPBACK);
  return address;
}

static void at_once(int fd) {
  int one = 1;
  setsockopt(fd, IPPROTO_TCP, TCP_NODELAY, &one, sizeof one);
}

// Reads messages to their end, and writes each in the other form.
template <class Reader, class Write>
static void pass_on(int from, int to, Write write) {
  kj::FdInputStream input(from);
  kj::BufferedInputStreamWrapper stream(input);
  kj::FdOutputStream output(to);
  kj::runCatchingExceptions([&] {
    while (stream.tryGetReadBuffer().size() > 0) {
      Reader reader(stream);
      std::vector<kj::ArrayPtr<const capnp::word>> segments;
      for (unsigned id = 0;; id++) {
        auto segment = reader.getSegment(id);
        if (segment == nullptr) break;
        segments.push_back(segment);
      }
      write(output, kj::arrayPtr(segments.data(), segments.size()));
    }
  });
  shutdown(to, SHUT_WR);
}

static void serve(int client, unsigned port) {
  int server = socket(AF_INET, SOCK_STREAM, 0);
  auto address = local(port);
  KJ_SYSCALL(connect(server, (sockaddr*)&address, sizeof address));
  at_once(client);
  at_once(server);
  std::thread there([&] {
    pass_on<capnp::InputStreamMessageReader>(client, server, [](auto& output, auto segments) { capnp::writePackedMessage(output, segments); });
  });
  pass_on<capnp::PackedMessageReader>(server, client, [](auto& output, auto segments) { capnp::writeMessage(output, segments); });
  there.join();
  close(server);
  close(client);
}

int main(int argc, char** argv) {
  if (argc != 4) {
    fprintf(stderr, "usage: relay PORT SERVER_PORT COUNT\n");
    return 2;
  }
  int listener = socket(AF_INET, SOCK_STREAM, 0), one = 1;
  setsockopt(listener, SOL_SOCKET, SO_REUSEADDR, &one, sizeof one);
  auto address = local(atoi(argv[1]));
  KJ_SYSCALL(bind(listener, (sockaddr*)&address, sizeof address));
  KJ_SYSCALL(listen(listener, 16));
  for (long left = atol(argv[3]); left > 0; left--) {
    int client;
    KJ_SYSCALL(client = accept(listener, nullptr, nullptr));
    serve(client, atoi(argv[2]));
  }
  return 0;
}
