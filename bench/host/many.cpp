// The reference library's server of many connections at once. Usage: many PORT    a Desk on 127.0.0.1, until it is ended
#include "../desk.hpp"
#include <capnp/rpc-twoparty.h>
#include <kj/async-io.h>
#include <kj/vector.h>
#include <cstdio>
#include <cstdlib>

// A connection, with objects of its own.
struct Served {
  kj::Own<kj::AsyncIoStream> stream;
  capnp::TwoPartyVatNetwork network;
  capnp::RpcSystem<capnp::rpc::twoparty::VatId> system;

  explicit Served(kj::Own<kj::AsyncIoStream> it)
      : stream(kj::mv(it)),
        network(*stream, capnp::rpc::twoparty::Side::SERVER),
        system(capnp::makeRpcServer(network, kj::heap<DeskServer>())) {}
};

struct Failures final : public kj::TaskSet::ErrorHandler {
  void taskFailed(kj::Exception&&) override {}
};

static kj::Promise<void> accept_all(kj::ConnectionReceiver& listener, kj::TaskSet& tasks) {
  return listener.accept().then([&](kj::Own<kj::AsyncIoStream> stream) {
    auto served = kj::heap<Served>(kj::mv(stream));
    auto gone = served->network.onDisconnect();
    tasks.add(gone.attach(kj::mv(served)));
    return accept_all(listener, tasks);
  });
}

int main(int argc, char** argv) {
  if (argc != 2) {
    fprintf(stderr, "usage: many PORT\n");
    return 2;
  }
  auto io = kj::setupAsyncIo();
  auto listener = io.provider->getNetwork().parseAddress("127.0.0.1", atoi(argv[1])).wait(io.waitScope)->listen();
  Failures failures;
  kj::TaskSet tasks(failures);
  accept_all(*listener, tasks).wait(io.waitScope);
}
