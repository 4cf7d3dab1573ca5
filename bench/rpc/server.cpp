// The reference library's server of the objects that `capnp_cli serve` offers, or of a Blob.
// Usage: server PORT COUNT [blob]    serves COUNT connections on 127.0.0.1, one after another, with new objects for each
#include "../desk.hpp"
#include "blob.capnp.h"
#include <capnp/rpc-twoparty.h>
#include <kj/async-io.h>
#include <cstdio>
#include <cstdlib>
#include <vector>

class BlobServer final : public Blob::Server {
  std::vector<kj::byte> bytes = std::vector<kj::byte>(1 << 20, 0x5a);
  uint64_t calls = 0;

  kj::Promise<void> get(GetContext context) override {
    auto results = context.getResults(capnp::MessageSize{bytes.size() / 8 + 8, 0});
    results.setCalls(++calls);
    results.setBytes(kj::arrayPtr(bytes.data(), bytes.size()));
    return kj::READY_NOW;
  }

  kj::Promise<void> echo(EchoContext context) override {
    auto params = context.getParams();
    auto results = context.getResults(capnp::MessageSize{params.getBytes().size() / 8 + 8, 0});
    results.setNumber(params.getNumber());
    results.setBytes(params.getBytes());
    return kj::READY_NOW;
  }
};

int main(int argc, char** argv) {
  if (argc < 3) {
    fprintf(stderr, "usage: server PORT COUNT [blob]\n");
    return 2;
  }
  auto io = kj::setupAsyncIo();
  auto listener = io.provider->getNetwork().parseAddress("127.0.0.1", atoi(argv[1])).wait(io.waitScope)->listen();
  for (int i = 0; i < atoi(argv[2]); i++) {
    auto stream = listener->accept().wait(io.waitScope);
    capnp::TwoPartyVatNetwork network(*stream, capnp::rpc::twoparty::Side::SERVER);
    capnp::Capability::Client bootstrap = argc > 3 ? capnp::Capability::Client(kj::heap<BlobServer>()) : kj::heap<DeskServer>();
    auto system = capnp::makeRpcServer(network, kj::mv(bootstrap));
    network.onDisconnect().wait(io.waitScope);
  }
  return 0;
}
