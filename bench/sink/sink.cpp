// The reference library's server of a Sink.
// Usage: sink ADDRESS COUNT    serves COUNT connections, one after another, with a new Sink for each. The address is as kj reads it:
//                              127.0.0.1:PORT or unix:PATH
#include "sink.capnp.h"
#include <capnp/rpc-twoparty.h>
#include <kj/async-io.h>
#include <cstdio>
#include <cstdlib>
#include <vector>

class PageServer final : public Page::Server {
  uint64_t number;

  kj::Promise<void> read(ReadContext context) override {
    auto results = context.getResults(capnp::MessageSize{16, 0});
    results.setNumber(number);
    results.setText("A page without much on it.");
    return kj::READY_NOW;
  }

 public:
  explicit PageServer(uint64_t number) : number(number) {}
};

class SinkServer final : public Sink::Server {
  uint64_t sum = 0;
  std::vector<kj::byte> bytes = std::vector<kj::byte>(16 << 20, 0x5a);

  kj::Promise<void> put(PutContext context) override {
    auto data = context.getParams().getData();
    if (data.size() > 0) sum += data[0] + data[data.size() - 1];
    context.getResults(capnp::MessageSize{4, 0}).setSum(sum);
    return kj::READY_NOW;
  }

  kj::Promise<void> get(GetContext context) override {
    size_t size = context.getParams().getSize();
    context.getResults(capnp::MessageSize{size / 8 + 8, 0}).setData(kj::arrayPtr(bytes.data(), size));
    return kj::READY_NOW;
  }

  kj::Promise<void> raise(RaiseContext context) override {
    auto from = context.getParams().getItems();
    auto to = context.getResults(context.getParams().totalSize()).initItems(from.size());
    for (size_t i = 0; i < from.size(); i++) {
      to[i].setId(from[i].getId());
      to[i].setPrice(from[i].getPrice() + 1);
      to[i].setName(from[i].getName());
    }
    return kj::READY_NOW;
  }

  kj::Promise<void> open(OpenContext context) override {
    context.getResults(capnp::MessageSize{4, 1}).setPage(kj::heap<PageServer>(context.getParams().getNumber()));
    return kj::READY_NOW;
  }
};

int main(int argc, char** argv) {
  if (argc != 3) {
    fprintf(stderr, "usage: sink ADDRESS COUNT\n");
    return 2;
  }
  auto io = kj::setupAsyncIo();
  auto listener = io.provider->getNetwork().parseAddress(argv[1]).wait(io.waitScope)->listen();
  for (int i = 0; i < atoi(argv[2]); i++) {
    auto stream = listener->accept().wait(io.waitScope);
    capnp::TwoPartyVatNetwork network(*stream, capnp::rpc::twoparty::Side::SERVER);
    auto system = capnp::makeRpcServer(network, capnp::Capability::Client(kj::heap<SinkServer>()));
    network.onDisconnect().wait(io.waitScope);
  }
  return 0;
}
