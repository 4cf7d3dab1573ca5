// Calls a Trial (../callees/trial.capnp) that answers in an hour, and drops each promise, so that its call is given up.
// Usage: dropped ADDRESS CALLS
//
// Nothing is kept of such a call: else the connection would end, as a vat has 65,536 answers. In the end calls are answered as ever.
#include "trial.capnp.h"
#include <capnp/rpc-twoparty.h>
#include <capnp/rpc.capnp.h>
#include <kj/async-io.h>
#include <kj/debug.h>
#include <cstdio>
#include <cstdlib>

namespace rpc = capnp::rpc;

int main(int argc, char** argv) {
  if (argc != 3) return 2;
  auto io = kj::setupAsyncIo();
  auto& scope = io.waitScope;
  auto stream = io.provider->getNetwork().parseAddress(argv[1]).wait(scope)->connect().wait(scope);
  capnp::TwoPartyVatNetwork network(*stream, rpc::twoparty::Side::CLIENT);
  auto system = capnp::makeRpcClient(network);
  capnp::MallocMessageBuilder message(8);
  auto id = message.initRoot<rpc::twoparty::VatId>();
  id.setSide(rpc::twoparty::Side::SERVER);
  auto trial = system.bootstrap(id).castAs<Trial>();
  uint64_t calls = strtoull(argv[2], nullptr, 10);
  for (uint64_t at = 1; at <= calls; at++) {
    auto request = trial.afterRequest();
    request.setMilliseconds(3600000);
    { auto dropped = request.send(); }
    if (at % 100 > 0) continue;
    // What was sent is taken in before more is.
    auto quick = trial.afterRequest();
    quick.setNumber(at);
    KJ_REQUIRE(quick.send().wait(scope).getNumber() == at);
  }
  printf("%lu calls given up\n", calls);
}
