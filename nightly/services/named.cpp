// Names the results of open calls of a Trial (../callees/trial.capnp) in other calls, more often than a vat has promises.
// Usage: named ADDRESS CALLS EACH
//
// Of so many calls that are answered later, the Cell that each will give is named in so many other calls while it is open. Each of these answers
// with that Cell, and as many on what a promise comes to fail, as it comes to nothing. At the end all is let go, and then the server counts no Cell.
#include "trial.capnp.h"
#include <capnp/rpc-twoparty.h>
#include <capnp/rpc.capnp.h>
#include <kj/async-io.h>
#include <kj/debug.h>
#include <cstdio>
#include <cstdlib>

namespace rpc = capnp::rpc;

int main(int argc, char** argv) {
  if (argc != 4) return 2;
  auto io = kj::setupAsyncIo();
  auto& scope = io.waitScope;
  auto stream = io.provider->getNetwork().parseAddress(argv[1]).wait(scope)->connect().wait(scope);
  capnp::TwoPartyVatNetwork network(*stream, rpc::twoparty::Side::CLIENT);
  auto system = capnp::makeRpcClient(network);
  capnp::MallocMessageBuilder message(8);
  auto id = message.initRoot<rpc::twoparty::VatId>();
  id.setSide(rpc::twoparty::Side::SERVER);
  auto trial = system.bootstrap(id).castAs<Trial>();
  uint64_t calls = strtoull(argv[2], nullptr, 10), each = strtoull(argv[3], nullptr, 10), named = 0, failed = 0;
  for (uint64_t at = 0; at < calls; at++) {
    auto later = trial.laterRequest().send();
    auto cell = later.getCell();
    auto lost = trial.becomeRequest().send();
    auto nobody = lost.getCell().castAs<Trial>();
    kj::Vector<kj::Promise<void>> open;
    for (uint64_t turn = 0; turn < each; turn++) {
      auto request = trial.echoRequest();
      request.getContent().setAs<Cell>(cell);
      open.add(request.send()
                   .then([](capnp::Response<Trial::EchoResults> response) { return response.getContent().getAs<Cell>().getRequest().send(); })
                   .then([&named](capnp::Response<Cell::GetResults> response) {
                     KJ_REQUIRE(response.getValue() == 100);
                     named++;
                   }));
      auto other = nobody.echoRequest();
      other.getContent().setAs<Cell>(cell);
      open.add(other.send().then([](capnp::Response<Trial::EchoResults>) { KJ_FAIL_REQUIRE("answered by nobody"); },
                                 [&failed](kj::Exception&&) { failed++; }));
    }
    kj::joinPromises(open.releaseAsArray()).wait(scope);
    later.ignoreResult().wait(scope);
    lost.ignoreResult().wait(scope);
  }
  uint64_t cells = 1;
  for (int turn = 0; turn < 500 && cells > 0; turn++) {
    cells = trial.cellsRequest().send().wait(scope).getNumber();
    if (cells > 0) io.provider->getTimer().afterDelay(10 * kj::MILLISECONDS).wait(scope);
  }
  KJ_REQUIRE(cells == 0, "Cells are left", cells);
  KJ_REQUIRE(failed == calls * each, "calls on nothing were answered", failed);
  printf("%lu promises named, %lu in calls that failed\n", named + failed, failed);
}
