// A server by the reference library, of Tails (tails.capnp). Usage: server ADDRESS (HOST:PORT)
#include "tails.capnp.h"
#include "../peers/cell.hpp"
#include <capnp/ez-rpc.h>
#include <kj/async.h>
#include <kj/async-io.h>
#include <kj/timer.h>

class TailsServer final : public Tails::Server {
  kj::Timer* timer;
  kj::Maybe<Cell::Client> held;

  kj::Promise<void> pause(uint64_t milliseconds) { return timer->afterDelay(milliseconds * kj::MILLISECONDS); }

 public:
  void set(kj::Timer& to) { timer = &to; }

  kj::Promise<void> count(CountContext context) override { return context.tailCall(context.getParams().getCell().getRequest()); }

  kj::Promise<void> made(MadeContext context) override { return context.tailCall(context.getParams().getMaker().makeRequest()); }

  kj::Promise<void> passed(PassedContext context) override {
    auto request = context.getParams().getMaker().passRequest();
    request.setCell(kj::heap<CellServer>(5));
    return context.tailCall(kj::mv(request));
  }

  kj::Promise<void> become(BecomeContext context) override {
    auto params = context.getParams();
    auto later = pause(params.getMilliseconds()).then([cell = params.getCell()]() mutable { return kj::mv(cell); });
    context.getResults().setCell(kj::mv(later));
    return kj::READY_NOW;
  }

  kj::Promise<void> asks(AsksContext context) override {
    return context.getParams().getCell().getRequest().send().then(
        [context](auto&& said) mutable { context.getResults().setValue(said.getValue()); });
  }

  kj::Promise<void> hold(HoldContext context) override {
    held = nullptr;
    if (context.getParams().hasCell()) held = context.getParams().getCell();
    return kj::READY_NOW;
  }

  kj::Promise<void> give(GiveContext context) override {
    KJ_IF_MAYBE(cell, held) context.getResults().setCell(*cell);
    return kj::READY_NOW;
  }

  kj::Promise<void> after(AfterContext context) override { return pause(context.getParams().getMilliseconds()); }
};

int main(int argc, char** argv) {
  if (argc != 2) return 2;
  auto object = kj::heap<TailsServer>();
  auto& kept = *object;
  capnp::EzRpcServer server(kj::mv(object), argv[1]);
  kept.set(server.getIoProvider().getTimer());
  server.getPort().wait(server.getWaitScope());
  kj::NEVER_DONE.wait(server.getWaitScope());
}
