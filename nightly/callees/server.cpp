// A server by the reference library. Usage: server ADDRESS (HOST:PORT, or unix:PATH)
//   Desk.now: gives a Cell that holds 0; with a gift it adds 5 to that first, and the Cell holds what the gift answered
//   Desk.later: gives a Cell in a tenth of a second, so that calls of it wait, and later calls of others overtake it
//   Desk.never: fails
//   Cell.add, Cell.get: the number
//   Trial: as trial.capnp says
#include "trial.capnp.h"
#include "../peers/cell.hpp"
#include <capnp/ez-rpc.h>
#include <kj/async.h>
#include <kj/async-io.h>
#include <kj/timer.h>

// Counts the Cells that there are.
class CountedCell final : public CellServer {
  uint64_t& cells;

 public:
  CountedCell(uint64_t held, uint64_t& cells) : CellServer(held), cells(cells) { cells++; }
  ~CountedCell() noexcept(false) { cells--; }
};

class TrialServer final : public Trial::Server {
  kj::Timer* timer;
  uint64_t count = 0;

  kj::Promise<void> pause(uint64_t milliseconds) { return timer->afterDelay(milliseconds * kj::MILLISECONDS); }

 public:
  void set(kj::Timer& to) { timer = &to; }

  kj::Promise<void> now(NowContext context) override {
    if (!context.getParams().hasGift()) {
      context.getResults().setCell(kj::heap<CountedCell>(0, count));
      return kj::READY_NOW;
    }
    auto request = context.getParams().getGift().addRequest();
    request.setAmount(5);
    return request.send().then([this, context](capnp::Response<Cell::AddResults> response) mutable {
      context.getResults().setCell(kj::heap<CountedCell>(response.getValue(), count));
    });
  }

  kj::Promise<void> later(LaterContext context) override {
    return pause(100).then([this, context]() mutable { context.getResults().setCell(kj::heap<CountedCell>(100, count)); });
  }

  kj::Promise<void> never(NeverContext context) override { return KJ_EXCEPTION(FAILED, "no"); }

  kj::Promise<void> echo(EchoContext context) override {
    context.getResults().getContent().set(context.getParams().getContent());
    return kj::READY_NOW;
  }

  kj::Promise<void> after(AfterContext context) override {
    return pause(context.getParams().getMilliseconds()).then([context]() mutable {
      context.getResults().setNumber(context.getParams().getNumber());
    });
  }

  kj::Promise<void> become(BecomeContext context) override {
    auto params = context.getParams();
    auto paused = pause(params.getMilliseconds());
    if (params.hasCell()) {
      context.getResults().setCell(paused.then([cell = params.getCell()]() mutable { return kj::mv(cell); }));
    } else {
      context.getResults().setCell(
          paused.then([]() -> Cell::Client { return KJ_EXCEPTION(FAILED, "it came to nothing"); }));
    }
    return kj::READY_NOW;
  }

  kj::Promise<void> tell(TellContext context) override {
    return context.getParams().getCell().getRequest().send().then(
        [context](capnp::Response<Cell::GetResults> response) mutable {
          context.getResults().setValue(response.getValue());
        });
  }

  kj::Promise<void> cells(CellsContext context) override {
    context.getResults().setNumber(count);
    return kj::READY_NOW;
  }
};

int main(int argc, char** argv) {
  if (argc != 2) return 2;
  auto trial = kj::heap<TrialServer>();
  auto& kept = *trial;
  capnp::EzRpcServer server(kj::mv(trial), argv[1]);
  kept.set(server.getIoProvider().getTimer());
  server.getPort().wait(server.getWaitScope());
  kj::NEVER_DONE.wait(server.getWaitScope());
}
