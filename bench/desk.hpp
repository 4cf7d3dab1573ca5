// The objects that `capnp_cli serve` offers, of the reference library.
#pragma once
#include "desk.capnp.h"
#include <kj/async.h>

class CellServer final : public Cell::Server {
  uint64_t held = 0;

  kj::Promise<void> add(AddContext context) override {
    held += context.getParams().getAmount();
    context.getResults(capnp::MessageSize{4, 0}).setValue(held);
    return kj::READY_NOW;
  }

  kj::Promise<void> get(GetContext context) override {
    context.getResults(capnp::MessageSize{4, 0}).setValue(held);
    return kj::READY_NOW;
  }
};

class DeskServer final : public Desk::Server {
  Cell::Client cell = kj::heap<CellServer>();

  kj::Promise<void> now(NowContext context) override {
    context.getResults(capnp::MessageSize{4, 1}).setCell(cell);
    return kj::READY_NOW;
  }

  kj::Promise<void> later(LaterContext context) override {
    return kj::evalLater([this, context]() mutable { context.getResults(capnp::MessageSize{4, 1}).setCell(cell); });
  }
};
