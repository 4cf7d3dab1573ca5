// A Cell over the reference library. The generated header that has Cell is included before.
#pragma once

class CellServer : public Cell::Server {
  uint64_t held;

 public:
  explicit CellServer(uint64_t held) : held(held) {}

  kj::Promise<void> add(AddContext context) override {
    held += context.getParams().getAmount();
    context.getResults().setValue(held);
    return kj::READY_NOW;
  }

  kj::Promise<void> get(GetContext context) override {
    context.getResults().setValue(held);
    return kj::READY_NOW;
  }
};
