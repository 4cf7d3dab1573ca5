// A client by the reference library. Usage: client ADDRESS TRIAL.. (HOST:PORT), each trial over a connection of its own:
//   promise: the host asks a promise of the client's, which then comes to the host's own cell
//   held: the same, of a promise that the host holds, and asks again afterwards
//   null: a promise of the host's, of results that have no capability there
//   pass: the host gives back its own cell
//   own: the host gives back the client's cell, which is called before that came
//   back: a promise of the host's, called before it comes to the client's cell, and after
//   through: the host asks an object of the client's, which asks the host's own cell by a tail call
//   nulls: no capability in params and in results, which is called before that came
// After each the host is asked again: the connection lives.
#include "tails.capnp.h"
#include <capnp/ez-rpc.h>
#include <kj/async.h>
#include <kj/async-io.h>
#include <kj/timer.h>
#include <stdio.h>
#include <string>

class CellHere final : public Cell::Server {
  kj::Promise<void> get(GetContext context) override {
    context.getResults().setValue(101);
    return kj::READY_NOW;
  }
};

class Through final : public Cell::Server {
  Cell::Client cell;

  kj::Promise<void> get(GetContext context) override { return context.tailCall(cell.getRequest()); }

 public:
  explicit Through(Cell::Client to) : cell(kj::mv(to)) {}
};

class MakerHere final : public Maker::Server {
  Cell::Client cell;

  kj::Promise<void> make(MakeContext context) override {
    return cell.whenResolved().then([this, context]() mutable { context.getResults().setCell(cell); });
  }

 public:
  explicit MakerHere(Cell::Client to) : cell(kj::mv(to)) {}
};

class Trials {
  capnp::EzRpcClient client;
  kj::WaitScope& scope;
  Tails::Client tails;
  Maker::Client maker;
  kj::PromiseFulfillerPair<Cell::Client> later = kj::newPromiseAndFulfiller<Cell::Client>();

  void pause() { client.getIoProvider().getTimer().afterDelay(30 * kj::MILLISECONDS).wait(scope); }
  Cell::Client cell() { return maker.makeRequest().send().wait(scope).getCell(); }
  unsigned long number(Cell::Client cell) { return cell.getRequest().send().wait(scope).getValue(); }

  void promise() {
    auto request = tails.asksRequest();
    request.setCell(kj::mv(later.promise));
    auto answer = request.send();
    auto own = cell();
    pause();
    later.fulfiller->fulfill(kj::mv(own));
    printf("promise: %lu\n", (unsigned long)answer.wait(scope).getValue());
  }

  void held() {
    hold(kj::mv(later.promise));
    auto first = tails.heldRequest().send();
    auto second = tails.heldRequest().send();
    auto own = sevenfold();
    pause();
    later.fulfiller->fulfill(kj::mv(own));
    auto before = (unsigned long)first.wait(scope).getValue(), again = (unsigned long)second.wait(scope).getValue();
    printf("held: %lu %lu %lu\n", before, again, (unsigned long)tails.heldRequest().send().wait(scope).getValue());
  }

  void null() {
    auto request = capnp::Capability::Client(tails).typelessRequest(capnp::typeId<Tails>(), 4, nullptr);
    request.initAs<Tails::AsksParams>().setCell(kj::mv(later.promise));
    auto answer = request.send();
    hold(capnp::Capability::Client(answer.getPointerField(0).asCap()).castAs<Cell>());
    auto promise = given();
    later.fulfiller->fulfill(kj::heap<CellHere>());
    kj::mv(answer).wait(scope);
    printf("null: %lu\n", number(promise));
  }

  void hold(Cell::Client cell) {
    auto request = tails.holdRequest();
    request.setCell(kj::mv(cell));
    request.send().wait(scope);
  }

  Cell::Client given() { return tails.giveRequest().send().wait(scope).getCell(); }

  Cell::Client sevenfold() {
    auto made = cell();
    auto add = made.addRequest();
    add.setAmount(7);
    add.send().wait(scope);
    return made;
  }

  void pass() {
    auto request = maker.passRequest();
    request.setCell(cell());
    printf("pass: %lu\n", number(request.send().wait(scope).getCell()));
  }

  void own() {
    auto request = maker.passRequest();
    request.setCell(kj::heap<CellHere>());
    printf("own: %lu\n", number(request.send().getCell()));
  }

  void back() {
    auto request = tails.madeRequest();
    request.setMaker(kj::heap<MakerHere>(kj::mv(later.promise)));
    auto made = request.send();
    hold(made.getCell());
    auto promise = given();
    auto before = promise.getRequest().send();
    pause();
    later.fulfiller->fulfill(kj::heap<CellHere>());
    auto first = (unsigned long)before.wait(scope).getValue();
    printf("back: %lu %lu\n", first, number(promise));
  }

  void through() {
    auto request = tails.asksRequest();
    request.setCell(kj::heap<Through>(sevenfold()));
    printf("through: %lu\n", (unsigned long)request.send().wait(scope).getValue());
  }

  void nulls() {
    auto passed = maker.passRequest().send();
    auto called = passed.getCell().getRequest().send();
    if (passed.wait(scope).hasCell()) printf("nulls: a cell\n");
    printf("nulls: %lu\n", (unsigned long)called.wait(scope).getValue());
  }

  void trial(const std::string& name) {
    if (name == "promise") promise();
    if (name == "held") held();
    if (name == "null") null();
    if (name == "pass") pass();
    if (name == "own") own();
    if (name == "back") back();
    if (name == "through") through();
    if (name == "nulls") nulls();
  }

 public:
  explicit Trials(const char* address)
      : client(address), scope(client.getWaitScope()), tails(client.getMain<Tails>()), maker(client.getMain<Maker>()) {}

  void run(const std::string& name) {
    try {
      trial(name);
    } catch (kj::Exception& fault) {
      printf("%s: %s\n", name.c_str(), fault.getDescription().cStr());
    }
    printf("%s lives: %lu\n", name.c_str(), number(cell()));
  }
};

int main(int argc, char** argv) {
  for (int i = 2; i < argc; i++) {
    try {
      Trials(argv[1]).run(argv[i]);
    } catch (kj::Exception& fault) {
      printf("%s ended: %s\n", argv[i], fault.getDescription().cStr());
    }
  }
}
