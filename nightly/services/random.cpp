// Random sessions with a Trial (../callees/trial.capnp), compared with a plain model of what each Cell holds.
// Usage: random ADDRESS SEED SESSIONS MOVES
//
// A session makes so many moves over a connection of its own. It has Cells made and drops them, gives Cells of its own away, has promises
// come to either or to nothing, calls all these before they are there and after, has them called, and gives up questions. Each
// call has to answer the sum of what was added before it, in the order in which they were made. At the end each Cell is asked once more, all is
// let go, and then the server counts no Cell of it and has released each of this end's.
#include "trial.capnp.h"
#include "../peers/cell.hpp"
#include <capnp/rpc-twoparty.h>
#include <capnp/rpc.capnp.h>
#include <kj/async-io.h>
#include <kj/debug.h>
#include <cstdio>
#include <cstdlib>
#include <memory>
#include <random>
#include <vector>

namespace rpc = capnp::rpc;

struct Totals {
  uint64_t moves = 0, answers = 0, exceptions = 0, made = 0, promised = 0, given = 0, dropped = 0, longest = 0;
};

class OwnCell final : public CellServer {
  size_t& alive;

 public:
  OwnCell(uint64_t held, size_t& alive) : CellServer(held), alive(alive) { alive++; }
  ~OwnCell() noexcept(false) { alive--; }
};

// A Cell, or nothing: what a promise came to that failed.
struct Object {
  uint64_t held;
  bool is_nothing;
};

struct Handle {
  Cell::Client cap;
  std::shared_ptr<Object> object;
};

class Session {
  kj::AsyncIoContext& io;
  kj::WaitScope& scope;
  std::mt19937_64& random;
  Totals& totals;
  size_t own = 0;  // Cells of this end that are alive
  kj::Own<kj::AsyncIoStream> stream;
  capnp::TwoPartyVatNetwork network;
  capnp::RpcSystem<rpc::twoparty::VatId> system;
  Trial::Client trial;
  std::vector<Handle> handles;
  std::vector<kj::Promise<void>> open;

  Trial::Client bootstrap() {
    capnp::MallocMessageBuilder message(8);
    auto id = message.initRoot<rpc::twoparty::VatId>();
    id.setSide(rpc::twoparty::Side::SERVER);
    return system.bootstrap(id).castAs<Trial>();
  }

  uint64_t draw(uint64_t below) { return random() % below; }

  // What came of a call is this number, or, of nothing, its exception.
  template <class Response, class Value>
  kj::Promise<void> comes(capnp::RemotePromise<Response>&& sent, std::shared_ptr<Object> object, uint64_t wanted, Value value) {
    bool fails = object && object->is_nothing;
    return sent.then(
        [this, fails, wanted, value](capnp::Response<Response> response) {
          KJ_REQUIRE(!fails, "it came to something");
          KJ_REQUIRE(value(response) == wanted, value(response), wanted);
          totals.answers++;
        },
        [this, fails](kj::Exception&& exception) {
          KJ_REQUIRE(fails && exception.getDescription().endsWith("it came to nothing"), exception);
          totals.exceptions++;
        });
  }

  void keep(kj::Promise<void> promise) { open.push_back(promise.eagerlyEvaluate(nullptr)); }

  void settle() {
    for (auto& each : open) each.wait(scope);
    open.clear();
  }

  size_t any() { return draw(handles.size()); }

  // Lets go all handles of an object but a new one.
  void rename(std::shared_ptr<Object> object, Cell::Client cap) {
    for (size_t at = handles.size(); at-- > 0;)
      if (handles[at].object == object) handles.erase(handles.begin() + at);
    handles.push_back({kj::mv(cap), kj::mv(object)});
  }

  void add(Cell::Client cap, uint64_t held) { handles.push_back({kj::mv(cap), std::make_shared<Object>(Object{held, false})}); }

  void makes() {
    totals.made++;
    if (draw(200) != 0) return add(trial.nowRequest().send().getCell(), 0);
    auto sent = trial.laterRequest().send();
    add(sent.getCell(), 100);
    keep(sent.ignoreResult());
  }

  void calls(Handle& handle) {
    auto object = handle.object;
    if (draw(3) > 0) {
      auto request = handle.cap.addRequest();
      uint64_t amount = draw(1000);
      request.setAmount(amount);
      object->held += amount;
      keep(comes(request.send(), object, object->held, [](auto& response) { return response.getValue(); }));
    } else {
      keep(comes(handle.cap.getRequest().send(), object, object->held, [](auto& response) { return response.getValue(); }));
    }
  }

  void gives(Handle handle) {
    settle();
    totals.given++;
    auto request = trial.nowRequest();
    request.setGift(handle.cap);
    auto sent = request.send();
    if (handle.object->is_nothing) {
      keep(comes(sent.getCell().getRequest().send(), handle.object, 0, [](auto&) { return 0; }));
    } else {
      handle.object->held += 5;
      add(sent.getCell(), handle.object->held);
      keep(sent.ignoreResult());
    }
    settle();
  }

  void tells(Handle handle) {
    settle();
    auto request = trial.tellRequest();
    request.setCell(handle.cap);
    keep(comes(request.send(), handle.object, handle.object->held, [](auto& response) { return response.getValue(); }));
    settle();
  }

  void promises(Handle handle) {
    totals.promised++;
    auto request = trial.becomeRequest();
    request.setMilliseconds(draw(4));
    request.setCell(handle.cap);
    rename(handle.object, request.send().getCell());
  }

  void promises_nothing() {
    totals.promised++;
    auto request = trial.becomeRequest();
    request.setMilliseconds(draw(4));
    handles.push_back({request.send().getCell(), std::make_shared<Object>(Object{0, true})});
  }

  void echoes(Handle handle) {
    // (What came to nothing may come back as no capability at all, and then this library can't read the results.)
    if (handle.object->is_nothing) return;
    settle();
    auto request = trial.echoRequest();
    request.getContent().setAs<Cell>(handle.cap);
    rename(handle.object, request.send().wait(scope).getContent().getAs<Cell>());
  }

  void waits() {
    auto request = trial.afterRequest();
    uint64_t number = draw(1000000);
    request.setMilliseconds(draw(4));
    request.setNumber(number);
    keep(comes(request.send(), nullptr, number, [](auto& response) { return response.getNumber(); }));
  }

  // A call that can only fail.
  template <class Call>
  void fails(Call call) {
    bool is_refused = false;
    KJ_IF_MAYBE(exception, kj::runCatchingExceptions(call)) {
      KJ_REQUIRE(exception->getType() == kj::Exception::Type::FAILED, *exception);
      is_refused = true;
    }
    KJ_REQUIRE(is_refused, "it didn't fail");
    totals.exceptions++;
  }

  void drops() {
    totals.dropped++;
    handles.erase(handles.begin() + any());
  }

  void move() {
    totals.moves++;
    uint64_t kind = draw(100);
    if (handles.empty() || kind < 14) makes();
    else if (kind < 20) add(kj::heap<OwnCell>(kind, own), kind);
    else if (kind < 55) calls(handles[any()]);
    else if (kind < 60) gives(handles[any()]);
    else if (kind < 65) tells(handles[any()]);
    else if (kind < 75) promises(handles[any()]);
    else if (kind < 78) promises_nothing();
    else if (kind < 81) echoes(handles[any()]);
    else if (kind < 86) waits();
    else if (kind < 87) fails([&] { trial.neverRequest().send().wait(scope); });
    else if (kind < 88) fails([&] { trial.tellRequest().send().wait(scope); });
    else if (kind < 90) auto given_up = trial.nowRequest().send();
    else if (kind < 92) settle();
    else drops();
  }

  // How many Cells of the session the server has, if it says that.
  uint64_t cells() {
    KJ_IF_MAYBE(exception, kj::runCatchingExceptions([&] { counted = trial.cellsRequest().send().wait(scope).getNumber(); })) {
      KJ_REQUIRE(exception->getType() == kj::Exception::Type::UNIMPLEMENTED, *exception);
      return 0;
    }
    return counted;
  }

  uint64_t counted = 0;

 public:
  Session(kj::AsyncIoContext& io, kj::StringPtr address, std::mt19937_64& random, Totals& totals)
      : io(io), scope(io.waitScope), random(random), totals(totals),
        stream(io.provider->getNetwork().parseAddress(address).wait(scope)->connect().wait(scope)),
        network(*stream, rpc::twoparty::Side::CLIENT), system(capnp::makeRpcClient(network)), trial(bootstrap()) {}

  void play(uint64_t moves) {
    for (uint64_t at = 0; at < moves; at++) move();
    for (auto& each : handles)
      keep(comes(each.cap.getRequest().send(), each.object, each.object->held, [](auto& response) { return response.getValue(); }));
    settle();
    totals.longest = kj::max(totals.longest, handles.size());
    handles.clear();
    // (Asked each time: our server gives a Cell of this end's that it kept for a promise up with its next answer.)
    for (int turn = 0; turn < 500 && (cells() > 0 || own > 0); turn++)
      io.provider->getTimer().afterDelay(10 * kj::MILLISECONDS).wait(scope);
    KJ_REQUIRE(own == 0 && cells() == 0, "Cells are left", own, cells());
  }
};

int main(int argc, char** argv) {
  if (argc != 5) return 2;
  auto io = kj::setupAsyncIo();
  uint64_t seed = strtoull(argv[2], nullptr, 10), sessions = strtoull(argv[3], nullptr, 10), moves = strtoull(argv[4], nullptr, 10);
  Totals totals;
  for (uint64_t at = 0; at < sessions; at++) {
    std::mt19937_64 random(seed + at);
    KJ_CONTEXT("session of seed", seed + at);
    Session(io, argv[1], random, totals).play(moves);
  }
  printf("%lu sessions, %lu moves: %lu answers, %lu exceptions, %lu Cells made, %lu promised, %lu given, %lu dropped, %lu at once at most\n",
         sessions, totals.moves, totals.answers, totals.exceptions, totals.made, totals.promised, totals.given, totals.dropped, totals.longest);
}
