// Random sessions of the reference library's client and server, between which a guard stands.
// Usage: guard serve PORT COUNT          COUNT connections, several at once; fails if a method is called that isn't allowed
//        guard call PORT COUNT SEED      COUNT connections, each with some twenty random calls; fails where a call that isn't allowed doesn't
//                                        fail with its name, where another one fails, and where the guard holds an object of the client's
#include "desk.capnp.h"
#include <capnp/rpc-twoparty.h>
#include <kj/async-io.h>
#include <kj/debug.h>
#include <cstdio>
#include <cstdlib>
#include <cstring>
#include <random>
#include <string>
#include <vector>

static uint64_t forbidden = 0, allowed = 0;
static int alive = 0;

struct DrawerServer final : Drawer::Server {
  uint64_t value;
  explicit DrawerServer(uint64_t value) : value(value) {}
  kj::Promise<void> light(LightContext context) override {
    allowed++;
    context.getResults().setOn(true);
    return kj::READY_NOW;
  }
  kj::Promise<void> smash(SmashContext) override {
    forbidden++;
    return kj::READY_NOW;
  }
  kj::Promise<void> look(LookContext context) override {
    allowed++;
    context.getResults().setValue(value);
    return kj::READY_NOW;
  }
  kj::Promise<void> burn(BurnContext context) override {
    forbidden++;
    context.getResults().setDrawer(kj::heap<DrawerServer>(0));
    return kj::READY_NOW;
  }
};

struct DeskServer final : Desk::Server {
  kj::Promise<void> open(OpenContext context) override {
    allowed++;
    context.getResults().setDrawer(kj::heap<DrawerServer>(context.getParams().getValue()));
    return kj::READY_NOW;
  }
  kj::Promise<void> give(GiveContext context) override {
    allowed++;
    auto drawers = context.getParams().getDrawers();
    auto values = kj::heapArrayBuilder<kj::Promise<uint64_t>>(drawers.size());
    for (uint i = 0; i < drawers.size(); i++) {
      // The library throws where a capability's descriptor is none.
      auto look = [&] { return drawers[i].lookRequest().send().then([](auto&& results) -> uint64_t { return results.getValue(); }); };
      values.add(kj::evalNow(look).catch_([](kj::Exception&&) -> uint64_t { return 0; }));
    }
    return kj::joinPromises(values.finish()).then([context](kj::Array<uint64_t> values) mutable {
      auto list = context.getResults().initValues(values.size());
      for (uint i = 0; i < values.size(); i++) list.set(i, values[i]);
    });
  }
  kj::Promise<void> ask(AskContext context) override {
    allowed++;
    auto request = context.getParams().getCaller().callRequest();
    request.setDesk(thisCap());
    request.setDrawer(kj::heap<DrawerServer>(9));
    return request.send().then([context](auto&& results) mutable { context.getResults().setDrawer(results.getDrawer()); });
  }
  kj::Promise<void> echo(EchoContext context) override {
    allowed++;
    context.getResults().setBytes(context.getParams().getBytes());
    return kj::READY_NOW;
  }
  kj::Promise<void> destroy(DestroyContext context) override {
    forbidden++;
    context.getResults().setDrawer(kj::heap<DrawerServer>(0));
    return kj::READY_NOW;
  }
  kj::Promise<void> forget(ForgetContext context) override {
    forbidden++;
    context.getResults().setCaller(context.getParams().getCaller());
    return kj::READY_NOW;
  }
};

// An object of the client's, which counts those that are there.
struct OwnDrawer final : Drawer::Server {
  uint64_t value;
  explicit OwnDrawer(uint64_t value) : value(value) { alive++; }
  ~OwnDrawer() { alive--; }
  kj::Promise<void> look(LookContext context) override {
    context.getResults().setValue(value);
    return kj::READY_NOW;
  }
};

// Calls the desk in turn: with or without a rule, and as a tail call or not.
struct OwnCaller final : Caller::Server {
  bool allows, tail;
  OwnCaller(bool allows, bool tail) : allows(allows), tail(tail) { alive++; }
  ~OwnCaller() { alive--; }
  kj::Promise<void> call(CallContext context) override {
    auto desk = context.getParams().getDesk();
    if (allows) {
      auto request = desk.openRequest();
      request.setValue(7);
      if (tail) return context.tailCall(kj::mv(request));
      // What the server passes to an object that `ask` was given has come by `ask`, so it may be looked at.
      return context.getParams().getDrawer().lookRequest().send().then([context, request = kj::mv(request)](auto&& results) mutable {
        KJ_REQUIRE(results.getValue() == 9);
        return request.send();
      }).then([context](auto&& results) mutable { context.getResults().setDrawer(results.getDrawer()); });
    }
    auto request = desk.destroyRequest();
    request.initDrawers(0);
    if (tail) return context.tailCall(kj::mv(request));
    // What the call would give is named in the Return, before the call's answer comes.
    context.getResults().setDrawer(request.send().getDrawer());
    return kj::READY_NOW;
  }
};

struct Session {
  kj::AsyncIoContext& io;
  std::mt19937& random;
  Desk::Client desk;
  std::vector<Drawer::Client> drawers;   // that look
  std::vector<Drawer::Client> broken;    // of calls that aren't allowed
  std::vector<kj::Promise<void>> checks;

  uint64_t pick(uint64_t n) { return random() % n; }

  template <class P>
  void fails(P&& promise, const char* name) {
    std::string wanted = std::string("not allowed: ") + name;
    checks.push_back(promise.then([name](auto&&) { KJ_FAIL_REQUIRE("a call went that isn't allowed", name); },
                                  [wanted](kj::Exception&& exception) {
                                    KJ_REQUIRE(strstr(exception.getDescription().cStr(), wanted.c_str()) != nullptr, exception, wanted.c_str());
                                  }));
  }

  void step() {
    switch (pick(11)) {
      case 0: {
        auto request = desk.openRequest();
        request.setValue(1 + pick(1000));
        drawers.push_back(request.send().getDrawer());
        break;
      }
      case 1: {
        auto request = desk.destroyRequest();
        auto list = request.initDrawers(pick(3));
        for (uint i = 0; i < list.size(); i++) list.set(i, kj::heap<OwnDrawer>(3));
        auto promise = request.send();
        broken.push_back(promise.getDrawer());
        fails(kj::mv(promise), "Desk.destroy");
        break;
      }
      case 2: {
        if (drawers.empty()) break;
        auto promise = drawers[pick(drawers.size())].burnRequest().send();
        broken.push_back(promise.getDrawer());
        fails(kj::mv(promise), "Drawer.burn");
        break;
      }
      case 3: {
        // A method that may be called of what a call that isn't allowed would give.
        if (broken.empty()) break;
        checks.push_back(broken[pick(broken.size())].lookRequest().send().then(
            [](auto&&) { KJ_FAIL_REQUIRE("a call on a broken promise went"); },
            [](kj::Exception&& e) { KJ_REQUIRE(strstr(e.getDescription().cStr(), "not allowed: ") != nullptr, e); }));
        break;
      }
      case 4: {
        // Drawers that are there, that aren't, and of the client's.
        auto request = desk.giveRequest();
        auto list = request.initDrawers(pick(5));
        std::vector<int> kinds;
        for (uint i = 0; i < list.size(); i++) {
          int kind = pick(3);
          if (kind == 0 && drawers.empty()) kind = 2;
          if (kind == 1 && broken.empty()) kind = 2;
          kinds.push_back(kind);
          if (kind == 0) list.set(i, drawers[pick(drawers.size())]);
          if (kind == 1) list.set(i, broken[pick(broken.size())]);
          if (kind == 2) list.set(i, kj::heap<OwnDrawer>(5));
        }
        checks.push_back(request.send().then([kinds](auto&& results) {
          auto values = results.getValues();
          for (size_t i = 0; i < kinds.size(); i++) KJ_REQUIRE((values[i] == 0) == (kinds[i] == 1), i, kinds[i], values[i]);
        }));
        break;
      }
      case 5: {
        bool allows = pick(2), tail = pick(2);
        auto request = desk.askRequest();
        request.setCaller(kj::heap<OwnCaller>(allows, tail));
        auto drawer = request.send().getDrawer();
        checks.push_back(drawer.lookRequest().send().then([allows](auto&& results) { KJ_REQUIRE(allows && results.getValue() == 7); },
                                                          [allows](kj::Exception&& e) { KJ_REQUIRE(!allows, e); }));
        break;
      }
      case 6: {
        auto request = desk.forgetRequest();
        request.setCaller(kj::heap<OwnCaller>(true, false));
        fails(request.send(), "Desk.forget");
        break;
      }
      case 7: {
        if (drawers.empty()) break;
        checks.push_back(drawers[pick(drawers.size())].lightRequest().send().ignoreResult());
        break;
      }
      case 8: {
        if (drawers.empty()) break;
        fails(drawers[pick(drawers.size())].smashRequest().send(), "Lamp.smash");
        break;
      }
      case 9: {
        auto request = desk.echoRequest();
        size_t size = pick(8) ? pick(64) : pick(100000);
        memset(request.initBytes(size).begin(), 0x5a, size);
        checks.push_back(request.send().then([size](auto&& results) { KJ_REQUIRE(results.getBytes().size() == size); }));
        break;
      }
      case 10:
        if (pick(2) && !broken.empty()) broken.erase(broken.begin() + pick(broken.size()));
        else if (!drawers.empty()) drawers.erase(drawers.begin() + pick(drawers.size()));
        break;
    }
    if (pick(6) == 0) settle();
  }

  void settle() {
    for (auto& check : checks) check.wait(io.waitScope);
    checks.clear();
  }
};

static void call(unsigned port, uint64_t count, unsigned seed) {
  auto io = kj::setupAsyncIo();
  std::mt19937 random(seed);
  for (uint64_t i = 0; i < count; i++) {
    auto stream = io.provider->getNetwork().parseAddress("127.0.0.1", port).wait(io.waitScope)->connect().wait(io.waitScope);
    capnp::TwoPartyClient client(*stream);
    {
      Session session{io, random, client.bootstrap().castAs<Desk>()};
      for (int k = 0; k < 20; k++) session.step();
      session.settle();
      session.drawers.clear();
      session.broken.clear();
      // A last call, by whose answer all has come that was sent before.
      session.desk.echoRequest().send().wait(io.waitScope);
      session.desk.echoRequest().send().wait(io.waitScope);
    }
    KJ_REQUIRE(alive == 0, "objects of the client's are held", alive, i);
  }
  printf("%lu sessions\n", count);
}

static void serve(unsigned port, uint64_t count) {
  auto io = kj::setupAsyncIo();
  auto listener = io.provider->getNetwork().parseAddress("127.0.0.1", port).wait(io.waitScope)->listen();
  for (uint64_t i = 0; i < count; i++) {
    auto stream = listener->accept().wait(io.waitScope);
    capnp::TwoPartyVatNetwork network(*stream, capnp::rpc::twoparty::Side::SERVER);
    auto system = capnp::makeRpcServer(network, Desk::Client(kj::heap<DeskServer>()));
    network.onDisconnect().wait(io.waitScope);
  }
  printf("%lu calls, %lu that aren't allowed\n", allowed, forbidden);
  KJ_REQUIRE(forbidden == 0);
}

int main(int argc, char** argv) {
  KJ_REQUIRE(argc > 3, "the first lines of the source say how it is used");
  unsigned port = atoi(argv[2]);
  if (std::string(argv[1]) == "serve") serve(port, atol(argv[3]));
  else call(port, atol(argv[3]), argc > 4 ? atoi(argv[4]) : 1);
}
