// Clients by the reference library. Usage: client reckoner|directory ADDRESS (HOST:PORT). Each prints what its calls came to.
#include "calculator.capnp.h"
#include "directory.capnp.h"
#include <capnp/ez-rpc.h>
#include <kj/debug.h>
#include <kj/vector.h>
#include <stdio.h>
#include <string.h>

static void print(kj::StringPtr what, kj::StringPtr came) { printf("%s: %s\n", what.cStr(), came.cStr()); }

// What a call that should fail came to.
template <typename P>
static kj::String failure(P&& promise, kj::WaitScope& scope) {
  kj::String said = kj::str("nothing");
  KJ_IF_MAYBE(fault, kj::runCatchingExceptions([&]() { promise.wait(scope); })) {
    said = kj::str(fault->getType(), ": ", fault->getDescription());
  }
  return said;
}

class PowerServer final : public Function::Server {
  kj::Promise<void> call(CallContext context) override {
    auto params = context.getParams().getParams();
    double power = 1;
    for (int at = 0; at < params[1]; at++) power *= params[0];
    context.getResults().setNumber(power);
    return kj::READY_NOW;
  }
};

class FriendServer final : public Friend::Server {
  kj::Promise<void> greet(GreetContext context) override {
    context.getResults().setAnswer(kj::str(context.getParams().getGreeting(), ", from Ada's friend"));
    return kj::READY_NOW;
  }
};

class WatcherServer final : public Watcher::Server {
  kj::Vector<kj::String>& names;

 public:
  explicit WatcherServer(kj::Vector<kj::String>& names) : names(names) {}

  kj::Promise<void> added(AddedContext context) override {
    names.add(kj::str(context.getParams().getPerson().getName()));
    return kj::READY_NOW;
  }
};

static void reckons(capnp::EzRpcClient& client) {
  auto& scope = client.getWaitScope();
  auto reckoner = client.getMain<Reckoner>();
  auto operatorOf = [&](Operator operation) {
    auto request = reckoner.operatorRequest();
    request.setOperator(operation);
    return request.send().getFunction();
  };
  auto multiply = operatorOf(Operator::MULTIPLY), subtract = operatorOf(Operator::SUBTRACT);

  auto direct = multiply.callRequest();
  direct.setParams({6, 7});
  auto product = direct.send();

  // (2 ^ 10) * 3 - 7, where the power is a function of this end.
  auto request = reckoner.reckonRequest();
  auto difference = request.initExpression().initCall();
  difference.setFunction(subtract);
  auto parts = difference.initParams(2);
  parts[1].setNumber(7);
  auto times = parts[0].initCall();
  times.setFunction(multiply);
  auto factors = times.initParams(2);
  factors[1].setNumber(3);
  auto power = factors[0].initCall();
  power.setFunction(kj::heap<PowerServer>());
  auto of = power.initParams(2);
  of[0].setNumber(2);
  of[1].setNumber(10);
  auto reckoned = request.send();

  print("6 * 7", kj::str(product.wait(scope).getNumber()));
  print("2 ^ 10 * 3 - 7", kj::str(reckoned.wait(scope).getNumber()));
  auto lacks = reckoner.reckonRequest();
  lacks.initExpression().setParam(0);
  print("a param of no function", failure(lacks.send(), scope));
  auto null = reckoner.reckonRequest();
  null.initExpression().initCall().initParams(2);
  print("a null function", failure(null.send(), scope));
  print("another interface", failure(reckoner.castAs<Calculator>().evaluateRequest().send(), scope));
}

// A person for whom nobody speaks, and a watcher that is none.
static void adds_alone(Directory::Client directory, kj::WaitScope& scope) {
  auto watch = directory.watchRequest();
  watch.setWatcher(nullptr);
  watch.send().wait(scope);
  auto add = directory.addRequest();
  add.initPerson().setName("Bob");
  add.getPerson().setFriend(nullptr);
  auto find = directory.findRequest();
  find.setName("Bob");
  auto added = add.send();
  auto found = find.send();
  auto promised = found.getPerson().getFriend().greetRequest().send();

  print("alone", kj::str(added.wait(scope).getCount()));
  auto came = found.wait(scope);
  print("found alone", kj::str(came.getPerson().getName(), came.getPerson().hasFriend() ? ", somebody" : ", nobody"));
  print("nobody, promised", failure(kj::mv(promised), scope));
  print("nobody, found", failure(came.getPerson().getFriend().greetRequest().send(), scope));
  print("name again", directory.nameRequest().send().wait(scope).getName());
}

static void directs(capnp::EzRpcClient& client) {
  auto& scope = client.getWaitScope();
  auto directory = client.getMain<Directory>();
  kj::Vector<kj::String> names;
  auto watch = directory.watchRequest();
  watch.setWatcher(kj::heap<WatcherServer>(names));
  auto watched = watch.send();
  auto add = [&](kj::StringPtr name, uint8_t age) {
    auto request = directory.addRequest();
    auto person = request.initPerson();
    person.setName(name);
    person.setAge(age);
    person.setFriend(kj::heap<FriendServer>());
    return request.send();
  };
  auto first = add("Ada", 36), second = add("Alan", 41);
  auto find = directory.findRequest();
  find.setName("Ada");
  auto found = find.send();
  auto greet = found.getPerson().getFriend().greetRequest();
  greet.setGreeting("good day");
  auto greeted = greet.send();

  print("name", directory.nameRequest().send().wait(scope).getName());
  watched.wait(scope);
  print("added", kj::str(first.wait(scope).getCount(), " and ", second.wait(scope).getCount()));
  auto came = found.wait(scope);
  print("found", kj::str(came.getPerson().getName(), ", ", came.getPerson().getAge()));
  print("greeted", greeted.wait(scope).getAnswer());
  auto nobody = directory.findRequest();
  nobody.setName("Nobody");
  print("nobody", kj::str("\"", nobody.send().wait(scope).getPerson().getName(), "\""));
  print("watched", kj::strArray(names, ", "));
  adds_alone(directory, scope);
  print("another interface", failure(directory.castAs<Calculator>().evaluateRequest().send(), scope));
}

int main(int argc, char** argv) {
  if (argc != 3) return 2;
  capnp::EzRpcClient client(argv[2]);
  if (strcmp(argv[1], "reckoner") == 0) reckons(client);
  else directs(client);
}
