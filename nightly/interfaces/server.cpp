// Servers by the reference library. Usage: server calculator|directory ADDRESS (HOST:PORT)
//   calculator: as calculator.capnp says
//   directory: as directory.capnp says; it knows Grace, 85, from the beginning, who answers each greeting herself
// Both take null capabilities: a value that is none is 0, and nobody may speak for a person.
#include "calculator.capnp.h"
#include "directory.capnp.h"
#include <capnp/ez-rpc.h>
#include <capnp/message.h>
#include <kj/async.h>
#include <kj/vector.h>
#include <string.h>

typedef kj::ArrayPtr<const double> Numbers;

// What an expression comes to, in the body of a function with these params. All must live until then.
static kj::Promise<double> numberOf(Expression::Reader expression, Numbers params) {
  switch (expression.which()) {
    case Expression::NUMBER:
      return expression.getNumber();
    case Expression::VALUE:
      if (!expression.hasValue()) return 0.0;
      return expression.getValue().readRequest().send().then([](auto&& said) { return said.getNumber(); });
    case Expression::PARAM:
      KJ_REQUIRE(expression.getParam() < params.size(), "no such param");
      return params[expression.getParam()];
    case Expression::CALL: {
      auto call = expression.getCall();
      kj::Vector<kj::Promise<double>> numbers;
      for (auto each : call.getParams()) numbers.add(numberOf(each, params));
      return kj::joinPromises(numbers.releaseAsArray()).then([function = call.getFunction()](kj::Array<double> numbers) mutable {
        auto request = function.callRequest();
        auto list = request.initParams(numbers.size());
        for (size_t at = 0; at < numbers.size(); at++) list.set(at, numbers[at]);
        return request.send().then([](auto&& said) { return said.getNumber(); });
      });
    }
  }
  KJ_FAIL_REQUIRE("an expression of a newer schema");
}

static kj::Array<double> numbersOf(capnp::List<double>::Reader list) { return KJ_MAP(each, list) { return each; }; }

class ValueServer final : public Value::Server {
  double number;

 public:
  explicit ValueServer(double number) : number(number) {}

  kj::Promise<void> read(ReadContext context) override {
    context.getResults().setNumber(number);
    return kj::READY_NOW;
  }
};

class OperatorServer final : public Function::Server {
  Operator operation;

  double of(double a, double b) {
    switch (operation) {
      case Operator::ADD: return a + b;
      case Operator::SUBTRACT: return a - b;
      case Operator::MULTIPLY: return a * b;
      case Operator::DIVIDE: return a / b;
    }
    KJ_FAIL_REQUIRE("an operator of a newer schema");
  }

 public:
  explicit OperatorServer(Operator operation) : operation(operation) {}

  kj::Promise<void> call(CallContext context) override {
    auto params = context.getParams().getParams();
    KJ_REQUIRE(params.size() == 2, "an operator takes two numbers");
    context.getResults().setNumber(of(params[0], params[1]));
    return kj::READY_NOW;
  }
};

class DefinedServer final : public Function::Server {
  capnp::MallocMessageBuilder kept;

 public:
  explicit DefinedServer(Expression::Reader body) { kept.setRoot(body); }

  kj::Promise<void> call(CallContext context) override {
    auto params = numbersOf(context.getParams().getParams());
    auto number = numberOf(kept.getRoot<Expression>().asReader(), params);
    return number.then([context](double number) mutable { context.getResults().setNumber(number); }).attach(kj::mv(params));
  }
};

class CalculatorServer final : public Calculator::Server {
 public:
  kj::Promise<void> reckon(ReckonContext context) override {
    return numberOf(context.getParams().getExpression(), nullptr).then([context](double number) mutable {
      context.getResults().setNumber(number);
    });
  }

  kj::Promise<void> operator_(OperatorContext context) override {
    context.getResults().setFunction(kj::heap<OperatorServer>(context.getParams().getOperator()));
    return kj::READY_NOW;
  }

  kj::Promise<void> evaluate(EvaluateContext context) override {
    return numberOf(context.getParams().getExpression(), nullptr).then([context](double number) mutable {
      context.getResults().setValue(kj::heap<ValueServer>(number));
    });
  }

  kj::Promise<void> define(DefineContext context) override {
    context.getResults().setFunction(kj::heap<DefinedServer>(context.getParams().getBody()));
    return kj::READY_NOW;
  }
};

class GraceServer final : public Friend::Server {
  kj::Promise<void> greet(GreetContext context) override {
    context.getResults().setAnswer(kj::str(context.getParams().getGreeting(), " yourself"));
    return kj::READY_NOW;
  }
};

class DirectoryServer final : public Directory::Server {
  struct Kept {
    kj::String name;
    uint8_t age;
    Friend::Client speaker;
  };
  kj::Vector<Kept> people;
  kj::Vector<Watcher::Client> watchers;

 public:
  DirectoryServer() { people.add(Kept{kj::str("Grace"), 85, kj::heap<GraceServer>()}); }

  kj::Promise<void> name(NameContext context) override {
    context.getResults().setName("a directory in C++");
    return kj::READY_NOW;
  }

  kj::Promise<void> find(FindContext context) override {
    for (auto& each : people) {
      if (each.name == context.getParams().getName()) {
        auto person = context.getResults().initPerson();
        person.setName(each.name);
        person.setAge(each.age);
        person.setFriend(each.speaker);
      }
    }
    return kj::READY_NOW;
  }

  kj::Promise<void> add(AddContext context) override {
    auto person = context.getParams().getPerson();
    people.add(Kept{kj::str(person.getName()), person.getAge(), person.getFriend()});
    context.getResults().setCount(people.size());
    kj::Vector<kj::Promise<void>> told;
    for (auto& each : watchers) {
      auto request = each.addedRequest();
      request.setPerson(person);
      told.add(request.send());
    }
    return kj::joinPromises(told.releaseAsArray());
  }

  kj::Promise<void> watch(WatchContext context) override {
    if (context.getParams().hasWatcher()) watchers.add(context.getParams().getWatcher());
    return kj::READY_NOW;
  }
};

int main(int argc, char** argv) {
  if (argc != 3) return 2;
  bool calculates = strcmp(argv[1], "calculator") == 0;
  capnp::Capability::Client object = nullptr;
  if (calculates) {
    object = kj::heap<CalculatorServer>();
  } else {
    object = kj::heap<DirectoryServer>();
  }
  capnp::EzRpcServer server(kj::mv(object), argv[2]);
  server.getPort().wait(server.getWaitScope());
  kj::NEVER_DONE.wait(server.getWaitScope());
}
