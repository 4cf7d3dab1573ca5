// Whole sessions with `capnp_cli serve`, by the reference library's client.
// Usage: client PORT first|second|abort|reset|many COUNT    COUNT sessions of this kind, one after another
//        client HOST:PORT first|second|trial COUNT          the same elsewhere
//        client PORT trial 1                                with a server of trial.capnp
//        client PORT drop|exit 1                            with either: calls are open as this gives them up and disconnects, or as
//                                                           its process ends
//        client PORT left 1                                 with either: prints `open` once calls are open, and sees them fail as the
//                                                           server goes
//        client PORT late 1                                 with either: calls again after 4 seconds, when the server has closed
// The status is 0 if each went as it should; else an exception says what didn't.
#include "trial.capnp.h"
#include "cell.hpp"
#include <capnp/rpc-twoparty.h>
#include <capnp/rpc.capnp.h>
#include <capnp/serialize.h>
#include <kj/async-io.h>
#include <kj/debug.h>
#include <arpa/inet.h>
#include <netinet/in.h>
#include <netinet/tcp.h>
#include <sys/socket.h>
#include <unistd.h>
#include <cstdio>
#include <cstdlib>
#include <string>
#include <vector>

namespace rpc = capnp::rpc;

// An object of the client's, which it gives away. It notes when the server releases it.
class Gift final : public Cell::Server {
 public:
  explicit Gift(bool& is_gone) : is_gone(is_gone) {}
  ~Gift() noexcept(false) { is_gone = true; }

 private:
  bool& is_gone;
};

// An object of the client's that only fails.
class Refuser final : public Cell::Server {
  kj::Promise<void> get(GetContext context) override { return KJ_EXCEPTION(OVERLOADED, "not today"); }
};

// A Cell of the client's. It notes when the server released it.
class OwnCell final : public CellServer {
 public:
  OwnCell(uint64_t held, bool& is_gone) : CellServer(held), is_gone(is_gone) {}
  ~OwnCell() noexcept(false) { is_gone = true; }

 private:
  bool& is_gone;
};

// One connection, and the Desk at its other end.
struct Session {
  kj::AsyncIoContext& io;
  kj::Own<kj::AsyncIoStream> stream;
  capnp::TwoPartyVatNetwork network;
  capnp::RpcSystem<rpc::twoparty::VatId> system;
  Desk::Client desk;

  Session(kj::AsyncIoContext& io, kj::StringPtr address)
      : io(io),
        stream(io.provider->getNetwork().parseAddress(address).wait(io.waitScope)->connect().wait(io.waitScope)),
        network(*stream, rpc::twoparty::Side::CLIENT),
        system(capnp::makeRpcClient(network)),
        desk(bootstrap()) {}

  Desk::Client bootstrap() {
    capnp::MallocMessageBuilder message(8);
    auto id = message.initRoot<rpc::twoparty::VatId>();
    id.setSide(rpc::twoparty::Side::SERVER);
    return system.bootstrap(id).castAs<Desk>();
  }

  // The number that a Cell holds once so much was added.
  kj::Promise<uint64_t> add(Cell::Client cell, uint64_t amount) {
    auto request = cell.addRequest();
    request.setAmount(amount);
    return request.send().then([](capnp::Response<Cell::AddResults> response) { return response.getValue(); });
  }

  uint64_t get(Cell::Client cell) { return cell.getRequest().send().wait(io.waitScope).getValue(); }

  void pause(unsigned milliseconds) { io.provider->getTimer().afterDelay(milliseconds * kj::MILLISECONDS).wait(io.waitScope); }
};

// The call fails so, with this text at the end of its own.
template <class Call>
static void refused(kj::Exception::Type type, kj::StringPtr text, Call call) {
  KJ_IF_MAYBE(exception, kj::runCatchingExceptions(call)) {
    KJ_REQUIRE(exception->getType() == type && exception->getDescription().endsWith(text), *exception);
  } else {
    KJ_FAIL_REQUIRE("no exception", text);
  }
}

// Calls that are answered at once and later, and calls on what they will give.
static void first(kj::AsyncIoContext& io, kj::StringPtr address) {
  Session session(io, address);
  auto& wait = io.waitScope;
  // Nothing was answered yet: each call goes to what an open question will give.
  auto later = session.desk.laterRequest().send();
  auto five = session.add(later.getCell(), 5);
  auto twelve = session.add(later.getCell(), 7);
  auto now = session.desk.nowRequest().send();
  auto more = session.add(now.getCell(), 1);
  KJ_REQUIRE(five.wait(wait) == 5);
  KJ_REQUIRE(twelve.wait(wait) == 12);
  KJ_REQUIRE(more.wait(wait) == 13);
  // What was given is called by its own number.
  auto cell = later.wait(wait).getCell();
  KJ_REQUIRE(session.add(cell, 7).wait(wait) == 20);
  KJ_REQUIRE(session.get(now.wait(wait).getCell()) == 20);
  KJ_REQUIRE(session.add(cell, UINT64_MAX).wait(wait) == 19);
}

// Calls of unknown methods, objects that are given away, many calls at a time, and one that is given up.
static void second(kj::AsyncIoContext& io, kj::StringPtr address) {
  Session session(io, address);
  auto& wait = io.waitScope;
  refused(kj::Exception::Type::UNIMPLEMENTED, "no such method", [&] { session.desk.neverRequest().send().wait(wait); });
  refused(kj::Exception::Type::UNIMPLEMENTED, "no such method", [&] { session.get(session.desk.castAs<Cell>()); });

  bool first_gone = false, second_gone = false;
  auto request = session.desk.laterRequest();
  request.setGift(kj::heap<Gift>(first_gone));
  auto given = request.send();
  // The Desk answers with the second poll, and each message brings one.
  session.desk.nowRequest().send().wait(wait);
  auto cell = given.wait(wait).getCell();
  auto add = cell.addRequest();
  add.setAmount(3);
  add.setGift(kj::heap<Gift>(second_gone));
  KJ_REQUIRE(add.send().wait(wait).getValue() == 3);
  // The releases are sent before the answers of later calls.
  KJ_REQUIRE(session.get(cell) == 3);
  KJ_REQUIRE(session.get(cell) == 3);
  KJ_REQUIRE(first_gone && second_gone);

  std::vector<kj::Promise<uint64_t>> sums;
  for (uint64_t i = 1; i <= 1000; i++) sums.push_back(session.add(i % 3 ? cell : session.desk.laterRequest().send().getCell(), 1));
  uint64_t most = 0;
  for (auto& sum : sums) most = kj::max(most, sum.wait(wait));
  KJ_REQUIRE(most == 1003, most);
  // It is given up before its answer.
  { auto dropped = session.desk.laterRequest().send(); }
  for (int i = 0; i < 5; i++) KJ_REQUIRE(session.get(cell) == 1003);
}

// A server that calls what it is given, gives it back, and answers in another order than it was asked in.
static void trial(kj::AsyncIoContext& io, kj::StringPtr address) {
  Session session(io, address);
  auto& wait = io.waitScope;
  auto trial = session.desk.castAs<Trial>();
  auto later = trial.laterRequest().send();
  auto waits = session.add(later.getCell(), 1);
  auto now = trial.nowRequest().send();
  KJ_REQUIRE(session.add(now.getCell(), 41).wait(wait) == 41);
  KJ_REQUIRE(waits.wait(wait) == 101);
  KJ_REQUIRE(session.get(now.wait(wait).getCell()) == 41);
  KJ_REQUIRE(session.get(later.wait(wait).getCell()) == 101);

  bool is_gone = false;
  {
    Cell::Client given = kj::heap<OwnCell>(1000, is_gone);
    auto called = trial.nowRequest();
    called.setGift(given);
    KJ_REQUIRE(session.get(called.send().getCell()) == 1005);
    auto told = trial.tellRequest();
    told.setCell(given);
    KJ_REQUIRE(told.send().wait(wait).getValue() == 1005);
    refused(kj::Exception::Type::OVERLOADED, "remote exception: remote exception: not today", [&] {
      auto failing = trial.tellRequest();
      failing.setCell(kj::heap<Refuser>());
      failing.send().wait(wait);
    });
    refused(kj::Exception::Type::FAILED, "remote exception: no", [&] { trial.neverRequest().send().wait(wait); });
    // It gives it back: calls on the promise, before it came to that and after, stay in order.
    auto become = trial.becomeRequest();
    become.setMilliseconds(100);
    become.setCell(given);
    auto back = become.send().wait(wait).getCell();
    auto one = session.add(back, 1), three = session.add(back, 2);
    session.pause(150);
    KJ_REQUIRE(session.add(back, 3).wait(wait) == 1011);
    KJ_REQUIRE(one.wait(wait) == 1006);
    KJ_REQUIRE(three.wait(wait) == 1008);
    refused(kj::Exception::Type::FAILED, "remote exception: it came to nothing", [&] {
      auto broken = trial.becomeRequest();
      broken.setMilliseconds(20);
      session.get(broken.send().getCell());
    });
  }
  std::vector<kj::Promise<uint64_t>> numbers;
  for (uint64_t turn = 0; turn < 1000; turn++) {
    auto after = trial.afterRequest();
    after.setMilliseconds(turn * 7 % 100);
    after.setNumber(turn);
    numbers.push_back(after.send().then([](capnp::Response<Trial::AfterResults> response) { return response.getNumber(); }));
  }
  for (uint64_t turn = 0; turn < 1000; turn++) KJ_REQUIRE(numbers[turn].wait(wait) == turn);
  for (int turn = 0; turn < 100 && !is_gone; turn++) session.pause(20);
  KJ_REQUIRE(is_gone, "what was given wasn't released");
}

// Calls that stay open: of a Trial many, of `capnp_cli serve` one, which must be the last that is sent.
static std::vector<kj::Promise<void>> open(Session& session) {
  auto trial = session.desk.castAs<Trial>();
  bool is_trial = true;
  KJ_IF_MAYBE(exception, kj::runCatchingExceptions([&] { trial.afterRequest().send().wait(session.io.waitScope); })) { is_trial = false; }
  session.pause(100);
  std::vector<kj::Promise<void>> calls;
  for (uint64_t turn = 0; is_trial && turn < 100; turn++) {
    auto after = trial.afterRequest();
    after.setMilliseconds(10000);
    calls.push_back(after.send().ignoreResult());
  }
  if (!is_trial) calls.push_back(session.desk.laterRequest().send().ignoreResult());
  session.pause(100);
  return calls;
}

static void drop(kj::AsyncIoContext& io, kj::StringPtr address) {
  Session session(io, address);
  open(session);
  session.pause(100);
}

static void exit_with_open(kj::AsyncIoContext& io, kj::StringPtr address) {
  Session session(io, address);
  auto calls = open(session);
  _exit(0);
}

static void left(kj::AsyncIoContext& io, kj::StringPtr address) {
  Session session(io, address);
  // (A host answers its one call, and is asked again.)
  for (bool is_gone = false; !is_gone;) {
    auto calls = open(session);
    printf("open\n");
    fflush(stdout);
    for (auto& call : calls) {
      KJ_IF_MAYBE(exception, kj::runCatchingExceptions([&] { call.wait(io.waitScope); })) {
        KJ_REQUIRE(exception->getType() == kj::Exception::Type::DISCONNECTED, *exception);
        is_gone = true;
      }
    }
  }
}

static void late(kj::AsyncIoContext& io, kj::StringPtr address) {
  Session session(io, address);
  session.desk.nowRequest().send().wait(io.waitScope);
  session.pause(4000);
  refused(kj::Exception::Type::DISCONNECTED, "", [&] { session.desk.nowRequest().send().wait(io.waitScope); });
}

static int connected(unsigned port) {
  int fd = socket(AF_INET, SOCK_STREAM, 0);
  sockaddr_in address{};
  address.sin_family = AF_INET;
  address.sin_port = htons(port);
  address.sin_addr.s_addr = htonl(INADDR_LOOPBACK);
  KJ_SYSCALL(connect(fd, (sockaddr*)&address, sizeof address));
  return fd;
}

static void write_bootstrap(int fd) {
  capnp::MallocMessageBuilder message;
  message.initRoot<rpc::Message>().initBootstrap().setQuestionId(0);
  capnp::writeMessageToFd(fd, message);
}

static void read_return(kj::BufferedInputStream& stream) {
  capnp::InputStreamMessageReader message(stream);
  KJ_REQUIRE(message.getRoot<rpc::Message>().isReturn());
}

// A fault of this end: it finishes a question that it never asked. The server answers with an Abort, and closes.
static void abort_session(unsigned port) {
  kj::AutoCloseFd fd(connected(port));
  write_bootstrap(fd);
  {
    capnp::MallocMessageBuilder message;
    message.initRoot<rpc::Message>().initFinish().setQuestionId(9);
    capnp::writeMessageToFd(fd, message);
  }
  kj::FdInputStream input(fd.get());
  kj::BufferedInputStreamWrapper stream(input);
  read_return(stream);
  {
    capnp::InputStreamMessageReader message(stream);
    auto root = message.getRoot<rpc::Message>();
    KJ_REQUIRE(root.isAbort());
    KJ_REQUIRE(root.getAbort().getReason() == "P3 unknown answer", root.getAbort().getReason());
  }
  KJ_REQUIRE(stream.tryGetReadBuffer().size() == 0);
}

// The connection breaks: this end resets it once it has an answer.
static void reset(unsigned port) {
  kj::AutoCloseFd fd(connected(port));
  write_bootstrap(fd);
  kj::FdInputStream input(fd.get());
  kj::BufferedInputStreamWrapper stream(input);
  read_return(stream);
  linger at_once{1, 0};
  KJ_SYSCALL(setsockopt(fd, SOL_SOCKET, SO_LINGER, &at_once, sizeof at_once));
}

// One session of a kind. Of `many`, each hundredth has many calls, and of the others each third ends in an Abort.
static bool session(kj::AsyncIoContext& io, const std::string& where, const std::string& kind, long number) {
  bool is_port = where.find(':') == std::string::npos;
  auto address = kj::str(is_port ? "127.0.0.1:" : "", where.c_str());
  unsigned port = is_port ? atoi(where.c_str()) : 0;
  if (kind == "many") return session(io, where, number % 100 == 0 ? "second" : number % 3 == 0 ? "abort" : "first", number);
  if (kind == "first") first(io, address);
  else if (kind == "second") second(io, address);
  else if (kind == "abort") abort_session(port);
  else if (kind == "reset") reset(port);
  else if (kind == "trial") trial(io, address);
  else if (kind == "drop") drop(io, address);
  else if (kind == "exit") exit_with_open(io, address);
  else if (kind == "left") left(io, address);
  else if (kind == "late") late(io, address);
  else return false;
  return true;
}

int main(int argc, char** argv) {
  if (argc != 4) {
    fprintf(stderr, "usage: client PORT first|second|abort|reset|many|trial|drop|exit|left|late COUNT\n");
    return 2;
  }
  auto io = kj::setupAsyncIo();
  for (long number = 1; number <= atol(argv[3]); number++)
    if (!session(io, argv[1], argv[2], number)) return 2;
  return 0;
}
