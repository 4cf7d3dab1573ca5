// Peers at fault, and messages at the edge of a limit, with `capnp_cli serve`. Usage: hostile PORT [few]
// With `few`, without the two sessions that open a whole table of answers: a host closes such a peer before.
// Each session sends its messages, and reads all that comes back: at a fault one Abort with its text, and nothing after it; at
// an edge no Abort. The status is 0 if each went so. It prints the milliseconds of those that take long.
#include "../connect.hpp"
#include <capnp/message.h>
#include <capnp/rpc.capnp.h>
#include <capnp/serialize.h>
#include <kj/debug.h>
#include <kj/io.h>
#include <sys/socket.h>
#include <unistd.h>
#include <chrono>
#include <cstdio>
#include <cstdlib>
#include <functional>
#include <string>
#include <thread>
#include <vector>

namespace rpc = capnp::rpc;
using Bytes = std::vector<kj::byte>;

constexpr uint64_t DESK = 0xe5a1000000000001;

// The messages of a session.
struct Script {
  Bytes bytes;

  template <class F>
  Script& with(F make) {
    capnp::MallocMessageBuilder message;
    make(message.initRoot<rpc::Message>());
    kj::VectorOutputStream output;
    capnp::writeMessage(output, message);
    auto written = output.getArray();
    bytes.insert(bytes.end(), written.begin(), written.end());
    return *this;
  }

  Script& bootstrap(uint32_t question) {
    return with([&](rpc::Message::Builder message) { message.initBootstrap().setQuestionId(question); });
  }

  // A call of the Desk that it answers later, and what else the call has.
  template <class F>
  Script& call(uint32_t question, F more) {
    return with([&](rpc::Message::Builder message) {
      auto call = message.initCall();
      call.setQuestionId(question);
      call.setInterfaceId(DESK);
      call.setMethodId(1);
      call.initTarget().setImportedCap(0);
      call.initParams();
      more(call);
    });
  }

  Script& call(uint32_t question) {
    return call(question, [](rpc::Call::Builder) {});
  }

  Script& finish(uint32_t question) {
    return with([&](rpc::Message::Builder message) { message.initFinish().setQuestionId(question); });
  }
};

// A chain of structs of this depth.
void nest(capnp::AnyPointer::Builder place, int levels) {
  for (; levels > 0; levels--) place = place.initAsAnyStruct(0, 1).getPointerSection()[0];
}

// All that comes back for these bytes.
Bytes play(unsigned port, const Bytes& bytes) {
  kj::AutoCloseFd closes(connected(port));
  int fd = closes;
  std::thread writes([&] {
    for (size_t sent = 0; sent < bytes.size();) {
      ssize_t n = send(fd, bytes.data() + sent, bytes.size() - sent, MSG_NOSIGNAL);
      if (n <= 0) return;
      sent += n;
    }
    shutdown(fd, SHUT_WR);
  });
  Bytes back;
  kj::byte piece[65536];
  ssize_t n;
  while ((n = read(fd, piece, sizeof piece)) > 0) back.insert(back.end(), piece, piece + n);
  writes.join();
  return back;
}

// The reason of the last message, if it is an Abort. There is none before it.
std::string abort_of(const Bytes& back) {
  kj::ArrayInputStream input(kj::arrayPtr(back.data(), back.size()));
  std::string reason;
  while (input.tryGetReadBuffer().size()) {
    KJ_REQUIRE(reason.empty(), "a message behind an Abort", reason);
    capnp::InputStreamMessageReader reader(input);
    auto message = reader.getRoot<rpc::Message>();
    if (message.isAbort()) reason = message.getAbort().getReason().cStr();
  }
  return reason;
}

unsigned port;
int wrong = 0;

void expect(const char* what, const std::string& reason, const Script& script) {
  auto start = std::chrono::steady_clock::now();
  auto got = abort_of(play(port, script.bytes));
  std::chrono::duration<double, std::milli> took = std::chrono::steady_clock::now() - start;
  if (took.count() > 100) printf("%s: %.0f ms\n", what, took.count());
  if (got == reason) return;
  fprintf(stderr, "%s: '%s' in place of '%s'\n", what, got.c_str(), reason.c_str());
  wrong++;
}

void faults() {
  auto begun = [] { return Script().bootstrap(0); };
  expect("bootstrap twice", "P1 question in use", begun().bootstrap(0));
  expect("call under a number in use", "P1 question in use", begun().call(1).call(1));
  expect("Return of no question", "P2 unknown question", begun().with([](auto message) { message.initReturn().setAnswerId(7); }));
  expect("Finish of no answer", "P3 unknown answer", begun().finish(9));
  expect("Finish twice", "P3 unknown answer", begun().finish(0).finish(0));
  expect("call on no answer", "P3 unknown answer", begun().call(1, [](auto call) { call.initTarget().initPromisedAnswer().setQuestionId(9); }));
  expect("no answer in a table", "P3 unknown answer",
         begun().call(1, [](auto call) { call.getParams().initCapTable(1)[0].initReceiverAnswer().setQuestionId(9); }));
  expect("call on no export", "P4 unknown export", begun().call(1, [](auto call) { call.initTarget().setImportedCap(9); }));
  expect("no export in a table", "P4 unknown export", begun().call(1, [](auto call) { call.getParams().initCapTable(1)[0].setReceiverHosted(9); }));
  auto release = [](uint32_t id, uint32_t count) {
    return [=](rpc::Message::Builder message) {
      auto release = message.initRelease();
      release.setId(id);
      release.setReferenceCount(count);
    };
  };
  expect("Release of no export", "P4 unknown export", begun().with(release(9, 1)));
  expect("Release past the count", "P5 release too large", begun().with(release(0, 2)));
  expect("Disembargo of an own object", "P7 disembargo target", begun().with([](auto message) {
    auto disembargo = message.initDisembargo();
    disembargo.initTarget().setImportedCap(0);
    disembargo.getContext().setSenderLoopback(1);
  }));
  expect("echo of no embargo", "P8 unknown embargo", begun().with([](auto message) {
    auto disembargo = message.initDisembargo();
    disembargo.initTarget().setImportedCap(0);
    disembargo.getContext().setReceiverLoopback(3);
  }));
  expect("a call isn't implemented", "P12 peer lacks level 1",
         begun().with([](auto message) { message.initUnimplemented().initCall().setQuestionId(0); }));
}

void limits() {
  auto with_table = [](uint32_t size) {
    return Script().bootstrap(0).call(1, [=](rpc::Call::Builder call) {
      auto table = call.getParams().initCapTable(size);
      for (uint32_t i = 0; i < size; i++) table[i].setSenderHosted(i);
    });
  };
  expect("1,024 descriptors", "", with_table(1024));
  expect("1,025 descriptors", "P9 payload too large", with_table(1025));
  auto with_transform = [](uint32_t size) {
    return Script().bootstrap(0).call(1, [=](rpc::Call::Builder call) {
      auto answer = call.initTarget().initPromisedAnswer();
      answer.setQuestionId(0);
      for (auto op : answer.initTransform(size)) op.setNoop();
    });
  };
  expect("16 operations", "", with_transform(16));
  expect("17 operations", "P9 payload too large", with_transform(17));
  auto with_content = [](int levels) {
    return Script().bootstrap(0).call(1, [=](rpc::Call::Builder call) { nest(call.getParams().getContent(), levels); });
  };
  expect("content 60 deep", "", with_content(60));
  expect("content 61 deep", "P9 payload too large", with_content(61));
  auto with_reason = [](size_t size) {
    return Script().bootstrap(0).with([=](rpc::Message::Builder message) {
      auto resolve = message.initResolve();
      resolve.setPromiseId(1);
      resolve.initException().setReason(std::string(size, 'x').c_str());
    });
  };
  expect("a reason of 65,536 bytes", "", with_reason(65536));
  expect("a reason of 65,537 bytes", "P9 payload too large", with_reason(65537));
  auto unsupported = [](int levels) {
    return Script().bootstrap(0).with([=](rpc::Message::Builder message) { nest(message.initObsoleteSave(), levels); });
  };
  expect("a body that can be sent back", "", unsupported(62));
  expect("a body a level too deep", "P11 echo too large", unsupported(63));
  // A Call whose results are for a third party, which isn't supported. In it is a list of structs of size zero, which
  // takes two words whatever its length.
  auto hollow = [](uint32_t count, bool is_table) {
    return Script().bootstrap(0).call(1, [=](rpc::Call::Builder call) {
      call.getSendResultsTo().initThirdParty();
      auto list = is_table ? capnp::toAny(call.getParams()).getPointerSection()[1]
                           : capnp::toAny(call.initTarget().initPromisedAnswer()).getPointerSection()[0];
      list.initAsListOfAnyStruct(0, 0, count);
    });
  };
  for (bool is_table : {true, false}) {
    expect("a list that can be sent back", "", hollow(1000, is_table));
    expect("a list of 8,000,000 that can't", "P11 echo too large", hollow(8000000, is_table));
  }
}

void full_tables() {
  auto bootstraps = [](uint32_t count) {
    Script script;
    for (uint32_t question = 0; question < count; question++) script.bootstrap(question);
    return script;
  };
  expect("65,536 bootstraps", "", bootstraps(65536));
  expect("65,537 bootstraps", "P10 table full", bootstraps(65537));
}

int main(int argc, char** argv) {
  bool few = argc == 3 && argv[2] == std::string("few");
  if (argc != 2 && !few) {
    fprintf(stderr, "usage: hostile PORT [few]\n");
    return 2;
  }
  port = atoi(argv[1]);
  faults();
  limits();
  if (!few) full_tables();
  return wrong ? 1 : 0;
}
