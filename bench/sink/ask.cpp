// Calls a Sink over the reference library, and prints the nanoseconds that a call took.
// Usage: ask ADDRESS MODE SIZE WINDOW CALLS    WINDOW calls under way at a time. The status is 0 if what came is right
//   put     SIZE bytes in the params
//   get     SIZE bytes in the results
//   raise   SIZE items in the params and in the results
//   pages   WINDOW pages are made, read and then dropped; each counts as one call
#include "sink.capnp.h"
#include <capnp/rpc-twoparty.h>
#include <kj/async-io.h>
#include <kj/debug.h>
#include <chrono>
#include <cstdio>
#include <cstdlib>
#include <string>
#include <vector>

using Bytes = std::vector<kj::byte>;

// Calls of a mode: each turn begins some, and waits for all of them.
struct Calls {
  Sink::Client sink;
  kj::WaitScope& wait;
  size_t size, window;
  uint64_t done = 0;

  void put() {
    Bytes bytes(size, 0x5a);
    std::vector<capnp::RemotePromise<Sink::PutResults>> under_way;
    for (size_t k = 0; k < window; k++) {
      auto request = sink.putRequest(capnp::MessageSize{size / 8 + 8, 0});
      request.setData(kj::arrayPtr(bytes.data(), size));
      under_way.push_back(request.send());
    }
    for (auto& one : under_way) {
      uint64_t sum = one.wait(wait).getSum();
      done++;
      KJ_REQUIRE(sum == (size > 0 ? 2 * 0x5a * done : 0), sum);
    }
  }

  void get() {
    std::vector<capnp::RemotePromise<Sink::GetResults>> under_way;
    for (size_t k = 0; k < window; k++) {
      auto request = sink.getRequest(capnp::MessageSize{4, 0});
      request.setSize(size);
      under_way.push_back(request.send());
    }
    for (auto& one : under_way) KJ_REQUIRE(one.wait(wait).getData().size() == size);
  }

  void raise() {
    std::vector<capnp::RemotePromise<Sink::RaiseResults>> under_way;
    for (size_t k = 0; k < window; k++) {
      auto request = sink.raiseRequest(capnp::MessageSize{size * 6 + 8, 0});
      auto items = request.initItems(size);
      for (size_t i = 0; i < size; i++) {
        items[i].setId(i);
        items[i].setPrice(2 * i);
        items[i].setName("An item of some sort");
      }
      under_way.push_back(request.send());
    }
    for (auto& one : under_way) {
      auto response = one.wait(wait);
      auto items = response.getItems();
      KJ_REQUIRE(items.size() == size && items[size - 1].getPrice() == 2 * (size - 1) + 1 && items[size - 1].getId() == size - 1);
    }
  }

  void pages() {
    std::vector<capnp::RemotePromise<Sink::OpenResults>> opened;
    for (size_t k = 0; k < window; k++) {
      auto request = sink.openRequest(capnp::MessageSize{4, 0});
      request.setNumber(k);
      opened.push_back(request.send());
    }
    std::vector<Page::Client> pages;
    for (auto& one : opened) pages.push_back(one.wait(wait).getPage());
    opened.clear();
    std::vector<capnp::RemotePromise<Page::ReadResults>> under_way;
    for (auto& page : pages) under_way.push_back(page.readRequest(capnp::MessageSize{4, 0}).send());
    for (size_t k = 0; k < window; k++) KJ_REQUIRE(under_way[k].wait(wait).getNumber() == k);
  }
};

int main(int argc, char** argv) {
  if (argc != 6) {
    fprintf(stderr, "usage: ask ADDRESS put|get|raise|pages SIZE WINDOW CALLS\n");
    return 2;
  }
  std::string mode = argv[2];
  size_t size = strtoull(argv[3], nullptr, 10), window = strtoull(argv[4], nullptr, 10), calls = strtoull(argv[5], nullptr, 10);
  auto io = kj::setupAsyncIo();
  auto stream = io.provider->getNetwork().parseAddress(argv[1]).wait(io.waitScope)->connect().wait(io.waitScope);
  capnp::TwoPartyVatNetwork network(*stream, capnp::rpc::twoparty::Side::CLIENT);
  auto system = capnp::makeRpcClient(network);
  capnp::MallocMessageBuilder message(8);
  auto id = message.initRoot<capnp::rpc::twoparty::VatId>();
  id.setSide(capnp::rpc::twoparty::Side::SERVER);

  Calls made{system.bootstrap(id).castAs<Sink>(), io.waitScope, size, window};
  auto turn = mode == "put" ? &Calls::put : mode == "get" ? &Calls::get : mode == "raise" ? &Calls::raise : &Calls::pages;
  (made.*turn)();
  uint64_t turns = (calls + window - 1) / window;
  auto start = std::chrono::steady_clock::now();
  for (uint64_t i = 0; i < turns; i++) (made.*turn)();
  std::chrono::duration<double, std::nano> took = std::chrono::steady_clock::now() - start;
  printf("%.0f\n", took.count() / (turns * window));
  return 0;
}
