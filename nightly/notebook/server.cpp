// A notebook by the reference library. Usage: server ADDRESS, as HOST:PORT or unix:PATH. At the end of each connection it says how many pages are open.
#include "notebook.capnp.h"
#include <capnp/rpc-twoparty.h>
#include <kj/async-io.h>
#include <kj/vector.h>
#include <stdio.h>
#include <stdlib.h>
#include <set>

class NotebookServer;

// What all clients share.
struct Shelf {
  kj::Vector<kj::String> notes;
  std::set<NotebookServer*> notebooks;
  size_t pages = 0;
};

class PageServer final : public Page::Server {
  Shelf& shelf;
  uint32_t id;

 public:
  PageServer(Shelf& shelf, uint32_t id) : shelf(shelf), id(id) { shelf.pages++; }
  ~PageServer() { shelf.pages--; }

  kj::Promise<void> read(ReadContext context) override {
    if (id < shelf.notes.size()) context.getResults().setText(shelf.notes[id]);
    return kj::READY_NOW;
  }
};

class NotebookServer final : public Notebook::Server {
  Shelf& shelf;
  kj::Vector<Watcher::Client> watchers;
  kj::Vector<kj::Own<kj::PromiseFulfiller<Page::Client>>> awaited;

  void tell(kj::StringPtr note) {
    for (auto& each : awaited) each->fulfill(kj::heap<PageServer>(shelf, shelf.notes.size() - 1));
    awaited.clear();
    for (auto& each : watchers) {
      auto request = each.addedRequest();
      request.setText(note);
      request.send().ignoreResult().detach([](kj::Exception&&) {});
    }
  }

 public:
  explicit NotebookServer(Shelf& shelf) : shelf(shelf) { shelf.notebooks.insert(this); }
  ~NotebookServer() { shelf.notebooks.erase(this); }

  kj::Promise<void> add(AddContext context) override {
    auto text = context.getParams().getText();
    context.getResults().setId(shelf.notes.size());
    shelf.notes.add(kj::str(text));
    for (auto each : shelf.notebooks) each->tell(text);
    return kj::READY_NOW;
  }

  kj::Promise<void> open(OpenContext context) override {
    context.getResults().setPage(kj::heap<PageServer>(shelf, context.getParams().getId()));
    return kj::READY_NOW;
  }

  kj::Promise<void> watch(WatchContext context) override {
    watchers.add(context.getParams().getWatcher());
    return kj::READY_NOW;
  }

  kj::Promise<void> next(NextContext context) override {
    auto page = kj::newPromiseAndFulfiller<Page::Client>();
    context.getResults().setPage(kj::mv(page.promise));
    awaited.add(kj::mv(page.fulfiller));
    return kj::READY_NOW;
  }
};

struct Connection {
  kj::Own<kj::AsyncIoStream> stream;
  capnp::TwoPartyVatNetwork network;
  capnp::RpcSystem<capnp::rpc::twoparty::VatId> rpc;

  Connection(kj::Own<kj::AsyncIoStream> from, Shelf& shelf)
      : stream(kj::mv(from)), network(*stream, capnp::rpc::twoparty::Side::SERVER),
        rpc(capnp::makeRpcServer(network, kj::heap<NotebookServer>(shelf))) {}
};

int main(int argc, char** argv) {
  if (argc != 2) return 2;
  setvbuf(stdout, nullptr, _IOLBF, 0);
  auto io = kj::setupAsyncIo();
  auto address = io.provider->getNetwork().parseAddress(argv[1]).wait(io.waitScope);
  auto listener = address->listen();
  Shelf shelf;
  kj::Vector<kj::Promise<void>> ends;
  for (int number = 1;; number++) {
    auto connection = kj::heap<Connection>(listener->accept().wait(io.waitScope), shelf);
    auto ended = connection->network.onDisconnect().attach(kj::mv(connection));
    ends.add(ended.then([number, &shelf]() { printf("%d ended; %zu pages are open\n", number, shelf.pages); }).eagerlyEvaluate(nullptr));
  }
}
