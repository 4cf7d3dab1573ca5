// ezstore serve PORT | ezstore call PORT    as store.cpp, but by the reference library alone
#include "store.capnp.h"
#include <capnp/ez-rpc.h>
#include <cstdio>
#include <cstdlib>
#include <cstring>
#include <map>
#include <string>

class Texts final : public Store::Server {
  std::map<std::string, std::string> texts;

  kj::Promise<void> put(PutContext context) override {
    texts[context.getParams().getKey().cStr()] = context.getParams().getValue().cStr();
    return kj::READY_NOW;
  }
  kj::Promise<void> get(GetContext context) override {
    auto found = texts.find(context.getParams().getKey().cStr());
    if (found != texts.end()) context.getResults().setValue(found->second.c_str());
    return kj::READY_NOW;
  }
};

int main(int count, char** words) {
  if (count != 3) return 2;
  auto port = static_cast<unsigned>(atoi(words[2]));
  if (!strcmp(words[1], "serve")) {
    capnp::EzRpcServer server(kj::heap<Texts>(), "127.0.0.1", port);
    kj::NEVER_DONE.wait(server.getWaitScope());
  }
  capnp::EzRpcClient client("127.0.0.1", port);
  auto store = client.getMain<Store>();
  auto put = store.putRequest();
  put.setKey("colour"), put.setValue("blue");
  auto kept = put.send();
  auto get = store.getRequest();
  get.setKey("colour");
  auto got = get.send();
  kept.wait(client.getWaitScope());
  printf("%s\n", got.wait(client.getWaitScope()).getValue().cStr());
}
