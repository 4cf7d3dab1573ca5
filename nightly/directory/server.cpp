// The directory by the reference library. Usage: server PORT
#include "directory.capnp.h"
#include <capnp/ez-rpc.h>
#include <stdlib.h>
#include <map>
#include <string>

class Board final : public Directory::Server {
  std::map<std::string, Member::Client> members;

 public:
  kj::Promise<void> join(JoinContext context) override {
    auto params = context.getParams();
    std::string name = params.getName().cStr();
    members.erase(name);
    members.emplace(name, params.getMember());
    return kj::READY_NOW;
  }
  kj::Promise<void> find(FindContext context) override {
    auto it = members.find(context.getParams().getName().cStr());
    KJ_REQUIRE(it != members.end(), "there is no such member");
    context.getResults().setMember(it->second);
    return kj::READY_NOW;
  }
};

int main(int count, char** words) {
  KJ_REQUIRE(count == 2, "usage: server PORT");
  capnp::EzRpcServer server(kj::heap<Board>(), "127.0.0.1", atoi(words[1]));
  auto& scope = server.getWaitScope();
  server.getPort().wait(scope);
  kj::NEVER_DONE.wait(scope);
}
