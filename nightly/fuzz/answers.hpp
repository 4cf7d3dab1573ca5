// The messages of a peer that is called: answers to a client's questions, what they name, and calls of its own.
#pragma once
#include "messages.hpp"
#include <capnp/capability.h>
#include <capnp/rpc.h>

class Answerer : public Maker {
  std::map<uint32_t, std::vector<uint32_t>> open;  // the client's questions without a Return, with what their params name
  std::vector<uint32_t> promises, embargoes;       // this peer's that weren't resolved, and the client's that weren't lifted

  uint32_t one_of(std::vector<uint32_t>& numbers) {
    std::swap(numbers[random.below(numbers.size())], numbers.back());
    auto chosen = numbers.back();
    numbers.pop_back();
    return chosen;
  }

  // Notes what a table of the client names.
  void note(capnp::List<rpc::CapDescriptor>::Reader table, std::vector<uint32_t>& named) {
    for (auto descriptor : table) {
      if (!descriptor.isSenderHosted() && !descriptor.isSenderPromise()) continue;
      named.push_back(descriptor.isSenderHosted() ? descriptor.getSenderHosted() : descriptor.getSenderPromise());
      exports[named.back()]++;
    }
  }

  void make_results(rpc::Payload::Builder payload) {
    capnp::BuilderCapabilityTable caps;
    auto content = caps.imbue(payload.getContent()).initAsAnyStruct(random.below(2), random.below(4));
    for (auto pointer : content.getPointerSection()) {
      if (!random.one_in(4)) pointer.setAs<capnp::Capability>(capnp::Capability::Client(capnp::newBrokenCap("")));
    }
    auto table = payload.initCapTable(random.one_in(8) ? random.below(5) : caps.getTable().size());
    for (auto descriptor : table) {
      make(descriptor);
      if (descriptor.isSenderPromise()) promises.push_back(descriptor.getSenderPromise());
    }
  }

  void make_return(rpc::Return::Builder message) {
    auto question = std::next(open.begin(), random.below(open.size()));
    message.setAnswerId(number(question->first));
    message.setReleaseParamCaps(random.one_in(2));
    if (message.getReleaseParamCaps()) {
      for (auto id : question->second) lower(id, 1);
    }
    open.erase(question);
    auto kind = random.below(200);
    if (kind < 30) message.initException().setReason("no");
    else if (kind < 36) message.setCanceled();
    else if (kind < 38) message.setResultsSentElsewhere();
    else if (kind < 40) message.setTakeFromOtherQuestion(random.below(4));
    else make_results(message.initResults());
  }

  void make_resolve(rpc::Resolve::Builder resolve) {
    resolve.setPromiseId(one_of(promises));
    if (random.one_in(5)) resolve.initException().setReason("broken");
    else make(resolve.initCap());
  }

  void lift(rpc::Disembargo::Builder disembargo) {
    disembargo.initTarget().setImportedCap(exports.empty() ? 0 : exports.begin()->first);
    disembargo.getContext().setReceiverLoopback(number(one_of(embargoes)));
  }

 public:
  using Maker::Maker;
  using Maker::make;

  // What the client wrote.
  void note(rpc::Message::Reader message) {
    if (message.isBootstrap()) open[message.getBootstrap().getQuestionId()];
    else if (message.isCall()) note(message.getCall().getParams().getCapTable(), open[message.getCall().getQuestionId()]);
    else if (message.isDisembargo() && message.getDisembargo().getContext().isSenderLoopback())
      embargoes.push_back(message.getDisembargo().getContext().getSenderLoopback());
    else Maker::note(message);
  }

  void make(rpc::Message::Builder message) {
    auto kind = random.below(100);
    if (!embargoes.empty() && kind < 30) lift(message.initDisembargo());
    else if (!promises.empty() && kind < 45) make_resolve(message.initResolve());
    else if (!open.empty() && kind < 90) make_return(message.initReturn());
    else Maker::make(message);
  }
};
