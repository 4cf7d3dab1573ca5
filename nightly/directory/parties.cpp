// Random sessions of three to five parties beside a plain model: who can call what, in which order, and what is held where.
//   parties NAME SEED SECONDS MOVES PORT..    sessions of so many moves, one after another, for so long. Each party comes by one of these ports:
//                                             the directory's first, or a gateway's to it. NAME begins the names by which it joins, so that
//                                             several runs don't meet. STORY=1 prints the whole session that went wrong, TRACE=1 each move at once. LIMIT is
//                                             for how many seconds calls may be open once nobody stalls (60).
// Each party is a connection of its own, by the reference library. It joins, finds, calls, passes on what it has, makes objects and promises,
// resolves these to what it has, gives calls up, stalls, floods, and dies. What the model doesn't know is what a party that died took along: so
// calls that may go over its connection may fail, as disconnected. Promises that are resolved to what wasn't answered yet may lose order once.
#include "directory.capnp.h"
#include <capnp/capability.h>
#include <capnp/rpc-twoparty.h>
#include <kj/async-io.h>
#include <kj/timer.h>
#include <netinet/in.h>
#include <sys/socket.h>
#include <unistd.h>
#include <stdio.h>
#include <stdlib.h>
#include <string.h>
#include <algorithm>
#include <chrono>
#include <map>
#include <memory>
#include <random>
#include <set>
#include <sstream>
#include <string>
#include <vector>

struct Party;
struct Session;

// What a reference stands for, as the model has it.
struct Node {
  enum Kind { OBJECT, PROMISE, RESULT, BY } kind;
  enum State { OPEN, KEPT, FAILED } state = OPEN;
  Party* party = nullptr;  // OBJECT, PROMISE: whose it is; BY: over whose connection it may go
  Node* value = nullptr;   // PROMISE, RESULT, BY: what it comes to, if that is known
  Node* called = nullptr;  // RESULT: what is called
  long number = 0;         // of an object
  bool is_there = false;   // whether the object is
  bool is_loose = false;   // whether the promise was resolved to what wasn't answered yet
};

// What a reference comes to.
struct Found {
  Node* object = nullptr;    // none: it isn't known yet, or there is nothing
  bool is_broken = false;
  bool has_promise = false;  // it goes over one
  int loose = 0;             // over so many that may lose order
  Node* open = nullptr;      // the promise that isn't resolved yet
  std::vector<Party*> parties;  // whose ends may break it
};

static Found find(Node* node) {
  Found found;
  for (int hops = 0; node != nullptr && hops < 1000; hops++) {
    if (node->party != nullptr) found.parties.push_back(node->party);
    if (node->kind != Node::OBJECT && node->kind != Node::RESULT) found.has_promise = true;
    if (node->kind == Node::OBJECT) {
      found.object = node;
      return found;
    }
    if (node->kind != Node::BY && node->state == Node::FAILED) {
      found.is_broken = true;
      return found;
    }
    if (node->kind == Node::PROMISE) {
      found.loose += node->is_loose;
      if (node->state == Node::OPEN) found.open = node;
    }
    node = node->value;
  }
  return found;
}

// Whether it comes to something only once a promise is resolved. (A promise that is resolved to that might come to itself.)
static bool waits(Node* node) {
  if (node == nullptr || (node->kind == Node::PROMISE && node->state == Node::OPEN)) return true;
  if (node->kind == Node::RESULT && node->state == Node::OPEN && node->called != nullptr && waits(node->called)) return true;
  return node->kind != Node::OBJECT && node->state != Node::FAILED && waits(node->value);
}

template <typename... T>
static std::string line(const T&... all) {
  std::ostringstream to;
  (to << ... << all);
  return to.str();
}

// What a node stands for, in words.
static std::string words_of(Node* node);

// A reference that a party has.
struct Handle {
  Member::Client cap;
  Node* node;
  long number;
  bool is_settled = false;  // its party knows what it came to
  long calls = 0;
  kj::Promise<void> settling = nullptr;
  Handle(Member::Client cap, Node* node, long number) : cap(kj::mv(cap)), node(node), number(number) {}
};

enum Verb { NOTE, GIVE, KEEP, BACK, MAKE, VOW, NEVER, JOIN, FIND };
static const char* VERBS[] = {"note", "give", "keep", "back", "make", "vow", "never", "join", "find"};

struct Call {
  Verb verb;
  long number;
  Party* from;
  Node* target = nullptr;
  Node* passed = nullptr;
  Node* result = nullptr;
  std::string name;
  long handle = 0, place = 0;  // by which reference, as which of its calls
  long in_pair = -1;           // as which of those of two connections whose order must hold
  int runs = 0;
  bool is_over = false, may_be_refused = false;
  bool comes_back = false;     // it goes to an object of its caller's own, by the directory
  kj::Promise<void> promise = nullptr;
};

// A stream of which nothing is read while it stalls.
class Stalling final : public kj::AsyncIoStream {
  kj::Own<kj::AsyncIoStream> inner;
  kj::Maybe<kj::Own<kj::PromiseFulfiller<void>>> waits;

 public:
  bool stalls = false;
  explicit Stalling(kj::Own<kj::AsyncIoStream> inner) : inner(kj::mv(inner)) {}
  kj::Promise<size_t> tryRead(void* to, size_t least, size_t most) override {
    if (!stalls) return inner->tryRead(to, least, most);
    auto paf = kj::newPromiseAndFulfiller<void>();
    waits = kj::mv(paf.fulfiller);
    return paf.promise.then([this, to, least, most]() { return inner->tryRead(to, least, most); });
  }
  void go_on() {
    stalls = false;
    KJ_IF_MAYBE(it, waits) (*it)->fulfill();
    waits = nullptr;
  }
  kj::Promise<void> write(const void* from, size_t size) override { return inner->write(from, size); }
  kj::Promise<void> write(kj::ArrayPtr<const kj::ArrayPtr<const kj::byte>> pieces) override { return inner->write(pieces); }
  kj::Promise<void> whenWriteDisconnected() override { return inner->whenWriteDisconnected(); }
  void shutdownWrite() override { inner->shutdownWrite(); }
  void abortRead() override { inner->abortRead(); }
  void setsockopt(int level, int option, const void* value, kj::uint length) override { inner->setsockopt(level, option, value, length); }
};

struct Link {
  Stalling stream;
  capnp::TwoPartyVatNetwork network;
  capnp::RpcSystem<capnp::rpc::twoparty::VatId> rpc;
  explicit Link(kj::Own<kj::AsyncIoStream> inner)
      : stream(kj::mv(inner)), network(stream, capnp::rpc::twoparty::Side::CLIENT), rpc(capnp::makeRpcClient(network)) {}
  Directory::Client hub() {
    capnp::MallocMessageBuilder message;
    auto id = message.initRoot<capnp::rpc::twoparty::VatId>();
    id.setSide(capnp::rpc::twoparty::Side::SERVER);
    return rpc.bootstrap(id).castAs<Directory>();
  }
};

// A call that failed before the model knows why: that of which it is a result isn't over yet.
struct Doubt {
  Call* call;
  kj::Exception::Type type;
  std::string what;
};

struct Vow {
  Node* node;
  kj::Own<kj::PromiseFulfiller<Member::Client>> fulfiller;
};

struct Party {
  Session& session;
  int number;
  bool is_straight, lives = true, floods = false;
  long nevers = 0;  // the calls that it works on for ever
  kj::Own<Link> link;
  kj::Maybe<Directory::Client> hub;
  std::vector<std::unique_ptr<Handle>> handles;
  std::vector<Vow> vows;
  std::vector<std::unique_ptr<Call>> calls;
  std::map<Party*, long> in_pair;
  capnp::CapabilityServerSet<Member> own;
  Party(Session& session, int number, bool is_straight, kj::Own<Link> link)
      : session(session), number(number), is_straight(is_straight), link(kj::mv(link)), hub(this->link->hub()) {}
  Directory::Client& directory() { return KJ_ASSERT_NONNULL(hub); }
  Handle& add(Member::Client cap, Node* node);
  void end(bool resets);
};

struct Totals {
  long sessions = 0, moves = 0, right = 0, lost = 0, refused = 0, loosened = 0, parties = 0, died = 0, dropped = 0, own = 0;
};

struct Session {
  kj::AsyncIoContext& io;
  std::string name;
  std::vector<int> ports;
  unsigned seed;
  std::mt19937 random;
  Totals& totals;
  std::vector<std::unique_ptr<Node>> nodes;
  std::vector<std::unique_ptr<Party>> parties;
  std::map<long, Call*> calls;                              // all that were made, by number
  std::vector<std::unique_ptr<Call>> finished;              // those that are over: they may come yet, if their caller died
  std::map<std::string, Node*> names;
  std::map<long, std::pair<Node*, std::vector<long>>> came; // by reference: what it stands for, and the places of the calls that came
  std::map<std::pair<Party*, Party*>, long> pairs;          // the last call of two connections that came
  std::vector<Call*> untold;                                // those that were given up and may have come back to their caller
  std::vector<Doubt> doubts;                                
  std::vector<std::string> story;
  long last = 0;
  int named = 0, move = 0;
  bool has_flooded = false;

  Session(kj::AsyncIoContext& io, std::string name, std::vector<int> ports, unsigned seed, Totals& totals)
      : io(io), name(name), ports(ports), seed(seed), random(seed), totals(totals) {}
  // The calls refer to what is here: so they go first.
  ~Session() noexcept(false) { for (auto& it : parties) it->end(false); }

  int any(int below) { return random() % below; }
  kj::Timer& timer() { return io.provider->getTimer(); }
  void wait(int us) { timer().afterDelay(us * kj::MICROSECONDS).wait(io.waitScope); }
  Node* node(Node::Kind kind, Party* party = nullptr, Node* value = nullptr) {
    nodes.push_back(std::make_unique<Node>());
    auto it = nodes.back().get();
    it->kind = kind, it->party = party, it->value = value;
    if (kind == Node::OBJECT) it->number = ++last;
    return it;
  }
  template <typename... T>
  [[noreturn]] void fail(const T&... all) {
    fprintf(stderr, "seed %u, move %d: %s\n", seed, move, line(all...).c_str());
    size_t lines = getenv("STORY") ? story.size() : 40;
    for (size_t at = story.size() - std::min(story.size(), lines); at < story.size(); at++) fprintf(stderr, "  %s\n", story[at].c_str());
    _exit(1);
  }
  template <typename... T>
  void note(const T&... all) {
    story.push_back(line(move, " ", all...));
    if (getenv("TRACE")) fprintf(stderr, "%s\n", story.back().c_str());
  }

  Member::Client make(Party& party, Node* node);
  void get_one(Party& party);
  Party& come();
  Call& begin(Party& from, Verb verb);
  Call& call(Party& from, Handle& handle, Verb verb, Handle* passed, size_t size = 0);
  void over(Call& call, std::string heard);
  void failed(Call& call, kj::Exception& e);
  bool may_fail(Call& call, kj::Exception::Type type);
  void join(Party& from, Handle* handle, std::string as);
  void look_up(Party& from, std::string as);
  void resolve(Party& party, size_t place);
  void one_move();
  void reap();
  long open();
  void quiesce();
  void check_held();
  void check_order();
  void check_given_up();
  void run(int moves);
  std::vector<Party*> living() {
    std::vector<Party*> found;
    for (auto& it : parties) if (it->lives) found.push_back(it.get());
    return found;
  }
};

static std::string words_of(Node* node) {
  static const char* kinds[] = {"object", "promise", "result", "by"};
  static const char* states[] = {"open", "kept", "broken"};
  std::ostringstream to;
  for (int hops = 0; node != nullptr && hops < 20; hops++) {
    to << (hops > 0 ? " -> " : "") << kinds[node->kind];
    if (node->kind == Node::OBJECT) to << " " << node->number;
    if (node->party) to << " of " << node->party->number << (node->party->lives ? "" : ", dead");
    if (node->kind == Node::PROMISE || node->kind == Node::RESULT) to << ", " << states[node->state] << (node->is_loose ? ", loose" : "");
    node = node->value;
  }
  return to.str();
}

static std::string words_of(const Call& call) { return line("call ", call.number, ", ", VERBS[call.verb], " of ", words_of(call.target)); }

// An object of a party.
class Me final : public Member::Server {
  Session& session;
  Party& party;
  Node* node;

 public:
  Me(Session& session, Party& party, Node* node) : session(session), party(party), node(node) { node->is_there = true; }
  ~Me() { node->is_there = false; }

  kj::Promise<void> say(SayContext context) override {
    auto params = context.getParams();
    long number = atol(strchr(params.getText().cStr(), ' ') + 1);
    if (session.calls.count(number) == 0) session.fail("a call came that nobody made");
    Call& call = *session.calls[number];
    if (call.runs++ != 0) session.fail("call ", number, " came twice");
    Found found = find(call.target);
    if (found.object != node) session.fail(words_of(call), " came to object ", node->number);
    auto& order = session.came[call.handle];
    order.first = call.target;
    order.second.push_back(call.place);
    if (call.in_pair >= 0 && !getenv("NO_PAIRS")) {
      auto& before = session.pairs[{call.from, &party}];
      if (call.in_pair < before) session.fail(words_of(call), " came after a later one of the two connections");
      before = call.in_pair;
    }
    context.getResults().setHeard(std::to_string(node->number));
    return act(call, context);
  }

  kj::Promise<void> act(Call& call, SayContext& context) {
    auto back = context.getParams().getBack();
    switch (call.verb) {
      case GIVE:
        context.getResults().setOther(back);
        break;
      case KEEP: {
        auto& kept = party.add(back, call.passed);
        session.note("party ", party.number, " has reference ", kept.number, " by call ", call.number);
        break;
      }
      case MAKE:
        call.result->value = session.node(Node::OBJECT, &party);
        context.getResults().setOther(session.make(party, call.result->value));
        break;
      case VOW: {
        auto paf = kj::newPromiseAndFulfiller<Member::Client>();
        call.result->value = session.node(Node::PROMISE, &party);
        party.vows.push_back(Vow{call.result->value, kj::mv(paf.fulfiller)});
        context.getResults().setOther(kj::mv(paf.promise));
        break;
      }
      case BACK: {
        Call& inner = session.begin(party, NOTE);
        inner.target = call.passed, inner.handle = ++session.last;
        auto request = back.sayRequest();
        request.setText("note " + std::to_string(inner.number));
        return request.send().then([this, &inner](auto&& said) { session.over(inner, said.getHeard().cStr()); },
                                   [this, &inner](kj::Exception&& e) { session.failed(inner, e); });
      }
      case NEVER:
        party.nevers++;
        context.allowCancellation();
        return kj::Promise<void>(kj::NEVER_DONE).attach(kj::defer([&party = party]() { party.nevers--; }));
      default:
        break;
    }
    return kj::READY_NOW;
  }
};

Handle& Party::add(Member::Client cap, Node* node) {
  handles.push_back(std::make_unique<Handle>(kj::mv(cap), node, ++session.last));
  Handle* it = handles.back().get();
  it->settling = it->cap.whenResolved().then([it]() { it->is_settled = true; }, [](kj::Exception&&) {}).eagerlyEvaluate(nullptr);
  return *it;
}

void Party::end(bool resets) {
  lives = false;
  if (link.get() == nullptr) return;
  if (resets) {
    linger how{1, 0};
    link->stream.setsockopt(SOL_SOCKET, SO_LINGER, &how, sizeof how);
  }
  for (auto& it : calls) it->promise = nullptr;
  handles.clear();
  vows.clear();
  hub = nullptr;
  link = nullptr;
}

Member::Client Session::make(Party& party, Node* node) { return party.own.add(kj::heap<Me>(*this, party, node)); }

// A party makes an object of its own.
void Session::get_one(Party& party) {
  auto object = node(Node::OBJECT, &party);
  auto& handle = party.add(make(party, object), object);
  note("party ", party.number, " has object ", object->number, " by reference ", handle.number);
}

Party& Session::come() {
  int port = ports[any(ports.size())];
  auto stream = io.provider->getNetwork().parseAddress("127.0.0.1", port).wait(io.waitScope)->connect().wait(io.waitScope);
  parties.push_back(std::make_unique<Party>(*this, parties.size(), port == ports[0], kj::heap<Link>(kj::mv(stream))));
  Party& party = *parties.back();
  note("party ", party.number, " comes by ", port);
  get_one(party);
  totals.parties++;
  return party;
}

Call& Session::begin(Party& from, Verb verb) {
  from.calls.push_back(std::make_unique<Call>());
  Call& call = *from.calls.back();
  call.verb = verb, call.number = ++last, call.from = &from, call.may_be_refused = from.floods;
  return *(calls[call.number] = &call);
}

// A party calls what it has. What it gets goes among its references at once.
Call& Session::call(Party& from, Handle& handle, Verb verb, Handle* passed, size_t size) {
  Call& call = begin(from, verb);
  call.target = handle.node, call.handle = handle.number, call.place = ++handle.calls;
  if (passed) call.passed = passed->is_settled ? passed->node : node(Node::BY, &from, passed->node);
  Found found = find(handle.node);
  bool straight = from.is_straight && handle.is_settled && !found.has_promise && found.object && found.object->party->is_straight;
  // (A vat sends such a call back itself, as a question of its own, which its caller's Finish doesn't finish.)
  call.comes_back = !handle.is_settled && !(handle.node->kind == Node::PROMISE && handle.node->party == &from);
  if (straight && found.object->party != &from) call.in_pair = ++from.in_pair[found.object->party];
  auto request = handle.cap.sayRequest();
  std::string text = std::string(VERBS[verb]) + " " + std::to_string(call.number);
  if (size > 0) text += " " + std::string(size, 'x');
  request.setText(text);
  if (passed) request.setBack(passed->cap);
  auto promise = request.send();
  if (verb == GIVE || verb == MAKE || verb == VOW) {
    call.result = node(Node::RESULT, nullptr, call.passed);
    call.result->called = call.target;
    auto& got = from.add(promise.getOther(), call.result);
    note("party ", from.number, " will have reference ", got.number, " by the next");
  }
  std::string with = passed ? line(" with ", passed->number) : "";
  note("party ", from.number, " calls ", VERBS[verb], " by reference ", handle.number, with, ": ", call.number);
  auto* it = &call;
  call.promise = promise.then([this, it](auto&& said) { over(*it, said.getHeard().cStr()); }, [this, it](kj::Exception&& e) { failed(*it, e); })
      .eagerlyEvaluate(nullptr);
  return call;
}

void Session::over(Call& call, std::string heard) {
  call.is_over = true;
  if (call.result) call.result->state = Node::KEPT;
  totals.right++;
  if (call.target == nullptr) return;
  Found found = find(call.target);
  if (found.object == nullptr || heard != std::to_string(found.object->number)) fail(words_of(call), " was answered by ", heard);
}

void Session::failed(Call& call, kj::Exception& e) {
  call.is_over = true;
  if (call.result) call.result->state = Node::FAILED;
  auto type = e.getType();
  if (type == kj::Exception::Type::OVERLOADED && call.may_be_refused) {
    totals.refused++;
    return;
  }
  totals.lost++;
  if (!may_fail(call, type)) doubts.push_back(Doubt{&call, type, kj::str(e).cStr()});
}

// Whether a call may have failed so: it goes to what is broken, or by the connection of one that died.
bool Session::may_fail(Call& call, kj::Exception::Type type) {
  Found found = find(call.target);
  if (found.is_broken || !call.from->lives) return true;
  for (auto it : found.parties) if (!it->lives && type == kj::Exception::Type::DISCONNECTED) return true;
  // (A vat that sends a call back to its caller names what is broken by `none`, which the reference library doesn't take.)
  if (call.passed == nullptr || found.object == nullptr || found.object->party != call.from) return false;
  Found passed = find(call.passed);
  bool lost = passed.is_broken;
  for (auto it : passed.parties) lost |= !it->lives;
  return lost && (call.comes_back || found.has_promise);
}

void Session::join(Party& from, Handle* handle, std::string as) {
  Call& call = begin(from, JOIN);
  call.name = as;
  auto request = from.directory().joinRequest();
  request.setName(as);
  if (handle) {
    request.setMember(handle->cap);
    call.passed = handle->is_settled ? handle->node : node(Node::BY, &from, handle->node);
  }
  note("party ", from.number, " joins ", handle ? line(handle->number) : "nothing", " as ", as);
  auto* it = &call;
  call.promise = request.send().then([this, it](auto&&) {
    it->is_over = true;
    if (it->passed) names[it->name] = it->passed;
  }, [this, it](kj::Exception&& e) { failed(*it, e); }).eagerlyEvaluate(nullptr);
}

void Session::look_up(Party& from, std::string as) {
  Call& call = begin(from, FIND);
  auto request = from.directory().findRequest();
  request.setName(as);
  auto promise = request.send();
  call.result = node(Node::RESULT, nullptr, names[as]);
  auto& got = from.add(promise.getMember(), call.result);
  note("party ", from.number, " finds ", as, ", reference ", got.number);
  auto* it = &call;
  call.promise = promise.then([this, it](auto&&) { over(*it, ""); }, [this, it](kj::Exception&& e) { failed(*it, e); }).eagerlyEvaluate(nullptr);
}

// A promise of a party comes to one of its references, or to nothing.
void Session::resolve(Party& party, size_t place) {
  if (party.handles.empty()) get_one(party);
  Vow vow = kj::mv(party.vows[place]);
  party.vows.erase(party.vows.begin() + place);
  Handle& handle = *party.handles[any(party.handles.size())];
  Found found = find(handle.node);
  if (found.object == nullptr || waits(handle.node) || any(8) == 0) {
    vow.node->state = Node::FAILED;
    vow.fulfiller->reject(KJ_EXCEPTION(FAILED, "it came to nothing"));
    return note("party ", party.number, " breaks a promise");
  }
  vow.node->state = Node::KEPT;
  vow.node->value = handle.node;
  vow.node->is_loose = !handle.is_settled;
  vow.fulfiller->fulfill(Member::Client(handle.cap));
  note("party ", party.number, " resolves a promise to reference ", handle.number, (handle.is_settled ? "" : ", which isn't settled"));
}

void Session::reap() {
  for (auto& party : parties) {
    auto& all = party->calls;
    for (size_t at = 0; at < all.size();) {
      if (!all[at]->is_over) { at++; continue; }
      if (all[at]->verb == NEVER && all[at]->comes_back) untold.push_back(all[at].get());
      all[at]->promise = nullptr;
      finished.push_back(std::move(all[at]));
      all.erase(all.begin() + at);
    }
  }
}

// How many calls are to come to something. One that is worked on for ever does once its object's party is dead.
long Session::open() {
  long count = 0;
  for (auto party : living()) {
    for (auto& it : party->calls) {
      Found found = find(it->target);
      bool never = it->verb == NEVER && found.object && found.object->party->lives;
      count += !it->is_over && !never;
    }
  }
  return count;
}

// Waits until all calls have come to something, and looks at what they came to.
void Session::quiesce() {
  auto begin = std::chrono::steady_clock::now();
  auto limit = std::chrono::seconds(getenv("LIMIT") ? atoi(getenv("LIMIT")) : 60);
  for (long left = 1; left > 0;) {
    for (auto party : living()) {
      if (party->link->stream.stalls) party->link->stream.go_on();
      while (!party->vows.empty()) resolve(*party, 0);
    }
    wait(300);
    reap();
    left = open();
    if (std::chrono::steady_clock::now() - begin > limit) {
      for (auto party : living()) for (auto& it : party->calls) if (!it->is_over) note("open: ", words_of(*it));
      fail(left, " calls come to nothing");
    }
  }
  for (auto& it : doubts) {
    if (!may_fail(*it.call, it.type)) fail(words_of(*it.call), " failed: ", it.what);
  }
  doubts.clear();
  check_order();
  check_given_up();
  for (auto party : living()) {
    party->floods = false;
    // Most of what comes to nothing is dropped, so that most calls can come to something.
    auto& all = party->handles;
    all.erase(std::remove_if(all.begin(), all.end(), [&](auto& it) {
      Found found = find(it->node);
      return (found.object == nullptr || !found.object->party->lives) && any(8) != 0;
    }), all.end());
  }
}

// Calls by one reference came in order. Each promise that may lose order does so once.
void Session::check_order() {
  for (auto& it : came) {
    auto& places = it.second.second;
    std::map<long, size_t> at;
    for (size_t when = 0; when < places.size(); when++) at[places[when]] = when;
    int breaks = 0;
    size_t before = 0;
    for (auto& each : at) {
      breaks += each.second < before;
      before = each.second;
    }
    if (breaks > find(it.second.first).loose) {
      std::string order;
      for (long place : places) order += line(" ", place);
      fail("calls by reference ", it.first, " came in the order", order);
    }
    totals.loosened += breaks > 0;
  }
  came.clear();
}

// Who works on a call for ever is told once it is given up.
void Session::check_given_up() {
  for (int tries = 0;; tries++) {
    std::map<Party*, std::pair<long, long>> wanted;
    for (auto party : living()) {
      for (auto& it : party->calls) {
        Found found = find(it->target);
        bool may_be_over = it->comes_back && found.object && found.object->party == party;
        for (auto each : found.parties) may_be_over |= !each->lives;
        if (found.object) (may_be_over ? wanted[found.object->party].second : wanted[found.object->party].first)++;
      }
    }
    for (auto it : untold) {
      Found found = find(it->target);
      if (found.object && found.object->party == it->from) wanted[it->from].second++;
    }
    Party* wrong = nullptr;
    for (auto party : living()) {
      auto& of = wanted[party];
      if (party->nevers < of.first || party->nevers > of.first + of.second) wrong = party;
    }
    if (wrong == nullptr) return;
    if (tries > 10000) {
      for (auto party : living()) for (auto& it : party->calls) note("open: ", words_of(*it), ", of party ", party->number);
      for (auto& it : finished) if (it->verb == NEVER) note("over: ", words_of(*it), ", of party ", it->from->number);
      fail("party ", wrong->number, " works on ", wrong->nevers, " calls for ever, not ", wanted[wrong].first);
    }
    wait(1000);
  }
}

void Session::one_move() {
  auto all = living();
  if (all.size() < 3) all.push_back(&come());
  Party& party = *all[any(all.size())];
  if (party.handles.empty()) get_one(party);
  Handle& handle = *party.handles[any(party.handles.size())];
  Handle& other = *party.handles[any(party.handles.size())];
  int what = any(1000);
  if (what < 300) call(party, handle, NOTE, nullptr);
  else if (what < 420) call(party, handle, GIVE, &other);
  else if (what < 500) call(party, handle, KEEP, &other);
  else if (what < 560) call(party, handle, BACK, &other);
  else if (what < 610) call(party, handle, MAKE, nullptr);
  else if (what < 660) call(party, handle, VOW, nullptr);
  else if (what < 730) { if (!party.vows.empty()) resolve(party, any(party.vows.size())); }
  else if (what < 770) { if (named < 16) join(party, &handle, name + std::to_string(named++)); }
  else if (what < 870) { if (!names.empty()) look_up(party, std::next(names.begin(), any(names.size()))->first); }
  else if (what < 930) {
    note("party ", party.number, " drops reference ", handle.number);
    party.handles.erase(std::find_if(party.handles.begin(), party.handles.end(), [&](auto& it) { return it.get() == &handle; }));
  }
  else if (what < 950) call(party, handle, NEVER, nullptr);
  else if (what < 970) {
    for (auto& it : party.calls) if (it->verb == NEVER && !it->is_over) {
      note("party ", party.number, " gives up ", it->number);
      it->is_over = true;
      break;
    }
  }
  else if (what < 974) {
    note("party ", party.number, " dies");
    party.end(any(2));
    totals.died++;
  }
  else if (what < 984) {
    note("party ", party.number, " stalls");
    party.link->stream.stalls = true;
  }
  else if (what < 990) party.link->stream.go_on();
  else if (what < 992) {
    Found found = find(handle.node);
    if (has_flooded || !found.object || found.object->party == &party || !found.object->party->lives) return;
    note("party ", party.number, " floods party ", found.object->party->number);
    has_flooded = party.floods = found.object->party->link->stream.stalls = true;
    for (int at = 0; at < 400; at++) call(party, handle, NOTE, nullptr, 65536);
  }
  else if (all.size() < 5) come();
}

// Parties drop much of what they have. What nobody has any more goes, and all else stays.
void Session::check_held() {
  for (auto party : living()) {
    for (auto& it : party->calls) if (it->verb == NEVER) it->is_over = true;
    for (size_t at = 0; at < party->handles.size();) {
      if (any(2)) party->handles.erase(party->handles.begin() + at); else at++;
    }
  }
  auto left = names;
  for (auto& it : left) if (any(2)) {
    join(*living()[0], nullptr, it.first);
    names.erase(it.first);
  }
  quiesce();
  std::set<Node*> held, may_be_held;
  auto look = [&](Node* node) {
    Found found = find(node);
    if (!found.object) return;
    bool sure = true;
    for (auto it : found.parties) sure &= it->lives;
    (sure ? held : may_be_held).insert(found.object);
  };
  for (auto party : living()) for (auto& it : party->handles) look(it->node);
  for (auto& it : names) look(it.second);
  for (auto it : untold) may_be_held.insert(find(it->target).object);
  for (auto& it : nodes) if (held.count(it.get()) && !it->is_there) fail("object ", it->number, " went, though it is held");
  for (int tries = 0;; tries++) {
    Node* stays = nullptr;
    for (auto& it : nodes) if (it->is_there && it->party->lives && !held.count(it.get()) && !may_be_held.count(it.get())) stays = it.get();
    if (stays == nullptr) break;
    if (tries > 2000) fail("object ", stays->number, " of party ", stays->party->number, " stays, though nobody has it");
    wait(10000);
  }
  for (auto& it : nodes) {
    totals.dropped += it->kind == Node::OBJECT && !it->is_there;
    if (held.count(it.get()) && !it->is_there) fail("object ", it->number, " went, though it is held");
  }
  for (auto party : living()) {
    for (auto& it : party->handles) {
      Found found = find(it->node);
      call(*party, *it, NOTE, nullptr);
      if (!found.object || found.object->party != party || !it->is_settled || found.has_promise) continue;
      if (party->own.getLocalServer(it->cap).wait(io.waitScope) == nullptr) fail("reference ", it->number, " of its own party isn't unwrapped");
      totals.own++;
    }
  }
  quiesce();
}

void Session::run(int moves) {
  for (int at = 0; at < 3; at++) come();
  for (move = 0; move < moves; move++) {
    one_move();
    totals.moves++;
    int pause = any(20);
    if (pause == 0) wait(any(500));
    else if (pause < 10) io.waitScope.poll();
    for (auto party : living()) while (party->handles.size() > 30) party->handles.erase(party->handles.begin() + any(party->handles.size()));
    if (move % 16 == 15) reap();
    if (move % 250 == 249) quiesce();
  }
  quiesce();
  if (living().empty()) come();
  check_held();
  for (auto& it : names) join(*living()[0], nullptr, it.first);
  quiesce();
}

int main(int count, char** words) {
  KJ_REQUIRE(count >= 6, "usage: parties NAME SEED SECONDS MOVES PORT..");
  setvbuf(stdout, nullptr, _IOLBF, 0);
  auto io = kj::setupAsyncIo();
  std::vector<int> ports;
  for (int at = 5; at < count; at++) ports.push_back(atoi(words[at]));
  auto end = std::chrono::steady_clock::now() + std::chrono::seconds(atol(words[3]));
  Totals all;
  for (unsigned seed = atol(words[2]); all.sessions == 0 || std::chrono::steady_clock::now() < end; seed++) {
    Session(io, words[1], ports, seed, all).run(atoi(words[4]));
    all.sessions++;
  }
  printf("%ld sessions of %ld moves and %ld parties, of which %ld died; %ld calls right, %ld failed by an end or a broken promise, "
         "%ld refused in a flood; "
         "%ld references that lost order where they may; %ld objects let go, %ld own ones unwrapped\n",
         all.sessions, all.moves, all.parties, all.died, all.right, all.lost, all.refused, all.loosened, all.dropped, all.own);
}
