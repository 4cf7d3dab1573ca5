// Sessions of a Trial that makes Cells and promises, calls what it is given and answers in time, with a peer that isn't trusted, in memory
// over the static library of made/. Usage: made SEED INPUTS
//
// A session is made while it is played, so that its numbers mostly fit what came back, and its calls are answered. Time passes before each
// message. One of four then has frames dropped, repeated or swapped, and each is played with changed bytes too. It is served whole, by pieces of
// random sizes, and byte by byte: the bytes that come back, and the number of objects that are left, must be the same each time.
#include "cuts.hpp"
#include <map>

extern "C" size_t mp_serve(const uint8_t* stream, size_t, size_t piece, bool ends, uint8_t* said, size_t);

namespace {

constexpr uint64_t TRIAL = 0xe5a1000000000003;

// What comes back, and how many objects are left.
struct Answer {
  Bytes bytes;
  uint8_t objects;
  bool operator==(const Answer& other) const { return bytes == other.bytes && objects == other.objects; }
};

Answer serve(const Bytes& stream, Cut cut, bool ends) {
  static Bytes room(1 << 22);
  auto count = timed([&] { return mp_serve(stream.data(), stream.size(), cut.piece, ends, room.data(), room.size()); });
  KJ_REQUIRE(count > 0 && count <= room.size(), "memory ran out, or more came back than was foreseen", count);
  return {{room.begin(), room.begin() + count - 1}, room[count - 1]};
}

class TrialMaker : public Maker {
  std::vector<uint32_t> asked;  // questions of the server's that aren't answered

  void make_trial(rpc::Call::Builder call) {
    call.setInterfaceId(TRIAL);
    call.setMethodId(random.below(6));
    auto params = call.getParams();
    auto data = params.getContent().initAsAnyStruct(2, 1).getDataSection();
    data[0] = random.below(random.one_in(9) ? 256 : 40);
    data[8] = random.below(256);
    for (auto descriptor : params.initCapTable(random.one_in(4) ? 0 : 1)) Maker::make(descriptor);
  }

  void make_return(rpc::Return::Builder ret) {
    auto at = asked.begin() + random.below(asked.size());
    ret.setAnswerId(*at);
    ret.setReleaseParamCaps(random.one_in(9));
    asked.erase(at);
    if (random.one_in(6)) {
      ret.initException().setReason("no");
      return;
    }
    auto results = ret.initResults();
    results.getContent().initAsAnyStruct(1, 1).getDataSection()[0] = random.below(256);
    for (auto descriptor : results.initCapTable(random.one_in(3) ? 1 : 0)) Maker::make(descriptor);
  }

 public:
  using Maker::Maker;

  void note(rpc::Message::Reader message) {
    Maker::note(message);
    if (message.isCall()) asked.push_back(message.getCall().getQuestionId());
  }

  void make(rpc::Message::Builder message) {
    if (!asked.empty() && random.one_in(3)) return make_return(message.initReturn());
    Maker::make(message);
    if (message.isCall() && !random.one_in(3)) make_trial(message.getCall());
  }
};

// Frames, and the milliseconds before each.
struct Session : Written {
  std::vector<kj::byte> times;

  explicit Session(Random& random) {
    TrialMaker maker(random);
    size_t heard = 0;
    for (uint32_t n = 1 + random.below(40); n > 0; n--) {
      capnp::MallocMessageBuilder message;
      maker.make(message.initRoot<rpc::Message>());
      add(message);
      times.push_back(random.one_in(3) ? random.below(60) : 0);
      heard = hear(serve(stream(), WHOLE, false).bytes, heard, maker);
    }
  }

  Bytes stream() const {
    Bytes all;
    for (size_t at = 0; at < plain.size(); at++) {
      auto& frame = plain[at];
      kj::byte head[] = {times[at % times.size()], kj::byte(frame.size()), kj::byte(frame.size() >> 8)};
      all.insert(all.end(), head, head + 3);
      all.insert(all.end(), frame.begin(), frame.end());
    }
    return all;
  }
};

// Serves a stream with some cuts, and gives what came back of the whole.
Answer compare(const Bytes& stream, Random& random) {
  auto whole = serve(stream, WHOLE, true);
  for (size_t piece : {size_t(1), size_t(1 + random.below(16)), size_t(1 + random.below(200))})
    KJ_REQUIRE(serve(stream, piece, true) == whole, "something else by pieces", piece);
  return whole;
}

}  // namespace

int main(int argc, char** argv) {
  uint64_t answers = 0, made = 0;
  std::map<std::string, uint64_t> aborts;
  auto status = play_all(argc, argv, [&](Random& random) {
    Session session(random);
    if (random.one_in(4)) session.change(random);
    auto stream = session.stream();
    auto whole = compare(stream, random);
    look_at(whole.bytes, session.plain, answers, aborts);
    made += whole.objects - 1;
    change(stream, random);
    compare(stream, random);
  });
  printf("%llu messages came back, %llu objects were left at ends\n", (unsigned long long)answers, (unsigned long long)made);
  for (auto& [reason, times] : aborts) printf("  %llu ended by %s\n", (unsigned long long)times, reason.c_str());
  return status;
}
