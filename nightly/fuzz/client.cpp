// A client in memory and peers that aren't trusted, over the static library cp_probes.
// Usage: client SEED INPUTS
//
// A conversation is a script of calls, some on what another will give, and what the peer sends: mostly answers that fit what the client
// asked, with capabilities, and resolutions, releases and calls of its own. One of four has frames dropped, repeated or swapped, and
// each is played with changed bytes too. One of eight is cut at each byte in turn, the others at some, plain and packed: what each line
// gives, and what the client writes, must be the same each time. A line gives one thing, a question one outcome, and what the client
// writes are messages: no question is asked under a number that is in use, each Return answers a call, and nothing follows an Abort.
// An input is a stream with its own cut.
#include "random_call.hpp"
#include <capnp/dynamic.h>

namespace {

uint64_t questions = 0, results = 0, failures = 0;
std::map<std::string, uint64_t> wrote, ends;  // messages by their kinds, and conversations by what ended them

// A question has one outcome, while it isn't finished.
void look_at_lines(const Lines& script, const Lines& given) {
  KJ_REQUIRE(given.size() > script.size(), "fewer lines than the script has");
  std::map<uint32_t, bool> came;  // by each question that is open
  for (size_t i = 0; i < script.size(); i++) {
    uint32_t number, other;
    const char *line = script[i].c_str(), *gave = given[i].c_str();
    if (sscanf(line, "wait %u", &number) == 1 && sscanf(gave, "question:%u", &other) == 1) {
      KJ_REQUIRE(other == number && came.count(number) && !came[number], "an outcome of a question that has none", i, line, gave);
      came[number] = true;
      (strstr(gave, " results ") ? results : failures)++;
    } else if (sscanf(gave, "question:%u", &number) == 1) {
      KJ_REQUIRE(came.emplace(number, false).second, "a question's number is in use", i, line, gave);
      questions++;
    } else if (sscanf(line, "finish %u", &number) == 1 && given[i] == "done") {
      KJ_REQUIRE(came.erase(number) == 1, "a question was finished that wasn't asked", i, line);
    } else KJ_REQUIRE(given[i] == "done" || given[i].rfind("refused: ", 0) == 0, "a line gave something else", i, line, gave);
  }
}

// What a client writes are messages: a question is asked before it is finished, and nothing follows an Abort.
void look_at_messages(const Bytes& written, const Frames& peer) {
  std::map<uint32_t, int> asked;  // by the peer
  for (auto& frame : peer) {
    kj::ArrayInputStream input(kj::arrayPtr(frame.data(), frame.size()));
    capnp::InputStreamMessageReader reader(input);
    auto message = reader.getRoot<rpc::Message>();
    if (message.isCall()) asked[message.getCall().getQuestionId()]++;
    if (message.isBootstrap()) asked[message.getBootstrap().getQuestionId()]++;
  }
  std::map<uint32_t, bool> open;
  kj::ArrayInputStream input(kj::arrayPtr(written.data(), written.size()));
  auto ask = [&](uint32_t number) { KJ_REQUIRE(open.emplace(number, true).second, "asked under a number that is in use", number); };
  while (input.tryGetReadBuffer().size()) {
    capnp::InputStreamMessageReader reader(input);
    auto message = reader.getRoot<rpc::Message>();
    KJ_IF_MAYBE (kind, capnp::toDynamic(message).which()) wrote[kind->getProto().getName().cStr()]++;
    if (message.isBootstrap()) ask(message.getBootstrap().getQuestionId());
    if (message.isCall()) ask(message.getCall().getQuestionId());
    KJ_REQUIRE(!message.isFinish() || open.erase(message.getFinish().getQuestionId()) == 1, "finished what wasn't asked");
    KJ_REQUIRE(!message.isReturn() || asked[message.getReturn().getAnswerId()]-- > 0, "a Return that answers nothing");
    KJ_REQUIRE(!message.isAbort() || input.tryGetReadBuffer().size() == 0, "messages after an Abort");
  }
}

// Plays a conversation with many cuts, and gives what the whole gave.
Told compare(const std::string& script, const Bytes& bytes, bool packed, Random& random, bool everywhere) {
  auto call = [&](Cut cut) { return called(script, bytes, packed, cut); };
  auto whole = call(WHOLE);
  look_at_lines(lines_of(script), lines_of(whole.lines));
  if (everywhere) cut_everywhere(bytes.size(), whole, call);
  else cut_somewhere(random, bytes.size(), whole, call);
  return whole;
}

void note_end(const std::string& lines) {
  auto at = lines.find(", closed: ");
  ends[at == lines.npos ? "the end of its messages" : lines.substr(at + 10, lines.find('\n', at) - at - 10)]++;
}

void play(Random& random) {
  Conversation conversation(random);
  if (random.one_in(4)) conversation.change(random);
  bool everywhere = random.one_in(8);
  auto plain = joined(conversation.plain), packed = joined(conversation.packed);
  auto whole = compare(conversation.script, plain, false, random, everywhere);
  look_at_messages(whole.written, conversation.plain);
  note_end(whole.lines);
  auto other = compare(conversation.script, packed, true, random, everywhere);
  KJ_REQUIRE(unpacked(other.written) == whole.written, "other messages packed");
  auto& bytes = random.one_in(2) ? plain : packed;
  if (bytes.empty()) return;
  change(bytes, random);
  compare(conversation.script, bytes, &bytes == &packed, random, everywhere);
}

}  // namespace

int main(int argc, char** argv) {
  auto status = play_all(argc, argv, play);
  printf("%llu questions, %llu results, %llu other outcomes\n", (unsigned long long)questions, (unsigned long long)results, (unsigned long long)failures);
  for (auto& [kind, times] : wrote) printf("  %llu %s written\n", (unsigned long long)times, kind.c_str());
  for (auto& [reason, times] : ends) printf("  %llu ended by %s\n", (unsigned long long)times, reason.c_str());
  return status;
}
