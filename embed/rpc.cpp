// rpc [--packed]    reads messages of rpc.capnp from standard input, and writes a line for each as the reference library's generated code
// reads it out of the lent frame. It ends with status 1 where the numbers of `struct jd_message` are others.
#include "jamdrosek.h"
#include <capnp/rpc.capnp.h>
#include <capnp/serialize.h>
#include <cstdio>
#include <cstring>
#include <vector>

static jd_message numbers_of(capnp::rpc::Message::Reader message) {
  using Which = capnp::rpc::Message::Which;
  jd_message seen = {};
  seen.kind = static_cast<uint16_t>(message.which());
  switch (message.which()) {
    case Which::CALL: {
      auto call = message.getCall();
      seen.id = call.getQuestionId(), seen.interface = call.getInterfaceId(), seen.method = call.getMethodId();
      break;
    }
    case Which::RETURN:
      seen.id = message.getReturn().getAnswerId(), seen.releases = message.getReturn().getReleaseParamCaps();
      break;
    case Which::FINISH:
      seen.id = message.getFinish().getQuestionId(), seen.releases = message.getFinish().getReleaseResultCaps();
      break;
    case Which::RESOLVE: seen.id = message.getResolve().getPromiseId(); break;
    case Which::RELEASE:
      seen.id = message.getRelease().getId(), seen.count = message.getRelease().getReferenceCount();
      break;
    case Which::BOOTSTRAP: seen.id = message.getBootstrap().getQuestionId(); break;
    case Which::DISEMBARGO: {
      auto context = message.getDisembargo().getContext();
      if (context.isSenderLoopback()) seen.id = context.getSenderLoopback();
      if (context.isReceiverLoopback()) seen.id = context.getReceiverLoopback();
      break;
    }
    default: break;
  }
  return seen;
}

static bool same(const jd_message& a, const jd_message& b) {
  return a.kind == b.kind && a.id == b.id && a.interface == b.interface && a.method == b.method && a.releases == b.releases && a.count == b.count;
}

int main(int count, char** words) {
  jd_limits limits = JD_STANDARD_LIMITS;
  jd_reader reader = {};
  jd_spot spot = {};
  jd_step step;
  jd_bytes bytes;
  jd_message message;
  std::vector<uint8_t> piece(65536);
  uint32_t fault = jd_reader_open(&reader, count > 1 && !strcmp(words[1], "--packed"), &limits);
  bool agrees = true;
  for (size_t len; !fault && (len = fread(piece.data(), 1, piece.size(), stdin)) > 0;) {
    for (size_t taken = 0; !fault && taken < len; taken += step.taken) {
      if ((fault = jd_reader_next(&reader, piece.data() + taken, len - taken, &step)) || !step.has_frame) continue;
      if ((fault = jd_reader_message(&reader, &message, &spot)) || (fault = jd_reader_write(&reader, false, &bytes))) break;
      // malloc aligns what is lent, as capnp needs it.
      capnp::FlatArrayMessageReader frame(kj::arrayPtr(reinterpret_cast<const capnp::word*>(bytes.at), bytes.len / sizeof(capnp::word)));
      auto seen = numbers_of(frame.getRoot<capnp::rpc::Message>());
      printf("kind %u id %u\n", seen.kind, seen.id);
      agrees = agrees && same(seen, message);
    }
  }
  if (!fault) fault = jd_reader_end(&reader);
  jd_reader_close(&reader);
  if (fault) {
    char text[JD_TEXT];
    jd_text(fault, &spot, text, sizeof text);
    fprintf(stderr, "%s\n", text);
  }
  return fault || !agrees;
}
