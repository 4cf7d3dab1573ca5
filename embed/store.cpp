// store serve PORT    serves a store of texts (tests/store/store.capnp) on 127.0.0.1, to one client after another
// store call PORT     puts a text into such a store, gets it back, and prints it
//
// The connection is libjamdrosek's; the reference library's generated code reads and builds what crosses it.
#include "jamdrosek.h"
#include "store.capnp.h"
#include <arpa/inet.h>
#include <capnp/serialize.h>
#include <cstdio>
#include <cstdlib>
#include <cstring>
#include <map>
#include <optional>
#include <string>
#include <sys/socket.h>
#include <unistd.h>

static void right(uint32_t code) {
  if (!code) return;
  char text[JD_TEXT];
  jd_spot spot = {};
  jd_text(code, &spot, text, sizeof text);
  fprintf(stderr, "%s\n", text);
  exit(1);
}

// A connection over a socket.
class Peer {
  jd_connection connection = {};
  int socket;
  uint8_t piece[4096];
  size_t at = 0, len = 0;
  std::optional<capnp::FlatArrayMessageReader> reader;

  void flush() {
    jd_bytes out;
    for (right(jd_connection_outgoing(&connection, &out)); out.len; right(jd_connection_outgoing(&connection, &out))) {
      ssize_t count = write(socket, out.at, out.len);
      if (count <= 0) exit(1);
      right(jd_connection_wrote(&connection, static_cast<size_t>(count)));
    }
  }

 public:
  // `bootstrap` says whether the peer's Bootstrap gets object 0.
  Peer(int socket, bool bootstrap) : socket(socket) {
    jd_limits limits = JD_STANDARD_LIMITS;
    right(jd_connection_open(&connection, false, &limits, bootstrap, 0));
  }
  ~Peer() {
    jd_connection_close(&connection);
    close(socket);
  }

  // Waits for the next event. There is none where the peer has ended.
  bool next(jd_event& event) {
    for (right(jd_connection_next(&connection, &event)); event.kind == JD_NOTHING; right(jd_connection_next(&connection, &event))) {
      flush();
      if (at == len) {
        ssize_t count = read(socket, piece, sizeof piece);
        if (count <= 0) return false;
        at = 0, len = static_cast<size_t>(count);
      }
      size_t taken;
      right(jd_connection_receive(&connection, piece + at, len - at, &taken));
      at += taken;
    }
    return event.kind != JD_CLOSING;
  }

  // The params or the results of the event, lent until the next call. malloc aligns them, as the reference library needs it.
  template <typename T>
  typename T::Reader content() {
    jd_bytes bytes;
    right(jd_connection_content(&connection, &bytes));
    reader.emplace(kj::arrayPtr(reinterpret_cast<const capnp::word*>(bytes.at), bytes.len / sizeof(capnp::word)));
    return reader->getRoot<T>();
  }

  void answer(const jd_event& event, capnp::MessageBuilder& results) {
    auto words = capnp::messageToFlatArray(results);
    jd_cap none = {};
    right(jd_connection_answer(&connection, &event.origin, words.asBytes().begin(), words.asBytes().size(), &none, 0));
  }
  void refuse(const jd_event& event, const char* reason) { right(jd_connection_fail(&connection, &event.origin, 3, reason, strlen(reason))); }

  uint32_t bootstrap() {
    uint32_t question;
    right(jd_connection_bootstrap(&connection, &question));
    return question;
  }
  // Calls what another question will give.
  uint32_t call(uint32_t of, jd_method method, capnp::MessageBuilder& params) {
    auto words = capnp::messageToFlatArray(params);
    jd_cap target = {}, none = {};
    target.kind = JD_CAP_PIPELINED, target.number = of;
    uint32_t question;
    right(jd_connection_call(&connection, &target, &method, words.asBytes().begin(), words.asBytes().size(), &none, 0, &question));
    return question;
  }
  void finish(uint32_t question) { right(jd_connection_finish(&connection, question)); }
};

static void serve(Peer& peer, std::map<std::string, std::string>& texts) {
  for (jd_event event; peer.next(event);) {
    if (event.kind != JD_DELIVERED) continue;
    capnp::MallocMessageBuilder results;
    if (event.interface == capnp::typeId<Store>() && event.method == 0) {
      auto params = peer.content<Store::PutParams>();
      texts[params.getKey().cStr()] = params.getValue().cStr();
      results.initRoot<Store::PutResults>();
      peer.answer(event, results);
    } else if (event.interface == capnp::typeId<Store>() && event.method == 1) {
      auto found = texts.find(peer.content<Store::GetParams>().getKey().cStr());
      auto result = results.initRoot<Store::GetResults>();
      if (found != texts.end()) result.setValue(found->second.c_str());
      peer.answer(event, results);
    } else {
      peer.refuse(event, "no such method");
    }
  }
}

static int call(Peer& peer) {
  capnp::MallocMessageBuilder put, get;
  auto text = put.initRoot<Store::PutParams>();
  text.setKey("colour"), text.setValue("blue");
  get.initRoot<Store::GetParams>().setKey("colour");
  // Both calls go out before the store is known.
  uint32_t store = peer.bootstrap(), kept = peer.call(store, {capnp::typeId<Store>(), 0}, put), got = peer.call(store, {capnp::typeId<Store>(), 1}, get);
  for (jd_event event; peer.next(event);) {
    if (event.kind != JD_SETTLED || event.question == store) continue;
    if (event.outcome != JD_RESULTS) break;
    if (event.question == got) {
      printf("%s\n", peer.content<Store::GetResults>().getValue().cStr());
      peer.finish(kept), peer.finish(got), peer.finish(store);
      return 0;
    }
  }
  return 1;
}

int main(int count, char** words) {
  if (count != 3) return 2;
  sockaddr_in at = {};
  at.sin_family = AF_INET, at.sin_port = htons(static_cast<uint16_t>(atoi(words[2]))), at.sin_addr.s_addr = htonl(INADDR_LOOPBACK);
  int made = socket(AF_INET, SOCK_STREAM, 0), reuse = 1;
  if (!strcmp(words[1], "call")) {
    if (connect(made, reinterpret_cast<sockaddr*>(&at), sizeof at)) return perror("store"), 1;
    Peer peer(made, false);
    return call(peer);
  }
  std::map<std::string, std::string> texts;
  setsockopt(made, SOL_SOCKET, SO_REUSEADDR, &reuse, sizeof reuse);
  if (bind(made, reinterpret_cast<sockaddr*>(&at), sizeof at) || listen(made, 16)) return perror("store"), 1;
  for (int socket; (socket = accept(made, nullptr, nullptr)) >= 0;) {
    Peer peer(socket, true);
    serve(peer, texts);
  }
}
