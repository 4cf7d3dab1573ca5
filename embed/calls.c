// Makes calls of each kind as a program in C does: a stream in pieces, two ends of a connection, a relay, and whole buffers. `first_wrong` gives
// the line of the first check that fails, or 0. `./test` runs it over the unproved library, and embed/run.sh over the proved one.
#include "jamdrosek.h"
#include <string.h>

int32_t first_wrong(void);

#define CHECK(it) do { if (!(it)) return __LINE__; } while (0)
#define TRY(it) do { int32_t line = (it); if (line) return line; } while (0)

// Plain frames: of a struct with the number 41, and of one with capability 0.
static const uint8_t number[24] = {0, 0, 0, 0, 2, 0, 0, 0, 0, 0, 0, 0, 1, 0, 0, 0, 41};
static const uint8_t with_cap[24] = {0, 0, 0, 0, 2, 0, 0, 0, 0, 0, 0, 0, 0, 0, 1, 0, 3};
static const struct jd_limits limits = JD_STANDARD_LIMITS;

static int is(const struct jd_bytes *lent, const void *bytes, size_t len) { return lent->len == len && lent->at && !memcmp(lent->at, bytes, len); }

static int32_t reads_a_stream(void) {
    struct jd_reader reader = {0};
    struct jd_bytes lent;
    struct jd_step step;
    struct jd_spot spot;
    uint8_t copy[8] = {0};
    CHECK(jd_reader_open(&reader, false, &limits) == JD_OK);
    CHECK(jd_reader_next(&reader, NULL, 0, &step) == JD_OK && step.taken == 0 && !step.has_frame);
    CHECK(jd_reader_next(&reader, number, 20, &step) == JD_OK && step.taken == 20 && !step.has_frame && jd_reader_needs(&reader) == 4);
    CHECK(jd_reader_end(&reader) == JD_TRUNCATED);
    CHECK(jd_reader_open(&reader, false, &limits) == JD_OK);
    for (size_t n = 0; n < sizeof number; n++) CHECK(jd_reader_next(&reader, number + n, 1, &step) == JD_OK && step.taken == 1);
    CHECK(step.has_frame && jd_reader_check(&reader, &spot) == JD_OK);
    CHECK(jd_reader_write(&reader, false, &lent) == JD_OK && is(&lent, number, sizeof number));
    CHECK(jd_reader_copy(&reader, 16, copy, 2) == 2 && copy[0] == 41 && copy[1] == 0 && jd_reader_copy(&reader, 0, NULL, 0) == 0);
    CHECK(jd_reader_recut(&reader, false, 1, &lent, &spot) == JD_OK && lent.len > sizeof number);
    CHECK(jd_reader_end(&reader) == JD_OK);
    jd_reader_close(&reader);
    CHECK(jd_reader_write(&reader, false, &lent) == JD_CLOSED && lent.len == 0);
    return 0;
}

static int32_t tells_the_canonical_form(void) {
    // A struct of one word, 0, which is left out, and the form of that.
    static const uint8_t blank[24] = {0, 0, 0, 0, 2, 0, 0, 0, 0, 0, 0, 0, 1}, form[16] = {0, 0, 0, 0, 1, 0, 0, 0, 252, 255, 255, 255};
    struct jd_reader reader = {0};
    struct jd_bytes lent;
    struct jd_step step;
    struct jd_spot spot;
    CHECK(jd_reader_open(&reader, false, &limits) == JD_OK && jd_reader_check_canonical(&reader, &spot) == JD_NO_FRAME);
    CHECK(jd_reader_next(&reader, number, sizeof number, &step) == JD_OK && jd_reader_check_canonical(&reader, &spot) == JD_OK);
    CHECK(jd_reader_canonical(&reader, false, &lent, &spot) == JD_OK && is(&lent, number, sizeof number));
    CHECK(jd_reader_next(&reader, blank, sizeof blank, &step) == JD_OK && jd_reader_canonical(&reader, false, &lent, &spot) == JD_OK && is(&lent, form, sizeof form));
    CHECK(jd_reader_check_canonical(&reader, &spot) == JD_DIFFERENCE && spot.segment == 0 && spot.word == 0);
    CHECK(jd_reader_next(&reader, with_cap, sizeof with_cap, &step) == JD_OK && jd_reader_check_canonical(&reader, &spot) == JD_CAPABILITY && spot.field == 0);
    CHECK(jd_reader_canonical(&reader, false, &lent, &spot) == JD_CAPABILITY && lent.len == 0);
    jd_reader_close(&reader);
    CHECK(jd_reader_canonical(&reader, false, &lent, &spot) == JD_CLOSED && lent.len == 0 && jd_reader_check_canonical(&reader, &spot) == JD_CLOSED);
    return 0;
}

static int32_t passes(struct jd_connection *from, struct jd_connection *to) {
    struct jd_bytes sent;
    CHECK(jd_connection_outgoing(from, &sent) == JD_OK && sent.len > 0);
    for (size_t at = 0, taken; at < sent.len; at += taken) CHECK(jd_connection_receive(to, sent.at + at, sent.len - at, &taken) == JD_OK && taken);
    CHECK(jd_connection_wrote(from, sent.len) == JD_OK && jd_connection_outgoing(from, &sent) == JD_OK && sent.len == 0);
    return 0;
}

static int32_t calls_its_peer(struct jd_connection *client, struct jd_connection *server) {
    struct jd_cap store = {JD_CAP_PIPELINED, 0, 0, {0}}, object = {JD_CAP_OBJECT, 5, 0, {0}}, cap;
    struct jd_method get = {9, 3};
    struct jd_event event;
    struct jd_bytes lent;
    uint32_t asked;
    bool uses;
    CHECK(jd_connection_bootstrap(client, &asked) == JD_OK && asked == 0);
    CHECK(jd_connection_call(client, &store, &get, with_cap, sizeof with_cap, &object, 1, &asked) == JD_OK && asked == 1);
    CHECK(jd_connection_call(client, &store, &get, NULL, 0, NULL, 0, &asked) == JD_OK && asked == 2);
    CHECK(jd_connection_call(client, &store, &get, number, 9, NULL, 0, &asked) == JD_TRUNCATED && asked == 0);
    TRY(passes(client, server));
    CHECK(jd_connection_next(server, &event) == JD_OK && event.kind == JD_DELIVERED && event.object == 7 && event.interface == 9 && event.method == 3);
    CHECK(jd_connection_content(server, &lent) == JD_OK && is(&lent, with_cap, sizeof with_cap));
    CHECK(jd_connection_cap(server, 0, &cap) == JD_OK && cap.kind == JD_CAP_IMPORT && jd_connection_cap(server, 1, &cap) == JD_NO_CONTENT);
    CHECK(jd_connection_answer(server, &event.origin, number, sizeof number, NULL, 0) == JD_OK);
    CHECK(jd_connection_next(server, &event) == JD_OK && event.kind == JD_DELIVERED && event.caps == 0);
    CHECK(jd_connection_fail(server, &event.origin, 0, "no", 2) == JD_OK && jd_connection_fail(server, &event.origin, 0, NULL, 0) == JD_UNKNOWN_QUESTION);
    CHECK(jd_connection_next(server, &event) == JD_OK && event.kind == JD_NOTHING);
    TRY(passes(server, client));
    CHECK(jd_connection_next(client, &event) == JD_OK && event.kind == JD_SETTLED && event.question == 0 && event.caps == 1);
    CHECK(jd_connection_next(client, &event) == JD_OK && event.kind == JD_SETTLED && event.question == 1 && event.outcome == JD_RESULTS);
    CHECK(jd_connection_content(client, &lent) == JD_OK && is(&lent, number, sizeof number));
    CHECK(jd_connection_next(client, &event) == JD_OK && event.question == 2 && event.outcome == JD_EXCEPTION);
    CHECK(jd_connection_reason(client, &lent) == JD_OK && is(&lent, "no", 2) && jd_connection_content(client, &lent) == JD_NO_CONTENT);
    CHECK(jd_connection_finish(client, 2) == JD_OK && jd_connection_finish(client, 1) == JD_OK && jd_connection_finish(client, 0) == JD_OK);
    CHECK(jd_connection_uses(client, 5, &uses) == JD_OK && uses && jd_connection_release(client, 0) == JD_OK);
    CHECK(jd_connection_release(client, 0) == JD_UNKNOWN_IMPORT);
    return 0;
}

static int32_t connects(void) {
    struct jd_connection client = {0}, server = {0};
    struct jd_event event;
    uint64_t at;
    struct jd_spot spot;
    CHECK(jd_connection_open(&client, true, &limits, false, 0) == JD_OK && jd_connection_open(&server, true, &limits, true, 7) == JD_OK);
    TRY(calls_its_peer(&client, &server));
    TRY(passes(&client, &server));
    CHECK(jd_connection_next(&server, &event) == JD_OK && event.kind == JD_NOTHING);
    CHECK(jd_connection_end(&server) == JD_OK && jd_connection_fault(&server, &at, &spot) == JD_OK);
    jd_connection_close(&client);
    jd_connection_close(&server);
    return 0;
}

static int32_t relays(void) {
    // A Bootstrap, a call of method 0 and one of method 1 of interface 9, as a connection sends them.
    struct jd_connection client = {0};
    struct jd_relay relay = {0};
    struct jd_cap store = {JD_CAP_PIPELINED, 0, 0, {0}};
    struct jd_method first = {9, 0}, second = {9, 1};
    struct jd_bytes sent, out;
    struct jd_spot spot;
    uint64_t at;
    uint32_t asked;
    CHECK(jd_connection_open(&client, false, &limits, false, 0) == JD_OK && jd_connection_bootstrap(&client, &asked) == JD_OK);
    CHECK(jd_connection_call(&client, &store, &first, NULL, 0, NULL, 0, &asked) == JD_OK && jd_connection_outgoing(&client, &sent) == JD_OK);
    size_t allowed = sent.len;
    CHECK(jd_connection_call(&client, &store, &second, NULL, 0, NULL, 0, &asked) == JD_OK && jd_connection_outgoing(&client, &sent) == JD_OK);
    CHECK(jd_relay_open(&relay, false, JD_AS_READ, &limits, &first, 1, true) == JD_OK);
    CHECK(jd_relay_feed(&relay, NULL, 0, &out, &at, &spot) == JD_OK && out.len == 0);
    CHECK(jd_relay_feed(&relay, sent.at, sent.len, &out, &at, &spot) == JD_FORBIDDEN && at == allowed && is(&out, sent.at, allowed));
    CHECK(jd_relay_feed(&relay, sent.at, allowed, &out, &at, &spot) == JD_FORBIDDEN && out.len == 0);
    CHECK(jd_relay_open(&relay, false, JD_AS_READ, &limits, NULL, 0, false) == JD_OK);
    CHECK(jd_relay_feed(&relay, sent.at, sent.len, &out, &at, &spot) == JD_OK && is(&out, sent.at, sent.len) && jd_relay_end(&relay, &at, &spot) == JD_OK);
    jd_relay_close(&relay);
    jd_connection_close(&client);
    return 0;
}

static int32_t packs(void) {
    uint64_t words[2] = {41, 0}, back[2] = {1, 1};
    uint8_t packed[20];
    size_t count;
    struct jd_checked checked;
    struct jd_spot spot = {0, 0, 0};
    char text[JD_TEXT];
    CHECK(jd_pack(words, 2, packed, sizeof packed, &count) == JD_OK && count == 4);
    CHECK(jd_unpack(packed, count, back, 2, &count) == JD_OK && count == 2 && back[0] == 41 && back[1] == 0);
    CHECK(jd_pack(NULL, 0, NULL, 0, &count) == JD_OK && count == 0 && jd_unpack(NULL, 0, NULL, 0, &count) == JD_OK && count == 0);
    CHECK(jd_check(number, sizeof number, false, &limits, JD_A_STRUCT, &checked, &spot) == JD_OK && checked.frames == 1 && checked.bytes == sizeof number);
    CHECK(jd_check(NULL, 0, false, &limits, JD_A_STRUCT, &checked, &spot) == JD_OK && checked.frames == 0);
    CHECK(jd_text(JD_TRUNCATED, &spot, text, sizeof text) == strlen(text) && strlen(text) > 0 && jd_text(9, &spot, NULL, 0) == 0);
    return 0;
}

int32_t first_wrong(void) {
    TRY(reads_a_stream());
    TRY(tells_the_canonical_form());
    TRY(connects());
    TRY(relays());
    return packs();
}

#ifdef WITH_MAIN
int main(void) { return first_wrong() != 0; }
#endif
