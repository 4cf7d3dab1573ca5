// starved <STREAM    reads a stream, and lends each frame in each form, relays it, and plays a call between two connections: each once for each
// of its allocations, which is refused. Each time it has to end with a fault of memory, or as without (a buffer that didn't grow at once may do), and
// nothing may be lost. Linked with -Wl,--wrap=malloc,--wrap=realloc,--wrap=free.
#include "jamdrosek.h"
#include <stdio.h>
#include <stdlib.h>
#include <string.h>

void *__real_malloc(size_t);
void *__real_realloc(void *, size_t);
void __real_free(void *);
static unsigned long calls, refused;
static long blocks;

static bool refuses(void) { return ++calls == refused; }

void *__wrap_malloc(size_t size) {
    void *at = refuses() ? 0 : __real_malloc(size);
    blocks += at != 0;
    return at;
}

void *__wrap_realloc(void *was, size_t size) {
    void *at = refuses() ? 0 : __real_realloc(was, size);
    blocks += at != 0 && !was;
    return at;
}

void __wrap_free(void *at) {
    blocks -= at != 0;
    __real_free(at);
}

static bool is_memory(uint32_t code) {
    return code == JD_OUT_OF_MEMORY || code == JD_TREE_MEMORY || code == JD_MESSAGE_MEMORY || code == JD_WRITE_MEMORY || code == JD_VAT_MEMORY;
}

static uint8_t stream[1 << 20];
static size_t len;

// Reads the stream, and gives the first fault.
static uint32_t read_all(void) {
    struct jd_limits limits = JD_STANDARD_LIMITS;
    struct jd_reader reader = {0};
    struct jd_step step = {0};
    struct jd_bytes bytes;
    struct jd_spot spot;
    uint32_t fault = jd_reader_open(&reader, false, &limits);
    for (size_t taken = 0; !fault && taken < len; taken += step.taken) {
        if ((fault = jd_reader_next(&reader, stream + taken, len - taken, &step)) || !step.has_frame) continue;
        if ((fault = jd_reader_write(&reader, true, &bytes))) break;
        if ((fault = jd_reader_recut(&reader, false, 2, &bytes, &spot))) break;
        fault = jd_reader_canonical(&reader, false, &bytes, &spot);
        if (fault == JD_CAPABILITY) fault = JD_OK;
    }
    jd_reader_close(&reader);
    return fault;
}

// Relays the stream, each message anew, and gives the first fault.
static uint32_t relay_all(void) {
    struct jd_limits limits = JD_STANDARD_LIMITS;
    struct jd_method none = {UINT64_MAX, 0};
    struct jd_relay relay = {0};
    struct jd_bytes bytes;
    struct jd_spot spot;
    uint64_t at;
    uint32_t fault = jd_relay_open(&relay, false, JD_ANEW_PACKED, &limits, &none, 1, false);
    if (!fault) fault = jd_relay_feed(&relay, stream, len, &bytes, &at, &spot);
    jd_relay_close(&relay);
    return fault;
}

// Gives one end what the other sent.
static uint32_t pass(struct jd_connection *from, struct jd_connection *to) {
    struct jd_bytes out;
    size_t taken = 0;
    uint32_t fault = jd_connection_outgoing(from, &out);
    for (size_t at = 0; !fault && at < out.len; at += taken) fault = jd_connection_receive(to, out.at + at, out.len - at, &taken);
    return fault ? fault : jd_connection_wrote(from, out.len);
}

// Answers each call with its own params and table, and finishes each question.
static uint32_t take(struct jd_connection *end) {
    struct jd_event event;
    struct jd_bytes bytes;
    struct jd_cap cap = {0};
    uint8_t params[64];
    for (;;) {
        uint32_t fault = jd_connection_next(end, &event);
        if (fault || event.kind == JD_NOTHING) return fault;
        if (event.kind == JD_SETTLED) fault = event.outcome == JD_RESULTS ? jd_connection_finish(end, event.question) : JD_VAT_MEMORY;
        if (event.kind == JD_DELIVERED && !(fault = jd_connection_content(end, &bytes))) {
            size_t count = bytes.len < sizeof params ? bytes.len : sizeof params;
            memcpy(params, bytes.at, count);
            fault = event.caps ? jd_connection_cap(end, 0, &cap) : JD_OK;
            fault = fault ? fault : jd_connection_answer(end, &event.origin, params, count, &cap, event.caps);
        }
        if (fault) return fault;
    }
}

// Plays a call that goes out before its object is known, with a promise among its params, and gives the first fault.
static uint32_t play(void) {
    // A struct of one pointer, which is capability 0.
    static const uint8_t params[24] = {0, 0, 0, 0, 2, 0, 0, 0, 0, 0, 0, 0, 0, 0, 1, 0, 3};
    struct jd_limits limits = JD_STANDARD_LIMITS;
    struct jd_connection ends[2] = {{0}, {0}};
    struct jd_method method = {1, 2};
    struct jd_cap target = {.kind = JD_CAP_PIPELINED}, promise = {.kind = JD_CAP_PROMISE}, object = {.kind = JD_CAP_OBJECT, .number = 5};
    uint32_t fault, question;
    if (!(fault = jd_connection_open(&ends[0], true, &limits, false, 0)) && !(fault = jd_connection_open(&ends[1], true, &limits, true, 7))
        && !(fault = jd_connection_bootstrap(&ends[0], &target.number)) && !(fault = jd_connection_promise(&ends[0], &promise.number))
        && !(fault = jd_connection_call(&ends[0], &target, &method, params, sizeof params, &promise, 1, &question))
        && !(fault = jd_connection_resolve(&ends[0], promise.number, &object)))
        for (int n = 0; !fault && n < 8; n++)
            if (!(fault = pass(&ends[n % 2], &ends[1 - n % 2]))) fault = take(&ends[1 - n % 2]);
    for (int n = 0; n < 2; n++) jd_connection_close(&ends[n]);
    return fault;
}

// Refuses each allocation of a play in turn, and says whether all went as it should.
static bool starve(const char *what, uint32_t (*plays)(void)) {
    unsigned long done = 0;
    for (refused = 1;; refused++) {
        calls = 0;
        long before = blocks;
        uint32_t fault = plays();
        unsigned long made = calls;
        if (blocks != before) return printf("%s: %ld blocks are lost where allocation %lu is refused\n", what, blocks - before, refused), false;
        if (made < refused) return printf("%s: %lu allocations, each refused once; %lu times all went well\n", what, made, done), !fault;
        done += !fault;
        if (fault && !is_memory(fault)) return printf("%s: %u where allocation %lu is refused\n", what, fault, refused), false;
    }
}

int main(void) {
    len = fread(stream, 1, sizeof stream, stdin);
    return !starve("a stream", read_all) | !starve("a relay", relay_all) | !starve("a call", play);
}
