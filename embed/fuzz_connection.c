// For libFuzzer: the input is a program of calls on two connections, whose bytes go from one to the other, as they are or with one of them
// changed. What is lent is read through, and what a call answers is one of its faults.
#include "jamdrosek.h"
#include <stdlib.h>
#include <string.h>

static const uint8_t *left;
static size_t size;

static uint8_t byte(void) { return size ? size--, *left++ : 0; }

static void expect(bool is_right) {
    if (!is_right) abort();
}

static uint32_t told(uint32_t code) {
    struct jd_spot spot = {0, 0, code == 301 || code == 302};
    char text[JD_TEXT];
    size_t len = jd_text(code, &spot, text, sizeof text);
    expect(code ? len > 0 && len < sizeof text : !len);
    return code;
}

// Reads all that is lent, so that the address sanitizer sees each byte.
static void look(const struct jd_bytes *bytes) {
    volatile uint8_t sum = 0;
    for (size_t n = 0; n < bytes->len; n++) sum = (uint8_t)(sum + bytes->at[n]);
}

// Gives one end what goes out of the other, in pieces of this many bytes at most, of which one may be changed.
static void pass(struct jd_connection *from, struct jd_connection *to, size_t most, uint8_t change) {
    static uint8_t piece[1 << 16];
    struct jd_bytes out;
    size_t taken = 0;
    if (told(jd_connection_outgoing(from, &out))) return;
    look(&out);
    size_t len = out.len < sizeof piece ? out.len : sizeof piece;
    memcpy(piece, out.at, len);
    told(jd_connection_wrote(from, len));
    if (change && len) piece[change % len] ^= change;
    for (size_t at = 0; at < len; at += taken) {
        size_t here = len - at < most ? len - at : most;
        if (told(jd_connection_receive(to, piece + at, here, &taken))) return;
        expect(taken > 0 && taken <= here);
    }
}

static struct jd_cap some_cap(void) {
    struct jd_cap cap = {byte() % 7u, byte() % 4u, byte() % 18u, {byte() % 3u, 0}};
    return cap;
}

// Takes all that happened, and answers what was delivered, or keeps it unanswered.
static void take(struct jd_connection *end, bool answers) {
    static uint8_t params[1 << 16];
    struct jd_event event;
    struct jd_bytes bytes;
    struct jd_cap caps[4];
    while (!told(jd_connection_next(end, &event)) && event.kind != JD_NOTHING) {
        size_t len = 0, count = event.caps < 4 ? event.caps : 4;
        if (!told(jd_connection_content(end, &bytes))) {
            look(&bytes);
            expect(event.kind == JD_DELIVERED || (event.kind == JD_SETTLED && event.outcome == JD_RESULTS));
            len = bytes.len < sizeof params ? bytes.len : 0;
            memcpy(params, bytes.at, len);
        }
        if (!told(jd_connection_reason(end, &bytes))) look(&bytes);
        for (size_t n = 0; n < count; n++) expect(!jd_connection_cap(end, n, &caps[n]));
        struct jd_cap none;
        expect(told(jd_connection_cap(end, event.caps, &none)) == JD_NO_CONTENT && none.kind == JD_CAP_NONE);
        if (event.kind == JD_DELIVERED && answers) {
            if (told(jd_connection_answer(end, &event.origin, params, len, caps, count)))
                told(jd_connection_fail(end, &event.origin, 0, "no", 2));
        }
        if (event.kind == JD_SETTLED && answers) told(jd_connection_finish(end, event.question));
    }
}

int LLVMFuzzerTestOneInput(const uint8_t *data, size_t count) {
    struct jd_connection ends[2] = {{0}, {0}};
    struct jd_limits limits = JD_STANDARD_LIMITS;
    left = data;
    size = count;
    uint8_t first = byte();
    for (int n = 0; n < 2; n++) expect(!jd_connection_open(&ends[n], first & 1, &limits, first & 2, 0));
    while (size) {
        uint8_t what = byte();
        struct jd_connection *end = &ends[what >> 7], *other = &ends[!(what >> 7)];
        struct jd_cap cap = {0}, table[2];
        struct jd_method method = {byte(), byte()};
        struct jd_origin origin = {what & 64, byte() % 4u};
        struct jd_spot spot;
        // A frame of an empty struct, and one of a struct with a capability.
        static const uint8_t frames[2][24] = {{0, 0, 0, 0, 1, 0, 0, 0, 0xfc, 0xff, 0xff, 0xff}, {0, 0, 0, 0, 2, 0, 0, 0, 0, 0, 0, 0, 0, 0, 1, 0, 3}};
        size_t len = what & 64 ? 24 : 16;
        uint32_t number;
        uint64_t at;
        switch (what % 14) {
        case 0: case 1: case 2: pass(end, other, 1u + byte(), what & 32 ? byte() : 0); break;
        case 3: case 4: take(end, true); break;
        case 5: take(end, false); break;
        case 6: told(jd_connection_bootstrap(end, &number)); break;
        case 7: case 8:
            cap = some_cap(), table[0] = some_cap(), table[1] = some_cap();
            told(jd_connection_call(end, &cap, &method, frames[len == 24], len, table, what & 32 ? 2 : 0, &number));
            break;
        case 9: table[0] = some_cap(), told(jd_connection_answer(end, &origin, frames[len == 24], len, table, 1)); break;
        case 10: told(jd_connection_finish(end, origin.number)), told(jd_connection_release(end, origin.number)); break;
        case 11: told(jd_connection_promise(end, &number)); break;
        case 12: cap = some_cap(), told(jd_connection_resolve(end, origin.number, &cap)), told(jd_connection_forget(end, origin.number)); break;
        default:
            told(jd_connection_fail(end, &origin, what, "\xff", what & 1));
            told(jd_connection_fault(end, &at, &spot));
            bool uses;
            expect(!jd_connection_uses(end, origin.number, &uses));
            if (what & 32) told(jd_connection_end(end));
        }
    }
    for (int n = 0; n < 2; n++) jd_connection_close(&ends[n]);
    return 0;
}
