// For libFuzzer: the input is a program of calls on two readers and a relay, each call a byte and what it takes. What is lent is read through,
// and what a call answers is one of its faults.
#include "jamdrosek.h"
#include <stdlib.h>

static const uint8_t *left;
static size_t size;

static uint8_t byte(void) { return size ? size--, *left++ : 0; }

static const uint8_t *piece(size_t *len) {
    const uint8_t *at = left;
    *len = byte();
    *len = *len < size ? *len : size;
    at = left;
    left += *len;
    size -= *len;
    return at;
}

// Reads all that is lent, so that the address sanitizer sees each byte.
static void look(const struct jd_bytes *bytes) {
    volatile uint8_t sum = 0;
    for (size_t n = 0; n < bytes->len; n++) sum = (uint8_t)(sum + bytes->at[n]);
}

static void expect(bool is_right) {
    if (!is_right) abort();
}

// A fault of the call: one of these hundreds.
static void told(uint32_t code, const struct jd_spot *spot) {
    char text[JD_TEXT];
    size_t len = jd_text(code, spot, text, sizeof text);
    expect(code ? len > 0 && len < sizeof text && !text[len] : !len);
}

int LLVMFuzzerTestOneInput(const uint8_t *data, size_t count) {
    struct jd_reader readers[2] = {{0}, {0}};
    struct jd_relay relay = {0};
    struct jd_limits standard = JD_STANDARD_LIMITS, small = {4, 64, 4, 64};
    left = data;
    size = count;
    while (size) {
        uint8_t what = byte();
        struct jd_reader *reader = &readers[what >> 7];
        struct jd_spot spot = {0}, nowhere = {0};
        struct jd_message message;
        struct jd_bytes bytes = {0};
        struct jd_step step;
        struct jd_checked checked;
        uint8_t out[16];
        uint64_t words[16];
        struct jd_method methods[2] = {{1, 0}, {2, 1}};
        size_t len, number;
        uint64_t gone;
        bool was_open = reader->is_open;
        switch (what % 16) {
        case 0: told(jd_reader_open(reader, what & 16, what & 32 ? &small : &standard), &nowhere); break;
        case 1: case 2: case 3: {
            const uint8_t *at = piece(&len);
            uint32_t code = jd_reader_next(reader, at, len, &step);
            told(code, &nowhere);
            expect(step.taken <= len && (code ? !step.taken && !step.has_frame : step.taken == len || step.has_frame));
            break;
        }
        case 4: told(jd_reader_end(reader), &nowhere); break;
        case 5: told(jd_reader_message(reader, &message, &spot), &spot); break;
        case 6: {
            told(jd_reader_check(reader, &spot), &spot);
            told(jd_reader_check_canonical(reader, &spot), &spot);
            uint32_t code = jd_reader_canonical(reader, what & 16, &bytes, &spot);
            told(code, &spot);
            expect(!code || !bytes.len);
            look(&bytes);
            break;
        }
        case 7: {
            uint32_t code = jd_reader_write(reader, what & 16, &bytes);
            told(code, &nowhere);
            expect(!code || !bytes.len);
            look(&bytes);
            break;
        }
        case 8: {
            uint32_t code = jd_reader_recut(reader, what & 16, byte(), &bytes, &spot);
            told(code, &spot);
            expect(!code || !bytes.len);
            look(&bytes);
            number = jd_reader_copy(reader, 3, out, sizeof out);
            expect(number == (bytes.len < 3 ? 0 : bytes.len - 3 < sizeof out ? bytes.len - 3 : sizeof out));
            break;
        }
        case 9: {
            const uint8_t *at = piece(&len);
            uint32_t code = jd_check(at, len, what & 16, &small, what & 32 ? JD_A_MESSAGE : JD_A_STRUCT, &checked, &spot);
            told(code, &spot);
            expect(checked.bytes <= len && (code || checked.bytes == len));
            break;
        }
        case 10: {
            const uint8_t *at = piece(&len);
            told(jd_unpack(at, len, words, 16, &number), &nowhere);
            expect(number <= 16);
            uint8_t packed[160];
            size_t packed_len;
            expect(!jd_pack(words, number, packed, sizeof packed, &packed_len) && packed_len <= 10 * number);
            uint64_t again[16];
            expect(!jd_unpack(packed, packed_len, again, 16, &len) && len == number);
            break;
        }
        case 11: told(jd_relay_open(&relay, what & 16, byte() % 3, &standard, methods, what & 32 ? 2 : 0, what & 64), &nowhere); break;
        case 12: case 13: {
            const uint8_t *at = piece(&len);
            uint32_t code = jd_relay_feed(&relay, at, len, &bytes, &gone, &spot);
            told(code, &spot);
            expect(code > JD_CLOSED || !gone);
            look(&bytes);
            break;
        }
        case 14:
            told(jd_relay_end(&relay, &gone, &spot), &spot);
            if (what & 16) jd_relay_close(&relay);
            break;
        default: expect(jd_reader_needs(reader) == 0 || was_open); jd_reader_close(reader); expect(!reader->is_open);
        }
    }
    jd_reader_close(&readers[0]);
    jd_reader_close(&readers[1]);
    jd_relay_close(&relay);
    return 0;
}
