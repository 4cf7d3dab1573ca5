// The sizes and places that the library has, so that an edit of the header doesn't part from it unseen.
#include "jamdrosek.h"
#include <stdio.h>

#define SAME(a, b) ((a) == (b) ? 0 : (printf("%s is %zu\n", #a, (size_t)(a)), 1))

int main(void) {
    struct jd_reader closed = {0};
    struct jd_spot spot = {0};
    struct jd_step step = {7, true};
    struct jd_bytes bytes = {(const uint8_t *)"x", 1};
    struct jd_message message = {1, 1, 1, 1, true, 1};
    int wrong = SAME(sizeof closed, 16) + SAME(sizeof spot, 24) + SAME(sizeof step, 16) + SAME(sizeof bytes, 16) + SAME(sizeof message, 24);
    // A closed handle: nothing is done, and each result is written.
    wrong += SAME(jd_reader_next(&closed, (const uint8_t *)"x", 1, &step), JD_CLOSED) + SAME(step.taken, 0) + SAME(step.has_frame, false);
    wrong += SAME(jd_reader_message(&closed, &message, &spot), JD_CLOSED) + SAME(message.kind, 0) + SAME(message.interface, 0) + SAME(message.count, 0);
    wrong += SAME(jd_reader_write(&closed, false, &bytes), JD_CLOSED) + SAME(bytes.len, 0);
    wrong += SAME(jd_reader_end(&closed), JD_CLOSED) + SAME(jd_reader_needs(&closed), 0);
    jd_reader_close(&closed);

    struct jd_connection none = {0};
    struct jd_event event = {1, 1, {true, 1}, 1, 1, 1, 1, 1, 1, 1};
    struct jd_cap cap = {1, 1, 1, {1}};
    uint32_t number = 1;
    uint64_t at = 1;
    size_t taken = 1;
    wrong += SAME(sizeof none, 16) + SAME(sizeof event, 56) + SAME(sizeof cap, 48) + SAME(sizeof(struct jd_origin), 8) + SAME(sizeof(struct jd_method), 16);
    wrong += SAME(jd_connection_receive(&none, (const uint8_t *)"x", 1, &taken), JD_CLOSED) + SAME(taken, 0);
    wrong += SAME(jd_connection_next(&none, &event), JD_CLOSED) + SAME(event.kind, 0) + SAME(event.caps, 0) + SAME(event.origin.is_own, false);
    wrong += SAME(jd_connection_bootstrap(&none, &number), JD_CLOSED) + SAME(number, 0) + SAME(jd_connection_cap(&none, 0, &cap), JD_CLOSED) + SAME(cap.path[0], 0);
    wrong += SAME(jd_connection_outgoing(&none, &bytes), JD_CLOSED) + SAME(bytes.len, 0) + SAME(jd_connection_fault(&none, &at, &spot), JD_CLOSED) + SAME(at, 0);
    bool uses = true;
    wrong += SAME(jd_connection_uses(&none, 0, &uses), JD_CLOSED) + SAME(uses, false);
    jd_connection_close(&none);

    struct jd_relay shut = {0};
    wrong += SAME(sizeof shut, 16) + SAME(jd_relay_feed(&shut, (const uint8_t *)"x", 1, &bytes, &at, &spot), JD_CLOSED) + SAME(bytes.len, 0);
    wrong += SAME(jd_relay_end(&shut, &at, &spot), JD_CLOSED) + SAME(at, 0);
    jd_relay_close(&shut);
    return wrong != 0;
}
