// check [--packed] [--messages]    reads a stream from standard input, and says how many frames it has, or what its first fault is.
// Each frame has to hold a struct, or a message of rpc.capnp.
#include "jamdrosek.h"
#include <stdio.h>
#include <string.h>

int main(int count, char **words) {
    bool packed = false, messages = false;
    for (int n = 1; n < count; n++) {
        packed |= !strcmp(words[n], "--packed");
        messages |= !strcmp(words[n], "--messages");
    }
    struct jd_limits limits = JD_STANDARD_LIMITS;
    struct jd_reader reader = {0};
    struct jd_spot spot = {0};
    struct jd_message message;
    struct jd_step step;
    uint8_t piece[65536];
    uint64_t frames = 0, at = 0, open = 0; // bytes of whole frames, and of the open one
    uint32_t fault = jd_reader_open(&reader, packed, &limits);
    for (size_t len; !fault && (len = fread(piece, 1, sizeof piece, stdin)) > 0;) {
        for (size_t taken = 0; !fault && taken < len; taken += step.taken) {
            if ((fault = jd_reader_next(&reader, piece + taken, len - taken, &step))) break;
            open += step.taken;
            if (!step.has_frame) continue;
            if ((fault = messages ? jd_reader_message(&reader, &message, &spot) : jd_reader_check(&reader, &spot))) break;
            frames++;
            at += open;
            open = 0;
        }
    }
    if (!fault) fault = jd_reader_end(&reader);
    jd_reader_close(&reader);
    if (!fault) {
        printf("%llu frames, %llu bytes\n", (unsigned long long)frames, (unsigned long long)at);
        return 0;
    }
    char text[JD_TEXT];
    jd_text(fault, &spot, text, sizeof text);
    fprintf(stderr, "refused at byte %llu: %s\n", (unsigned long long)at, text);
    return 1;
}
