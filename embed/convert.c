// convert pack|unpack|recut [WORDS]    reads a stream of frames from standard input, and writes it to standard output: packed, plain, or
// plain with each struct laid anew in segments of at most WORDS words.
#include "jamdrosek.h"
#include <stdio.h>
#include <stdlib.h>
#include <string.h>

int main(int count, char **words) {
    if (count < 2) return 2;
    bool packs = !strcmp(words[1], "pack"), recuts = !strcmp(words[1], "recut");
    uint32_t most = count > 2 ? (uint32_t)strtoul(words[2], 0, 10) : 8388608;
    struct jd_limits limits = JD_STANDARD_LIMITS;
    struct jd_reader reader = {0};
    struct jd_spot spot = {0};
    struct jd_bytes bytes;
    struct jd_step step;
    uint8_t piece[65536];
    char text[JD_TEXT];
    uint32_t fault = jd_reader_open(&reader, !packs && !recuts, &limits);
    for (size_t len; !fault && (len = fread(piece, 1, sizeof piece, stdin)) > 0;) {
        for (size_t taken = 0; !fault && taken < len; taken += step.taken) {
            if ((fault = jd_reader_next(&reader, piece + taken, len - taken, &step)) || !step.has_frame) continue;
            fault = recuts ? jd_reader_recut(&reader, false, most, &bytes, &spot) : jd_reader_write(&reader, packs, &bytes);
            if (!fault) fwrite(bytes.at, 1, bytes.len, stdout);
        }
    }
    if (!fault) fault = jd_reader_end(&reader);
    jd_reader_close(&reader);
    if (!fault) return 0;
    jd_text(fault, &spot, text, sizeof text);
    fprintf(stderr, "%s\n", text);
    return 1;
}
