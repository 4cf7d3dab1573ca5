// relay INTERFACE METHOD ..    copies the messages of standard input to standard output, of which none may call another method than these. It
// stops at the first that may not go, or at a fault, says which, and ends with 1.
#include "jamdrosek.h"
#include <stdio.h>
#include <stdlib.h>

static int stop(uint32_t code, uint64_t at, const struct jd_spot *spot) {
    char text[JD_TEXT];
    jd_text(code, spot, text, sizeof text);
    fprintf(stderr, "%u: %s, after %llu bytes\n", code, text, (unsigned long long)at);
    return 1;
}

int main(int count, char **words) {
    static uint8_t piece[65536];
    struct jd_method methods[64];
    struct jd_limits limits = JD_STANDARD_LIMITS;
    struct jd_relay relay = {0};
    struct jd_bytes out;
    struct jd_spot spot = {0};
    uint64_t at = 0;
    size_t named = 0, len;
    for (int n = 1; n + 1 < count && named < 64; n += 2, named++)
        methods[named] = (struct jd_method){strtoull(words[n], 0, 0), (uint16_t)strtoul(words[n + 1], 0, 0)};
    uint32_t code = jd_relay_open(&relay, false, JD_AS_READ, &limits, methods, named, true);
    while (!code && (len = fread(piece, 1, sizeof piece, stdin))) {
        code = jd_relay_feed(&relay, piece, len, &out, &at, &spot);
        // At a fault too: what came before it goes out.
        fwrite(out.at, 1, out.len, stdout);
    }
    if (!code) code = jd_relay_end(&relay, &at, &spot);
    jd_relay_close(&relay);
    return code ? stop(code, at, &spot) : 0;
}
