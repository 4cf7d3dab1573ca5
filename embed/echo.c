// echo PORT    serves one object on 127.0.0.1, whose every method answers with its own params.
#include "jamdrosek.h"
#include <arpa/inet.h>
#include <netinet/in.h>
#include <poll.h>
#include <stdio.h>
#include <stdlib.h>
#include <string.h>
#include <sys/socket.h>
#include <unistd.h>

enum { MOST = 64 };
static struct jd_connection peers[MOST];
static struct pollfd polled[MOST + 1];

// Answers what was delivered with its own params and capabilities. Says whether the connection goes on.
static bool answer(struct jd_connection *peer) {
    static uint8_t params[1 << 20];
    struct jd_event event;
    struct jd_bytes content;
    struct jd_cap caps[64];
    while (!jd_connection_next(peer, &event) && event.kind != JD_NOTHING) {
        if (event.kind == JD_CLOSING) return false;
        if (event.kind != JD_DELIVERED) continue;
        size_t count = event.caps < 64 ? event.caps : 64;
        if (jd_connection_content(peer, &content) || content.len > sizeof params) {
            jd_connection_fail(peer, &event.origin, 0, "too long", 8);
            continue;
        }
        // What is lent stays until the next call alone.
        size_t len = content.len;
        memcpy(params, content.at, len);
        for (size_t n = 0; n < count; n++) jd_connection_cap(peer, n, &caps[n]);
        if (jd_connection_answer(peer, &event.origin, params, len, caps, count)) jd_connection_fail(peer, &event.origin, 0, "no struct", 9);
    }
    return true;
}

// Takes what came, answers it, and writes what is to go out. Says whether the connection goes on.
static bool turn(struct jd_connection *peer, int socket) {
    static uint8_t piece[65536];
    struct jd_bytes out;
    ssize_t len = read(socket, piece, sizeof piece);
    if (len <= 0) return false;
    bool goes_on = true;
    size_t taken = 0;
    for (ssize_t at = 0; goes_on && at < len; at += (ssize_t)taken) {
        goes_on = !jd_connection_receive(peer, piece + at, (size_t)(len - at), &taken);
        goes_on = answer(peer) && goes_on;
    }
    while (!jd_connection_outgoing(peer, &out) && out.len) {
        ssize_t count = write(socket, out.at, out.len);
        if (count <= 0) return false;
        jd_connection_wrote(peer, (size_t)count);
    }
    return goes_on;
}

int main(int count, char **words) {
    struct jd_limits limits = JD_STANDARD_LIMITS;
    struct sockaddr_in at = {.sin_family = AF_INET, .sin_port = htons((uint16_t)atoi(count > 1 ? words[1] : "0")), .sin_addr = {htonl(INADDR_LOOPBACK)}};
    int listener = socket(AF_INET, SOCK_STREAM, 0), yes = 1;
    setsockopt(listener, SOL_SOCKET, SO_REUSEADDR, &yes, sizeof yes);
    if (bind(listener, (struct sockaddr *)&at, sizeof at) || listen(listener, 16)) return perror("echo"), 1;
    for (int n = 0; n <= MOST; n++) polled[n] = (struct pollfd){.fd = -1, .events = POLLIN};
    polled[MOST].fd = listener;
    while (poll(polled, MOST + 1, -1) >= 0) {
        for (int n = 0; n < MOST; n++) {
            if (polled[n].fd < 0 || !polled[n].revents || turn(&peers[n], polled[n].fd)) continue;
            close(polled[n].fd);
            polled[n].fd = -1;
            jd_connection_close(&peers[n]);
        }
        if (!polled[MOST].revents) continue;
        int socket = accept(listener, 0, 0), free = 0;
        while (free < MOST && polled[free].fd >= 0) free++;
        if (socket < 0) continue;
        if (free == MOST || jd_connection_open(&peers[free], false, &limits, true, 0)) close(socket);
        else polled[free].fd = socket;
    }
    return 1;
}
