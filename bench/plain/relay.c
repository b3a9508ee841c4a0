// Joins pairs of ports of 127.0.0.1, as many relays of TCP do: connects to both of a pair and copies octets both ways. It hands each piece on so
// many microseconds after it came, as a long line does, and counts the messages of PCEP on their way.
// usage: relay DELAY FROM TO [FROM TO ..]
// For each line of input it tells, a line for each pair and direction, FROM first, what has come since the last time:
//   requests N octets O replies M octets P others K octets Q
// It ends when the input ends, or a side.
#define _GNU_SOURCE // ppoll
#include <arpa/inet.h>
#include <errno.h>
#include <fcntl.h>
#include <netinet/tcp.h>
#include <poll.h>
#include <stdint.h>
#include <stdio.h>
#include <stdlib.h>
#include <string.h>
#include <sys/socket.h>
#include <time.h>
#include <unistd.h>

enum { MOST = 32, PIECE = 65536, KINDS = 3 };

struct piece { struct piece *next; uint64_t due; size_t length, sent; uint8_t octets[]; };
struct way {
    int from, to;
    struct piece *first, **last;
    uint8_t head[4];          // of the message that is under way
    size_t heard, left;       // octets of its header; octets of it that are still to come
    uint64_t messages[KINDS], octets[KINDS];
};
static struct way ways[2 * MOST];

static void fail(const char *what) { perror(what); exit(1); }
static uint64_t now(void) {
    struct timespec at;
    clock_gettime(CLOCK_MONOTONIC, &at);
    return at.tv_sec * 1000000ull + at.tv_nsec / 1000;
}
static int connected(int port) {
    struct sockaddr_in at = {.sin_family = AF_INET, .sin_port = htons(port), .sin_addr.s_addr = htonl(INADDR_LOOPBACK)};
    int link = socket(AF_INET, SOCK_STREAM, 0), one = 1;
    if (connect(link, (struct sockaddr *)&at, sizeof at)) fail("connect");
    setsockopt(link, IPPROTO_TCP, TCP_NODELAY, &one, sizeof one);
    fcntl(link, F_SETFL, O_NONBLOCK);
    return link;
}
// Counts the messages of a piece.
static void count(struct way *w, const uint8_t *octets, size_t length) {
    while (length) {
        if (w->heard < 4) {
            w->head[w->heard++] = *octets++, length--;
            if (w->heard < 4) continue;
            size_t whole = w->head[2] << 8 | w->head[3], kind = w->head[1] == 3 ? 0 : w->head[1] == 4 ? 1 : 2;
            w->messages[kind]++, w->octets[kind] += whole, w->left = whole - 4;
        }
        size_t part = w->left < length ? w->left : length;
        octets += part, length -= part, w->left -= part;
        if (!w->left) w->heard = 0;
    }
}
// Takes in what has come; 0 where that side has ended.
static int hear(struct way *w, uint64_t delay) {
    struct piece *p = malloc(sizeof *p + PIECE);
    ssize_t length = recv(w->from, p->octets, PIECE, 0);
    if (length <= 0) { free(p); return length < 0 && errno == EAGAIN; }
    count(w, p->octets, length);
    p = realloc(p, sizeof *p + length);
    p->next = NULL, p->due = now() + delay, p->length = length, p->sent = 0;
    *w->last = p, w->last = &p->next;
    return 1;
}
// Hands on what is due; 0 where that side has ended.
static int say(struct way *w) {
    while (w->first && w->first->due <= now()) {
        struct piece *p = w->first;
        ssize_t sent = send(w->to, p->octets + p->sent, p->length - p->sent, MSG_NOSIGNAL);
        if (sent < 0) return errno == EAGAIN;
        if ((p->sent += sent) < p->length) return 1;
        if (!(w->first = p->next)) w->last = &w->first;
        free(p);
    }
    return 1;
}
static void tell(struct way *w) {
    printf("requests %llu octets %llu replies %llu octets %llu others %llu octets %llu\n", (unsigned long long)w->messages[0], (unsigned long long)w->octets[0],
           (unsigned long long)w->messages[1], (unsigned long long)w->octets[1], (unsigned long long)w->messages[2], (unsigned long long)w->octets[2]);
    memset(w->messages, 0, sizeof w->messages), memset(w->octets, 0, sizeof w->octets);
}
int main(int words, char **word) {
    int many = words - 2;
    if (many < 2 || many % 2 || many > 2 * MOST) { fprintf(stderr, "usage: relay DELAY FROM TO [FROM TO ..]\n"); return 2; }
    uint64_t delay = strtoull(word[1], NULL, 10);
    for (int i = 0; i < many; i += 2) {
        int from = connected(atoi(word[i + 2])), to = connected(atoi(word[i + 3]));
        ways[i].from = ways[i + 1].to = from, ways[i].to = ways[i + 1].from = to;
        ways[i].last = &ways[i].first, ways[i + 1].last = &ways[i + 1].first;
    }
    for (;;) {
        struct pollfd polled[2 * MOST + 1];
        uint64_t at = now(), next = at + 1000000;
        for (int i = 0; i < many; i++) {
            struct piece *p = ways[i].first;
            // a piece that is due waits for room at its end: that end is looked at again after a millisecond
            if (p && p->due < next) next = p->due > at ? p->due : at + 1000;
            polled[i] = (struct pollfd){ways[i].from, POLLIN, 0};
        }
        polled[many] = (struct pollfd){0, POLLIN, 0};
        struct timespec rest = {(next - at) / 1000000, (next - at) % 1000000 * 1000};
        if (ppoll(polled, many + 1, &rest, NULL) < 0) fail("poll");
        if (polled[many].revents) {
            char line[256];
            ssize_t length = read(0, line, sizeof line);
            if (length <= 0) return 0;
            for (int i = 0; i < many; i++) tell(&ways[i]);
            fflush(stdout);
        }
        for (int i = 0; i < many; i++) {
            if (polled[i].revents && !hear(&ways[i], delay)) return 0;
            if (!say(&ways[i])) return 0;
        }
    }
}
