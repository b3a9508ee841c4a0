// Asks a server for paths, over so many sessions at once, each to a port of its own, and tells how many answers came and how long each took.
// usage: load PORT SESSIONS WINDOW SECONDS COUNT SOURCE HOW-MANY TARGET HOW-MANY [AS ..]
// Each session has WINDOW requests under way at a time (0: it opens and is silent), until SECONDS have gone or COUNT answers came (0: no such
// end). Ends are drawn among HOW-MANY addresses from SOURCE and from TARGET on. One line is told:
//   answers N paths P seconds S rate R median M p99 Q worst W gap G     (times of one request, and the longest without an answer, in microseconds)
#include <arpa/inet.h>
#include <errno.h>
#include <fcntl.h>
#include <netinet/tcp.h>
#include <poll.h>
#include <stdint.h>
#include <stdio.h>
#include <stdlib.h>
#include <string.h>
#include <sys/socket.h>
#include <time.h>
#include <unistd.h>

enum { MOST = 256, ROOM = 1 << 17, WINDOWS = 1024, TIMES = 1 << 22 };

struct session { int link; uint32_t ident, under_way; size_t held; uint64_t began[WINDOWS]; uint8_t in[ROOM]; };
static struct session sessions[MOST];
static uint32_t times[TIMES];
static uint64_t answers, paths, drawn = 1, last, gap;
static uint32_t source, sources, target, targets, window;
static uint16_t domains[16];
static int domain_count;

static void fail(const char *what) { perror(what); exit(1); }
static uint64_t now(void) {
    struct timespec at;
    clock_gettime(CLOCK_MONOTONIC, &at);
    return at.tv_sec * 1000000ull + at.tv_nsec / 1000;
}
static uint32_t draw(uint32_t below) {
    drawn = drawn * 6364136223846793005ull + 1442695040888963407ull;
    return (uint32_t)(drawn >> 33) % below;
}
static void put(uint8_t *into, size_t *length, uint32_t word) { word = htonl(word); memcpy(into + *length, &word, 4); *length += 4; }
// Sends as many requests as the window has room for.
static void ask(struct session *s) {
    uint8_t out[128 * 100];
    size_t length = 0;
    uint64_t at = now();
    while (s->under_way < window && length < 128 * 99) {
        size_t begin = length;
        s->ident++;
        put(out, &length, 0x20030000);
        put(out, &length, 0x0212000c), put(out, &length, 0), put(out, &length, s->ident);
        put(out, &length, 0x0412000c), put(out, &length, source + draw(sources)), put(out, &length, target + draw(targets));
        if (domain_count) put(out, &length, 0x0a120000 | (4 + 4 * domain_count));
        for (int i = 0; i < domain_count; i++) put(out, &length, 0x20040000 | domains[i]);
        out[begin + 3] = length - begin;
        s->began[s->ident % WINDOWS] = at;
        s->under_way++;
    }
    for (size_t sent = 0; sent < length;) {
        ssize_t count = send(s->link, out + sent, length - sent, 0);
        if (count > 0) sent += count; else if (errno != EAGAIN) fail("send");
    }
}
// Notes how long there was no answer.
static void note_gap(uint64_t at) {
    if (at - last > gap) gap = at - last;
    last = at;
}
// Takes a message in; whether it is an answer.
static int take(struct session *s, const uint8_t *frame, size_t length) {
    if (frame[1] == 1 || frame[1] == 2) return 0;
    uint32_t ident;
    if (frame[1] == 7 || length < 20) { fprintf(stderr, "load: the session ends\n"); exit(1); }
    memcpy(&ident, frame + 12, 4);
    uint64_t at = now(), took = at - s->began[ntohl(ident) % WINDOWS];
    note_gap(at);
    if (answers < TIMES) times[answers] = (uint32_t)took;
    answers++;
    paths += frame[1] == 4 && length > 16 && frame[16] == 7;
    s->under_way--;
    return 1;
}
// Reads what came; how many answers.
static int hear(struct session *s) {
    ssize_t count = recv(s->link, s->in + s->held, ROOM - s->held, 0);
    if (count == 0) { fprintf(stderr, "load: the server closed\n"); exit(1); }
    if (count < 0) { if (errno == EAGAIN) return 0; fail("recv"); }
    s->held += count;
    int came = 0;
    size_t at = 0, length;
    while (at + 4 <= s->held && (length = s->in[at + 2] << 8 | s->in[at + 3]) <= s->held - at && length >= 4) came += take(s, s->in + at, length), at += length;
    memmove(s->in, s->in + at, s->held -= at);
    return came;
}
// Connects and opens the session: both Opens and both Keepalives.
static void begin(struct session *s, int port) {
    static const uint8_t hello[] = {0x20, 1, 0, 12, 1, 16, 0, 8, 0x20, 0, 0, 0, 0x20, 2, 0, 4};
    struct sockaddr_in at = {.sin_family = AF_INET, .sin_port = htons(port), .sin_addr.s_addr = htonl(INADDR_LOOPBACK)};
    int one = 1;
    s->link = socket(AF_INET, SOCK_STREAM, 0);
    if (connect(s->link, (struct sockaddr *)&at, sizeof at)) fail("connect");
    setsockopt(s->link, IPPROTO_TCP, TCP_NODELAY, &one, sizeof one);
    if (send(s->link, hello, sizeof hello, 0) != sizeof hello) fail("send");
    uint8_t back[16];
    if (recv(s->link, back, sizeof back, MSG_WAITALL) != sizeof back || back[13] != 2) { fprintf(stderr, "load: no session\n"); exit(1); }
    fcntl(s->link, F_SETFL, O_NONBLOCK);
}
static int by_time(const void *a, const void *b) {
    uint32_t x = *(const uint32_t *)a, y = *(const uint32_t *)b;
    return x < y ? -1 : x > y;
}
static uint32_t address(const char *text) {
    struct in_addr at;
    if (!inet_aton(text, &at)) { fprintf(stderr, "load: no address: %s\n", text); exit(2); }
    return ntohl(at.s_addr);
}
int main(int count, char **words) {
    if (count < 10) { fprintf(stderr, "usage: load PORT SESSIONS WINDOW SECONDS COUNT SOURCE HOW-MANY TARGET HOW-MANY [AS ..]\n"); return 2; }
    int port = atoi(words[1]), many = atoi(words[2]);
    uint64_t most = strtoull(words[5], NULL, 10);
    window = atoi(words[3]), source = address(words[6]), sources = atoi(words[7]), target = address(words[8]), targets = atoi(words[9]);
    for (int i = 10; i < count && domain_count < 16; i++) domains[domain_count++] = atoi(words[i]);
    if (many < 1 || many > MOST || window > WINDOWS / 2) { fprintf(stderr, "load: too many\n"); return 2; }
    struct pollfd polled[MOST];
    for (int i = 0; i < many; i++) begin(&sessions[i], port + i), polled[i] = (struct pollfd){sessions[i].link, POLLIN, 0};
    uint64_t start = now(), end = start + (uint64_t)(atof(words[4]) * 1e6);
    last = start;
    for (int i = 0; i < many && window; i++) ask(&sessions[i]);
    while (now() < end && (!most || answers < most)) {
        int ready = poll(polled, many, 100);
        for (int i = 0; i < many && ready > 0; i++) {
            if (!polled[i].revents) continue;
            ready--;
            if (hear(&sessions[i]) && window) ask(&sessions[i]);
        }
    }
    note_gap(now());
    double took = (now() - start) / 1e6;
    uint64_t kept = answers < TIMES ? answers : TIMES;
    qsort(times, kept, sizeof *times, by_time);
    printf("answers %llu paths %llu seconds %.2f rate %.0f median %u p99 %u worst %u gap %llu\n", (unsigned long long)answers, (unsigned long long)paths,
           took, answers / took, kept ? times[kept / 2] : 0, kept ? times[kept * 99 / 100] : 0, kept ? times[kept - 1] : 0, (unsigned long long)gap);
}
