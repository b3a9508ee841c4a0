// The least costs of the requests that `bulk` draws, without a bandwidth: the four topologies are joined, and a search over arrays with a
// binary heap goes back from the target: once for each request, or once for each target with a table of what was found; or one table of the
// costs between all nodes is relaxed over each node in turn (Floyd and Warshall).
#include <stdint.h>
#include <stdio.h>
#include <stdlib.h>
#include <string.h>
#include <time.h>

enum { DOMAINS = 4, NODES = 50, ALL = DOMAINS * NODES, LINKS = 1024, MOST = 8000 };

static uint64_t state = 1;
static uint32_t drawn(void) {
    state = state * UINT64_C(6364136223846793005) + UINT64_C(1442695040888963407);
    return (uint32_t)(state >> 33);
}

static uint32_t first[ALL + 1], tail[LINKS], weight[LINKS], count;
static struct { uint32_t from, to, te; } links[LINKS];

static int far_apart(uint32_t a, uint32_t b) { return (a == 1 || a == 11 || a == 21 || a == 31) && a + 10 == b; }
static int joined(uint32_t a, uint32_t b) { return a + 1 == b || b + 1 == a || far_apart(a, b) || far_apart(b, a); }
static uint32_t place(uint32_t domain, uint32_t node) { return (domain - 1) * NODES + node - 1; }
static void add(uint32_t from, uint32_t to, uint32_t te) { links[count].from = from, links[count].to = to, links[count++].te = te; }

static void draw_network(void) {
    for (uint32_t d = 1; d <= DOMAINS; d++)
        for (uint32_t to = 1; to <= NODES; to++)
            for (uint32_t from = 1; from <= NODES; from++)
                if (joined(from, to)) {
                    uint32_t te = 10 + drawn() % 991;
                    drawn();
                    add(place(d, from), place(d, to), te);
                }
    for (uint32_t d = 1; d < DOMAINS; d++) add(place(d, NODES), place(d + 1, 1), 1000);
    for (uint32_t i = 0; i < count; i++) first[links[i].to + 1]++;
    for (uint32_t n = 0; n < ALL; n++) first[n + 1] += first[n];
    uint32_t put[ALL];
    memcpy(put, first, sizeof put);
    for (uint32_t i = 0; i < count; i++) tail[put[links[i].to]] = links[i].from, weight[put[links[i].to]++] = links[i].te;
}

struct item { uint32_t cost, node; };
static struct item heap[LINKS + ALL];
static uint32_t heap_len;
static void push(struct item x) {
    uint32_t i = heap_len++;
    for (; i > 0 && x.cost < heap[(i - 1) / 2].cost; i = (i - 1) / 2) heap[i] = heap[(i - 1) / 2];
    heap[i] = x;
}
static struct item pop(void) {
    struct item least = heap[0], x = heap[--heap_len];
    uint32_t i = 0, k;
    for (; (k = 2 * i + 1) < heap_len; i = k) {
        if (k + 1 < heap_len && heap[k + 1].cost < heap[k].cost) k++;
        if (x.cost <= heap[k].cost) break;
        heap[i] = heap[k];
    }
    heap[i] = x;
    return least;
}

static void search(uint32_t target, uint32_t cost[ALL]) {
    memset(cost, 0xff, ALL * sizeof *cost);
    heap_len = 0, cost[target] = 0;
    push((struct item){0, target});
    while (heap_len) {
        struct item x = pop();
        if (x.cost != cost[x.node]) continue;
        for (uint32_t i = first[x.node]; i < first[x.node + 1]; i++) {
            uint32_t sum = x.cost + weight[i];
            if (sum < cost[tail[i]]) cost[tail[i]] = sum, push((struct item){sum, tail[i]});
        }
    }
}

static uint32_t between[ALL][ALL];
static void relax_all(void) {
    memset(between, 0x3f, sizeof between);
    for (uint32_t n = 0; n < ALL; n++) between[n][n] = 0;
    for (uint32_t i = 0; i < count; i++)
        if (links[i].te < between[links[i].from][links[i].to]) between[links[i].from][links[i].to] = links[i].te;
    for (uint32_t k = 0; k < ALL; k++)
        for (uint32_t i = 0; i < ALL; i++)
            for (uint32_t j = 0; j < ALL; j++)
                if (between[i][k] + between[k][j] < between[i][j]) between[i][j] = between[i][k] + between[k][j];
}

static double now(void) {
    struct timespec t;
    clock_gettime(CLOCK_MONOTONIC, &t);
    return (double)t.tv_sec * 1e6 + (double)t.tv_nsec / 1e3;
}

enum way { SEARCHES, TABLES, ALL_PAIRS };
static const char *const names[] = {"searches", "tables", "all-pairs"};

static void measure(uint32_t requests, enum way way) {
    double best = 1e18;
    uint64_t sum = 0;
    for (int round = 0; round < 20; round++) {
        static uint32_t table[NODES][ALL], cost[ALL];
        static int known[NODES];
        double start = now();
        memset(known, 0, sizeof known), memset(first, 0, sizeof first);
        state = 1, count = 0, sum = 0;
        draw_network();
        if (way == ALL_PAIRS) relax_all();
        for (uint32_t k = 0; k < requests; k++) {
            uint32_t source = drawn() % NODES, target = drawn() % NODES;
            switch (way) {
            case SEARCHES:
                search(place(4, target + 1), cost);
                sum += cost[source];
                break;
            case TABLES:
                if (!known[target]) search(place(4, target + 1), table[target]), known[target] = 1;
                sum += table[target][source];
                break;
            case ALL_PAIRS:
                sum += between[source][place(4, target + 1)];
            }
        }
        double took = now() - start;
        if (took < best) best = took;
    }
    printf("%s %u %.0f %llu\n", names[way], requests, best, (unsigned long long)sum);
}

int main(void) {
    for (enum way way = SEARCHES; way <= ALL_PAIRS; way++) measure(1000, way), measure(8000, way);
    return 0;
}
