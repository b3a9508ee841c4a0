// A plain `answer`: reads a topology's text as `read.c` does, searches back from the target of a request, and writes the reply, in
// hexadecimal digits both. A request has no more than an RP and END-POINTS of IPv4.
#define main time_of_reading
#include "read.c"
#undef main

enum { COST_MAX = 16777215 };
typedef struct { uint32_t cost, node; } item;
static item heap[8192 + 1024];
static size_t waiting;
static void push(item x) {
    size_t i = waiting++;
    for (; i > 0 && x.cost < heap[(i - 1) / 2].cost; i = (i - 1) / 2) heap[i] = heap[(i - 1) / 2];
    heap[i] = x;
}
static item pop(void) {
    item least = heap[0], x = heap[--waiting];
    size_t i = 0, k;
    for (; (k = 2 * i + 1) < waiting; i = k) {
        if (k + 1 < waiting && heap[k + 1].cost < heap[k].cost) k++;
        if (x.cost <= heap[k].cost) break;
        heap[i] = heap[k];
    }
    heap[i] = x;
    return least;
}

static uint32_t cost[1024];
static void search(const topology *t, uint32_t target) {
    memset(cost, 0xff, sizeof cost);
    waiting = 0, cost[target] = 0;
    push((item){0, target});
    while (waiting) {
        item x = pop();
        if (x.cost != cost[x.node]) continue;
        for (uint32_t k = t->first_into[x.node]; k < t->first_into[x.node + 1]; k++) {
            uint32_t l = t->into[k], sum = x.cost + t->links[l].te;
            if (sum <= COST_MAX && sum < cost[t->tails[l]]) cost[t->tails[l]] = sum, push((item){sum, t->tails[l]});
        }
    }
}

static uint8_t reply[65536];
static size_t length;
static void put(uint64_t n, int octets) { while (octets-- > 0) reply[length++] = (uint8_t)(n >> 8 * octets); }

// The source, and the far address of the first tight link from node to node.
static void put_path(const topology *t, uint32_t source, uint32_t target) {
    put(0x0710, 2), put(0, 2);
    size_t begin = length;
    put(0x0108, 2), put(t->nodes[source].low, 4), put(0x2000, 2);
    for (uint32_t node = source; node != target;)
        for (uint32_t k = t->first_from[node]; k < t->first_from[node + 1]; k++) {
            uint32_t l = t->from[k], head = t->heads[l];
            if (cost[head] == UINT32_MAX || cost[head] + t->links[l].te != cost[node]) continue;
            put(0x0108, 2), put(t->links[l].far.low, 4), put(0x2000, 2), node = head;
            break;
        }
    size_t octets = length - begin + 4;
    reply[begin - 2] = (uint8_t)(octets >> 8), reply[begin - 1] = (uint8_t)octets;
    float word = (float)cost[source];
    uint32_t bits;
    memcpy(&bits, &word, 4);
    put(0x0610000c, 4), put(2, 4), put(bits, 4);
}

static int answer(const topology *t, const uint8_t *asked) {
    uint64_t word = 0, from = 0, to = 0;
    for (int i = 12; i < 16; i++) word = word << 8 | asked[i];
    for (int i = 20; i < 24; i++) from = from << 8 | asked[i], to = to << 8 | asked[i + 4];
    long source = find(t, &(addr){0, from, 4}), target = find(t, &(addr){0, to, 4});
    if (source < 0 || target < 0) return 0;
    search(t, (uint32_t)target);
    put(0x20040000, 4), put(0x0212000c, 4), put(0, 4), put(word, 4);
    if (cost[source] == UINT32_MAX) put(0x03100008, 4), put(0, 4);
    else put_path(t, (uint32_t)source, (uint32_t)target);
    reply[2] = (uint8_t)(length >> 8), reply[3] = (uint8_t)length;
    return 1;
}

int main(int argc, char **argv) {
    static char text[4194304], line[1024], told[131073];
    static uint8_t asked[28];
    topology t;
    FILE *in = argc == 2 ? fopen(argv[1], "r") : 0;
    if (!in || !read_text(&t, text, fread(text, 1, sizeof text, in)) || !fgets(line, sizeof line, stdin)) return 1;
    size_t octets = 0;
    for (const char *c = line; octets < sizeof asked && c[0] && c[1]; c++) {
        uint64_t n;
        if (*c == ' ') continue;
        if (!hex(c, c + 2, &n)) return 1;
        asked[octets++] = (uint8_t)n, c++;
    }
    if (octets < sizeof asked || !answer(&t, asked)) return 1;
    for (size_t i = 0; i < length; i++) told[2 * i] = "0123456789abcdef"[reply[i] >> 4], told[2 * i + 1] = "0123456789abcdef"[reply[i] & 15];
    told[2 * length] = '\n';
    return fwrite(told, 1, 2 * length + 1, stdout) != 2 * length + 1;
}
