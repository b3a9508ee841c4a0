// A plain reader of a script: each line is told apart into words, the numbers and the hexadecimal octets among them are read, and its number
// is written with its first word and the sum of what was read.
#include <stdint.h>
#include <stdio.h>
#include <stdlib.h>
#include <string.h>

static uint64_t sum;
static int digit(char c) { return c >= '0' && c <= '9' ? c - '0' : c >= 'a' && c <= 'f' ? c - 'a' + 10 : c >= 'A' && c <= 'F' ? c - 'A' + 10 : -1; }

static void read_octets(const char *from, const char *to) {
    for (; to - from >= 2; from += 2) {
        int high = digit(from[0]), low = digit(from[1]);
        if (high < 0 || low < 0) exit(1);
        sum += (uint64_t)(16 * high + low);
    }
}

static void read_number(const char *from, const char *to) {
    uint64_t n = 0;
    for (; from < to && *from >= '0' && *from <= '9'; from++) n = 10 * n + (uint64_t)(*from - '0');
    sum += n;
}

int main(void) {
    static char text[67108864];
    size_t len = fread(text, 1, sizeof text, stdin);
    const char *at = text, *end = text + len;
    for (unsigned row = 1; at < end; row++) {
        const char *line = memchr(at, '\n', (size_t)(end - at));
        const char *stop = line ? line : end, *first = at, *first_end = 0;
        for (int words = 0; at < stop; words++) {
            const char *word = at;
            while (at < stop && *at != ' ') at++;
            if (words == 0) first_end = at;
            else if (words == 2 && *first == 'f') read_octets(word, at);
            else read_number(word, at);
            while (at < stop && *at == ' ') at++;
        }
        printf("%u %.*s %llu\n", row, (int)((first_end ? first_end : stop) - first), first, (unsigned long long)sum);
        at = stop + 1;
    }
    return 0;
}
