#!/bin/sh
# Memory that is refused: a script over three domains is played, with a topology that changes while a request waits, two requests to their
# answers, a link that breaks, a key that is expanded, and certificates. For each n the n-th allocation of the program fails. Then the
# run ends with status 6, and what it has written is a first part of the transcript of a run in which nothing fails; or, where the program
# does without that memory, it writes all of it. The same for a path that a client asks for, of which nothing is written then. Needs a C
# compiler. It stands outside the gate. The last line of each says how many allocations failed in turn; the status is 0 where no run was
# wrong.
# usage: bench/memory.sh [PROGRAM]   (the one that the gate proved and built, where left out)
set -eu
top=$(cd "$(dirname "$0")/.." && pwd)
program=${1:-$top/crates/pce_main/out/pce_main}
[ -x "$program" ] || { echo "memory: no program $program; \`rt ci\` builds it" >&2; exit 2; }
work=$(mktemp -d)
trap 'rm -rf "$work"' EXIT
cp "$top"/examples/three/*.txt "$top"/examples/three/*.toml "$top"/examples/three/*.changes "$work/"
cp "$program" "$work/pce" && chmod 755 "$work/pce"

cat >"$work/script" <<'S'
disclose on
certify on
load 1 d1.txt
load 2 d2.txt
load 3 d3.txt
settle
open c1 1
feed c1 2001000c011000082000000120020004
feed c1 2003002c0212000c00000000000000010412000c0a0100010a0300090a120010200400012004000220040003
carry 1 2
change 2 dearer.changes
finish
drain c1 1
feed c1 2003002c0212000c00000000000000020412000c0a0100010a0300090a120010200400012004000220040003
finish
drain c1 1
open c2 2
feed c2 2001000c011000082000000120020004
feed c2 2003001c0212000c00000100000000071012000c40080002c0000202
drain c2 2
feed c1 2003002c0212000c00000000000000030412000c0a0100010a0300090a120010200400012004000220040003
carry 1 2
break 2 3
finish
drain c1 1
tick 600
shut c1
S

cat >"$work/failing.c" <<'C'
// Calls for memory, of which one fails: that of the number in FAILS. Without it they are counted, and their number is told at the end.
#include <errno.h>
#include <stdio.h>
#include <stdlib.h>

extern void *__libc_malloc(size_t);
extern void *__libc_calloc(size_t, size_t);
extern void *__libc_realloc(void *, size_t);
extern void *__libc_memalign(size_t, size_t);

static unsigned long calls, wanted;

__attribute__((constructor)) static void begin(void) {
    const char *word = getenv("FAILS");
    wanted = word ? strtoul(word, NULL, 10) : 0;
    calls = 0;
}

__attribute__((destructor)) static void end(void) {
    if (wanted == 0) dprintf(2, "%lu\n", calls);
}

static int fails(void) {
    if (++calls != wanted) return 0;
    errno = ENOMEM;
    return 1;
}

void *malloc(size_t size) { return fails() ? NULL : __libc_malloc(size); }
void *calloc(size_t count, size_t size) { return fails() ? NULL : __libc_calloc(count, size); }
void *realloc(void *old, size_t size) { return fails() ? NULL : __libc_realloc(old, size); }
void *aligned_alloc(size_t align, size_t size) { return fails() ? NULL : __libc_memalign(align, size); }

int posix_memalign(void **into, size_t align, size_t size) {
    void *found = fails() ? NULL : __libc_memalign(align, size);
    if (found == NULL) return ENOMEM;
    *into = found;
    return 0;
}
C
${CC:-cc} -O2 -shared -fPIC -o "$work/failing.so" "$work/failing.c"

cd "$work"
failed=0
refuse() { # what it is, input, how many lines a run that is cut off may write, words
    what=$1
    input=$2
    most=$3
    shift 3
    LD_PRELOAD=./failing.so ./pce "$@" <"$input" >wanted 2>count || { echo "memory: $what: status $? without a failure: $(head -1 count)" >&2; exit 2; }
    calls=$(tail -1 count)
    [ "$calls" -gt 0 ] || { echo "memory: $what: no allocation is seen" >&2; exit 2; }
    same=0
    short=0
    wrong=0
    n=1
    while [ "$n" -le "$calls" ]; do
        status=0
        FAILS=$n LD_PRELOAD=./failing.so ./pce "$@" <"$input" >got 2>said || status=$?
        if [ "$status" = 0 ] && cmp -s got wanted; then
            same=$((same + 1))
        elif [ "$status" = 6 ] && [ "$(cat said)" = 'pce: no memory' ] && [ "$(wc -l <got)" -le "$most" ] && head -c "$(wc -c <got)" wanted | cmp -s - got; then
            short=$((short + 1))
        else
            wrong=$((wrong + 1))
            echo "memory: $what: allocation $n: status $status, $(head -1 said)"
        fi
        n=$((n + 1))
    done
    echo "memory: $what: of $calls allocations each failed in turn: $short runs ended for want of memory, $same did without it, $wrong wrong"
    [ "$wrong" = 0 ] || failed=1
}
refuse 'a script' script 1000 play three.toml
refuse 'a path' /dev/null 0 path three.toml 10.1.0.1 10.3.0.9 1 2 3
exit "$failed"
