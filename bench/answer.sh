#!/bin/sh
# Times `answer` over a topology at the limits: 1,024 nodes and 8,192 links, the same at each run.
# Reading and building are told apart from searching by a request that is refused once the topology is there.
# usage: bench/answer.sh [ROUNDS]
set -eu
rounds=${1:-5}
top=$(cd "$(dirname "$0")/.." && pwd)
work=$(mktemp -d)
trap 'rm -rf "$work"' EXIT

# A ring of 1,024 nodes, and from each node seven links to others by a fixed rule. The metric grows with the distance, so that
# many labels are lowered several times.
awk -v srlgs="${SRLGS:-0}" 'BEGIN {
    print "topology 1"
    for (i = 0; i < 1024; i++) printf "node 10.0.%d.%d\n", int(i / 256), i % 256
    x = 1
    for (i = 0; i < 1024; i++) for (k = 0; k < 8; k++) {
        x = (x * 69069 + 1) % 4294967296
        j = k == 0 ? (i + 1) % 1024 : int(x / 65536) % 1024
        if (j == i) j = (i + 1) % 1024
        te = k == 0 ? 1 : 1 + int(x / 1024) % 5000
        n = i * 8 + k
        printf "link 10.0.%d.%d 10.0.%d.%d 10.%d.%d.%d 10.%d.%d.%d 1 %d 1000 00000000", int(i / 256), i % 256, int(j / 256), j % 256, 64 + int(n / 65536), int(n / 256) % 256, n % 256, 128 + int(n / 65536), int(n / 256) % 256, n % 256, te
        for (s = 1; s <= srlgs; s++) printf " %d", 1000 * s + n
        print ""
    }
}' >"$work/limits.txt"
echo "20 03 00 1C 02 12 00 0C 00 00 00 00 00 00 00 01 04 12 00 0C 0A 00 00 00 0A 00 03 FF" >"$work/request.hex"
# the same with 256 exclusions of shared risk groups that no link carries
{
    printf '20 03 08 24 02 12 00 0C 00 00 00 00 00 00 00 01 04 12 00 0C 0A 00 00 00 0A 00 03 FF 11 12 08 08 00 00 00 00'
    awk 'BEGIN { for (i = 0; i < 256; i++) printf " 22 08 7F 00 00 %02X 00 02", i }'
    echo
} >"$work/excluded.hex"
echo "zz" >"$work/refused.hex"
"$top/pce" --version

measure() { # what, input
    printf '%s:' "$1"
    round=0
    while [ "$round" -lt "$rounds" ]; do
        begin=$(date +%s%N)
        (cd "$work" && "$top/pce" answer limits.txt <"$2" >"$work/out" 2>/dev/null) || true
        end=$(date +%s%N)
        printf ' %d ms' $(((end - begin) / 1000000))
        round=$((round + 1))
    done
    echo
}

measure "start alone" /dev/null
measure "reading and building" "$work/refused.hex"
measure "reading, building, searching, answering" "$work/request.hex"
measure "the same with 256 exclusions" "$work/excluded.hex"
