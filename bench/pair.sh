#!/bin/sh
# Whole runs of `pair` and `pair-certify` beside `answer`, over four topologies at the limits (many ties, metrics to 1,000, a grid, a line), by
# the time that the processor was busy, the least of the rounds each, in turn; what a request that is refused once the topology is there
# takes (reading and building) is taken off. Each certificate is checked by `pair-verify`. It needs Python. The figures hold for the
# machine and the moment alone: no clause speaks of time.
# usage: bench/pair.sh [PROGRAM [ROUNDS]]   (the program that the gate proved and built, and 20, where left out)
set -eu
top=$(cd "$(dirname "$0")/.." && pwd)
program=${1:-$top/crates/pce_main/out/pce_main}
rounds=${2:-20}
[ -x "$program" ] || { echo "pair: no program $program; \`rt ci\` builds it" >&2; exit 2; }
work=$(mktemp -d)
trap 'rm -rf "$work"' EXIT
PYTHONPATH=$top/bench python3 -B - "$(realpath "$program")" "$work" "$rounds" <<'PY'
import os
import sys

from shapes import ENDS, SHAPES, run, write_topology

program, folder, rounds = sys.argv[1], sys.argv[2], int(sys.argv[3])
ASK = lambda number: "0212000c00000000%08x" % number + ENDS
ONE = ("2003001c" + ASK(1) + "\n").encode()
BOTH = ("20030044" + "0b120010000000010000000100000002" + ASK(1) + ASK(2) + "\n").encode()
KINDS = (("reading and building", "answer", b"zz\n"), ("one search", "answer", ONE), ("a pair", "pair", BOTH), ("a pair and its certificate", "pair-certify", BOTH))

for shape in SHAPES:
    write_topology(folder, shape)
    least = [float("inf")] * len(KINDS)
    for _ in range(rounds):
        for at, (what, command, given) in enumerate(KINDS):
            took, status, told = run(folder, [program, command, "limits.txt"], given)
            if at > 0 and status != 0:
                sys.exit("pair: %s, %s: status %d" % (shape, what, status))
            least[at] = min(least[at], took)
    with open(os.path.join(folder, "limits.pair"), "wb") as out:
        out.write(told)
    _, status, verdict = run(folder, [program, "pair-verify", "limits.txt", "limits.pair"], BOTH)
    if status != 0:
        sys.exit("pair: %s: the certificate: %s" % (shape, verdict.decode()))
    read, one, pair, certified = (time * 1000 for time in least)
    print("%s: reading and building %.2f ms; beyond that one search %.2f ms, a pair %.2f ms (%.1f times), with its certificate %.2f ms" % (shape, read, one - read, pair - read, (pair - read) / (one - read), certified - read), flush=True)
PY
