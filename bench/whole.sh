#!/bin/sh
# Whole runs beside plain programs in C, by the time that the processor was busy, the least of the rounds each, both in turn: `answer` over
# four topologies at the limits (many ties, metrics to 1,000, a grid, a line), whose replies have to be the same octets; and `play` of
# 100,000 lines beside a reader of the same lines, which does nothing that they ask for: ticks, and requests in one domain of three nodes.
# It needs Python. The figures hold for the machine and the moment alone: no clause speaks of time.
# usage: bench/whole.sh [PROGRAM [ROUNDS]]   (the program that the gate proved and built, and 20, where left out)
set -eu
top=$(cd "$(dirname "$0")/.." && pwd)
program=${1:-$top/crates/pce_main/out/pce_main}
rounds=${2:-20}
[ -x "$program" ] || { echo "whole: no program $program; \`rt ci\` builds it" >&2; exit 2; }
work=$(mktemp -d)
trap 'rm -rf "$work"' EXIT
cc -O2 -o "$work/answer" "$top/bench/plain/answer.c"
cc -O2 -o "$work/lines" "$top/bench/plain/lines.c"
cp "$top/examples/one/one.txt" "$work/"
PYTHONPATH=$top/bench python3 -B - "$(realpath "$program")" "$work" "$rounds" <<'PY'
import os
import sys

from shapes import ENDS, SHAPES, run, write_topology

program, folder, rounds = sys.argv[1], sys.argv[2], int(sys.argv[3])
REQUEST = b"2003001c0212000c0000000000000001" + ENDS.encode() + b"\n"
HELLO = "2001000c011000082000000120020004"  # an Open without timers, and a Keepalive


def compare(what, ours, plain, given, same):
    least = [float("inf"), float("inf")]
    for _ in range(rounds):
        (one, status, told), (other, beside_status, beside) = run(folder, ours, given), run(folder, plain, given)
        if status != 0 or beside_status != 0:
            sys.exit("whole: %s: status %d, beside %d" % (what, status, beside_status))
        if same and told != beside:
            sys.exit("whole: %s: the answers differ" % what)
        least = [min(least[0], one), min(least[1], other)]
    print("%s: %.2f ms, beside %.2f ms: %.2f times" % (what, least[0] * 1000, least[1] * 1000, least[0] / least[1]), flush=True)


for shape in SHAPES:
    write_topology(folder, shape)
    compare("answer, " + shape, [program, "answer", "limits.txt"], ["./answer", "limits.txt"], REQUEST, True)
with open(os.path.join(folder, "net.toml"), "w") as out:
    out.write('[[element]]\nas = 1\nid = "192.0.2.1"\n\n[[peer]]\nname = "c0"\nas = 1\nclass = "client"\n')
begin = ["load 1 one.txt", "settle", "open c0 1", "feed c0 " + HELLO, "drain c0 1"]
ask = "feed c0 2003001c0212000c00000000%08x0412000c0a0000010a000003"
ticks = ["tick %d" % n for n in range(1, 100001)]
asks = [line for n in range(1, 33334) for line in (ask % n, "finish", "drain c0 1")]
for what, lines in (("ticks", ticks), ("requests", asks)):
    compare("play of 100,000 lines, " + what, [program, "play", "net.toml"], ["./lines"], "".join(line + "\n" for line in begin + lines).encode(), False)
PY
