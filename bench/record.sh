#!/bin/sh
# What a record costs a server: requests a second and the processor time of an answer, without a record, with one, and with one on a slow disk,
# whose writes take 50 ms more each, in turn; how many octets of the record's script an answer comes to; and the record's end where it was said. The networks are one domain, and three in a row, of 1 to 3 nodes each; eight clients have
# four requests each under way. The record stands in a folder of its own below TMPDIR. It needs Python and a C compiler. The figures hold for
# the machine and the moment alone: no clause speaks of time.
# usage: bench/record.sh [PROGRAM [SECONDS [ROUNDS]]]   (the program that the gate proved and built, 3 seconds a figure, 5 rounds)
set -eu
top=$(cd "$(dirname "$0")/.." && pwd)
program=${1:-$top/crates/pce_main/out/pce_main}
[ -x "$program" ] || { echo "record: no program $program; \`rt ci\` builds it" >&2; exit 2; }
work=$(mktemp -d)
trap 'rm -rf "$work"' EXIT
cc -O2 -o "$work/load" "$top/bench/plain/load.c"
cc -O2 -shared -fPIC -o "$work/slow.so" "$top/bench/plain/slow.c" -ldl
python3 - "$(realpath "$program")" "$top" "$work" "${2:-3}" "${3:-5}" <<'PY'
import glob
import os
import statistics
import subprocess
import sys
import tempfile
import time

program, top, work, seconds, rounds = sys.argv[1:4] + [float(sys.argv[4]), int(sys.argv[5])]
sys.dont_write_bytecode = True
sys.path.insert(0, os.path.join(top, "tools"))
import servers  # noqa: E402

SESSIONS, WINDOW, WORKERS = 8, 4, 2
SLOW = {"LD_PRELOAD": os.path.join(work, "slow.so"), "SLOW": "50"}
NETWORKS = (("one domain", "one", ["one.txt"], "10.0.0.1 1 10.0.0.1 3", ""),
            ("three domains", "three", ["d1.txt", "d2.txt", "d3.txt"], "10.1.0.1 1 10.3.0.9 1", "1 2 3"))


def served(folder, names, ends, domains, runs, disk=None):
    """Answers a second, processor time of an answer in milliseconds, octets of the script an answer, and what was said of the record."""
    files = []
    for name in names:
        with open(os.path.join(top, "examples", folder, name)) as file:
            files.append((name, file.read()))
    first = servers.free_ports(SESSIONS)
    settings = servers.in_a_row(len(names), [("c%d" % place, 1, "client", first + place) for place in range(SESSIONS)], names, "workers = %d\n" % WORKERS, key_life=1)
    for word in ("PCE_RECORD", *SLOW):
        os.environ.pop(word, None)
    if runs:
        os.environ["PCE_RECORD"] = runs
    os.environ.update(disk or {})
    with servers.Server(program, settings, files) as server:
        for word in SLOW:
            os.environ.pop(word, None)
        time.sleep(1)  # the elements open their sessions
        before = server.busy()
        told = subprocess.run([os.path.join(work, "load"), str(first), str(SESSIONS), str(WINDOW), str(seconds), "0", *ends.split(), *domains.split()],
                              capture_output=True, text=True).stdout.split()
        told = {word: float(value) for word, value in zip(told[::2], told[1::2])}
        busy = server.busy() - before
        time.sleep(0.5)
        said = [line for line in server.told.all if "record ended" in line]
    octets = sum(os.path.getsize(part) for part in glob.glob(os.path.join(runs, "*", "*.play"))) if runs else 0
    return told["rate"], 1000 * busy / told["answers"], octets / told["answers"], said


def middle(rows, place):
    return statistics.median(row[place] for row in rows)


print("| Network | Answers a second without a record | with one | on a slow disk | Processor time of an answer, in ms, without | with | Octets of the script an answer |\n"
      "|---|---|---|---|---|---|---|")
for name, folder, names, ends, domains in NETWORKS:
    without, recorded, slowly = [], [], []
    for _ in range(rounds):
        without.append(served(folder, names, ends, domains, None))
        for rows, disk in (recorded, None), (slowly, SLOW):
            with tempfile.TemporaryDirectory() as runs:
                rows.append(served(folder, names, ends, domains, runs, disk))
    print("| %s | %.0f | %.0f | %.0f | %.4f | %.4f | %.0f |" % (
        name, middle(without, 0), middle(recorded, 0), middle(slowly, 0), middle(without, 1), middle(recorded, 1), middle(recorded, 2)), flush=True)
    for line in sorted({line for row in recorded + slowly for line in row[3]}):
        print("record:", line)
PY
