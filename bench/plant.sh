#!/bin/sh
# How many events a network does in a second, at 1, 4 and 16 elements in a row: a client feeds requests that are taken; requests are
# answered in one domain, and through three domains, and handed out to the client; ticks come over 256 outside peers whose sessions are
# up. `play` runs a script with the events and the same without them; the difference of the times that the processor was busy is told, the
# least of the rounds each. Reading the script, telling the transcript and writing it are in the figures. The requests that are only taken
# are 1,000, since an element keeps at most 1,024; those through three domains 4,000, since each takes two keys of the 8,192.
# It needs Python. The figures hold for the machine and the moment alone: no clause speaks of time.
# usage: bench/plant.sh [PROGRAM [ROUNDS]]   (the program that the gate proved and built, and 5, where left out)
set -eu
top=$(cd "$(dirname "$0")/.." && pwd)
program=${1:-$top/crates/pce_main/out/pce_main}
rounds=${2:-5}
[ -x "$program" ] || { echo "plant: no program $program; \`rt ci\` builds it" >&2; exit 2; }
exec python3 - "$(realpath "$program")" "$top/examples" "$rounds" <<'PY'
import os
import re
import resource
import shutil
import subprocess
import sys
import tempfile

program, examples, rounds = sys.argv[1], sys.argv[2], int(sys.argv[3])
folder = tempfile.mkdtemp()
for name in ("three/d1.txt", "three/d2.txt", "three/d3.txt", "one/one.txt"):
    shutil.copy(os.path.join(examples, name), folder)

HELLO = "2001000c01100008200000012002" + "0004"  # an Open without timers, and a Keepalive


def near(number):
    """From 10.0.0.1 to 10.0.0.3."""
    return "2003001c0212000c00000000%08x0412000c0a0000010a000003" % number


def far(number):
    """From 10.1.0.1 to 10.3.0.9 through domains 1, 2 and 3."""
    return "2003002c0212000c00000000%08x0412000c0a0100010a0300090a120010200400012004000220040003" % number


def settings(elements, peers):
    """Elements in a row, and clients that go round them."""
    text = "".join('[[element]]\nas = %d\nid = "192.0.2.%d"\n' % (at, at) for at in range(1, elements + 1))
    text += "".join("[[link]]\na = %d\nb = %d\n" % (at, at + 1) for at in range(1, elements))
    text += "".join('[[peer]]\nname = "c%d"\nas = %d\nclass = "client"\n' % (peer, peer % elements + 1) for peer in range(peers))
    return text


def begin(peers):
    return ["settle"] + [line for peer in range(peers) for line in ("open c%d 1" % peer, "feed c%d %s" % (peer, HELLO), "drain c%d 1" % peer)]


def busy(script):
    """The least processor time of the rounds, in seconds, and the transcript."""
    least = None
    for _ in range(rounds):
        before = resource.getrusage(resource.RUSAGE_CHILDREN)
        done = subprocess.run([program, "play", "net.toml"], input="".join(line + "\n" for line in script).encode(), capture_output=True, cwd=folder)
        after = resource.getrusage(resource.RUSAGE_CHILDREN)
        if done.returncode != 0:
            sys.exit("plant: status %d: %s" % (done.returncode, done.stderr.decode()))
        took = after.ru_utime + after.ru_stime - before.ru_utime - before.ru_stime
        least = took if least is None else min(least, took)
    return least, done.stdout.decode().splitlines()


def events_of(lines):
    """How many events a transcript tells: each feed, take, carry and solve, and each line that is an event."""
    return sum(1 for line in lines if re.match(r"[0-9]+ (take|carry|solve|ok|refused)", line))


def measure(what, elements, peers, first, then):
    """The events of the lines behind the first ones."""
    with open(os.path.join(folder, "net.toml"), "w") as out:
        out.write(settings(elements, peers))
    without, told_first = busy(first)
    together, told = busy(first + then)
    if any(" refused" in line for line in told):
        sys.exit("plant: refused: " + next(line for line in told if " refused" in line))
    # settle and finish are lines, but no events of their own
    events = events_of(told) - events_of(told_first) - sum(1 for line in then if line in ("settle", "finish"))
    took = max(together - without, 1e-6)
    print("%d elements, %s: %d events in %.0f ms, %.0f a second" % (elements, what, events, took * 1000, events / took), flush=True)


try:
    for elements in (1, 4, 16):
        alone = ["load 1 one.txt"] + begin(1)
        measure("requests fed and taken", elements, 1, alone, ["feed c0 " + near(n) for n in range(1, 1001)])
        lines = [line for n in range(1, 4001) for line in ("feed c0 " + near(n), "finish", "drain c0 1")]
        measure("requests answered in one domain", elements, 1, alone, lines)
        if elements >= 3:
            row = ["load 1 d1.txt", "load 2 d2.txt", "load 3 d3.txt"] + begin(1)
            lines = [line for n in range(1, 4001) for line in ("feed c0 " + far(n), "finish", "drain c0 1")]
            measure("requests answered through three domains", elements, 1, row, lines)
        measure("ticks over 256 peers", elements, 256, begin(256), ["tick %d" % n for n in range(1, 10001)])
finally:
    shutil.rmtree(folder)
PY
