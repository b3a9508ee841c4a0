#!/bin/sh
# What a running server does, as its clients see it, beside a plain threaded server in C (bench/plain/serve.c) that searches the same topologies:
# the time from a request to its reply for one client that asks one at a time, with the processor time of an answer in the busiest thread (where
# searches take most of it, that is the search); requests a second by sessions and by workers, four requests of each session under way at a time,
# with the processor time of an answer; memory with 256 sessions; and how long the processor is busy while 256 sessions of 16 elements are silent.
# The networks: one domain of 3 nodes; one at the limits, 1,024 nodes and 8,192 links, between drawn nodes (so most searches are new to the caches),
# and to one of 16 nodes (so most are not); and three domains in a row, of 1 to 3 nodes each, and each at the limits with 16 links to the next. A key
# lives for one second there, since an element has 8,192 of them. Clients (bench/plain/load.c) and server share the machine. It needs Python
# and a C compiler. The figures hold for the machine and the moment alone: no clause speaks of time.
# usage: bench/serve.sh [PROGRAM [SECONDS [PART ..]]]   (the program that the gate proved and built, 3 seconds a figure, and all parts: times
#                                                       rates memory idle)
set -eu
top=$(cd "$(dirname "$0")/.." && pwd)
program=${1:-$top/crates/pce_main/out/pce_main}
seconds=${2:-3}
[ $# -lt 1 ] || shift
[ $# -lt 1 ] || shift
[ -x "$program" ] || { echo "serve: no program $program; \`rt ci\` builds it" >&2; exit 2; }
work=$(mktemp -d)
trap 'rm -rf "$work"' EXIT
cc -O2 -pthread -o "$work/plain" "$top/bench/plain/serve.c"
cc -O2 -o "$work/load" "$top/bench/plain/load.c"
python3 - "$(realpath "$program")" "$top" "$work" "$seconds" "$@" <<'PY'
import collections
import os
import subprocess
import sys
import time

program, top, work, seconds = sys.argv[1:4] + [float(sys.argv[4])]
parts = sys.argv[5:] or ["times", "rates", "memory", "idle"]
sys.dont_write_bytecode = True
sys.path.insert(0, os.path.join(top, "tools"))
import servers  # noqa: E402

NODES, LINKS, WAYS = 1024, 8192, 16
SESSIONS, WORKERS = (1, 8, 64, 256), (1, 2, 4)
WINDOW = 4
Network = collections.namedtuple("Network", "name elements files ends domains")


def drawn(n):
    a = (n ^ 61) ^ (n >> 16)
    b = a * 9 & 0xFFFFFFFF
    c = (b ^ (b >> 4)) * 0x27D4EB2D & 0xFFFFFFFF
    return c ^ (c >> 15)


def address(first, n):
    return "%d.%d.%d.%d" % (first, n >> 16, n >> 8 & 255, n & 255)


def at_the_limits(domain, count):
    """A topology of 1,024 nodes and 8,192 links by the rule of bench/search.sh, with links to the next domain and entries from the one before."""
    lines = ["topology %d" % domain] + ["node " + address(10 + domain, n) for n in range(NODES)]
    for n in range(LINKS):
        begin = n // 8
        end = drawn(n) % NODES
        if n % 8 == 0 or end == begin:
            end = (begin + 1) % NODES
        lines.append("link %s %s %s %s 1 %d 1000000 00000000" % (address(10 + domain, begin), address(10 + domain, end), address(40 + domain, n),
                                                              address(80 + domain, n), 1 + drawn(n + 77) % 1000))
    for way in range(WAYS if domain < count else 0):
        lines.append("out %s %s %s %s %d 1 %d 1000000 00000000" % (address(10 + domain, 60 * way + 7), address(11 + domain, 60 * way), address(120 + domain, way),
                                                                   address(160 + domain, way), domain + 1, 1 + drawn(way) % 100))
    lines += ["entry %s %d" % (address(10 + domain, 60 * way), domain - 1) for way in range(WAYS if domain > 1 else 0)]
    return "".join(line + "\n" for line in lines)


def stored(*names):
    with open(os.path.join(top, "examples", *names)) as file:
        return file.read()


def networks():
    large = [at_the_limits(domain, 3) for domain in (1, 2, 3)]
    alone = [at_the_limits(1, 1)]
    small = [stored("three", name) for name in ("d1.txt", "d2.txt", "d3.txt")]
    return [Network("one domain, 3 nodes", 1, [stored("one", "one.txt")], "10.0.0.1 1 10.0.0.1 3", ""),
            Network("one domain at the limits", 1, alone, "11.0.0.0 1024 11.0.0.0 1024", ""),
            Network("the same, to 16 nodes", 1, alone, "11.0.0.0 1024 11.0.0.0 16", ""),
            Network("three domains, 1 to 3 nodes", 3, small, "10.1.0.1 1 10.3.0.9 1", "1 2 3"),
            Network("three domains at the limits", 3, large, "11.0.0.0 1024 13.0.0.0 1024", "1 2 3")]


def names_of(network):
    return ["t%d.txt" % place for place in range(1, network.elements + 1)]


class Plain:
    """The plain server over the same topologies."""

    def __init__(self, network, sessions):
        for name, text in zip(names_of(network), network.files):
            with open(os.path.join(work, name), "w") as file:
                file.write(text)
        self.first = servers.free_ports(sessions)
        self.process = subprocess.Popen([os.path.join(work, "plain"), str(self.first), str(sessions), *(os.path.join(work, name) for name in names_of(network))],
                                        stdout=subprocess.PIPE, preexec_fn=servers.bound_to_parent)
        self.process.stdout.readline()

    def __enter__(self):
        return self

    def __exit__(self, *_):
        self.process.kill()
        self.process.wait()


class Proved(servers.Server):
    """The server, with so many peers, each at the first element or at one element after the other."""

    def __init__(self, network, sessions, workers, spread=1):
        self.first = servers.free_ports(sessions)
        peers = [("c%d" % place, place % spread + 1, "client", self.first + place) for place in range(sessions)]
        settings = servers.in_a_row(max(network.elements, spread), peers, names_of(network), "workers = %d\n" % workers, key_life=1)
        super().__init__(program, settings, list(zip(names_of(network), network.files)), within=60)
        time.sleep(1)  # the elements open their sessions


def load(first, sessions, window, network, count=0, during=seconds):
    done = subprocess.run([os.path.join(work, "load"), str(first), str(sessions), str(window), str(during), str(count), *network.ends.split(), *network.domains.split()],
                          capture_output=True, text=True)
    words = done.stdout.split()
    if done.returncode != 0:
        return None
    return {word: float(value) for word, value in zip(words[::2], words[1::2])}


def loaded(server, sessions, network, window=WINDOW, count=0, during=seconds):
    """What a load comes to, and how long the server's threads were busy: all together, and the busiest of them."""
    before = servers.Server.threads(server)
    told = load(server.first, sessions, window, network, count, during)
    if told:
        each = [busy - before.get(thread, (0, 0))[0] for thread, (busy, _) in servers.Server.threads(server).items()]
        told["busy"], told["busiest"] = sum(each), max(each)
    return told


def alone(told):
    if not told or not told["answers"]:
        return "failed"
    return "%.3f, %.3f; %.3f" % (told["median"] / 1000, told["p99"] / 1000, 1000 * told["busiest"] / told["answers"])


def rate(told):
    if not told or not told["answers"]:
        return "failed"
    lost = told["answers"] - told["paths"]
    return "%.0f, %.3f ms" % (told["rate"], 1000 * told["busy"] / told["answers"]) + (" (%.0f without a path)" % lost if lost else "")


def times(network):
    """One client, one request at a time."""
    row = []
    with Plain(network, 1) as plain:
        row.append(loaded(plain, 1, network, 1, 100, 60))
    for workers in WORKERS:
        with Proved(network, 1, workers) as proved:
            row.append(loaded(proved, 1, network, 1, 100, 60))
    print("| %s | %s |" % (network.name, " | ".join(map(alone, row))), flush=True)


def rates(network):
    """Requests a second."""
    rows = [("plain", [])] + [("%d" % workers, []) for workers in WORKERS]
    for sessions in SESSIONS:
        with Plain(network, sessions) as plain:
            rows[0][1].append(loaded(plain, sessions, network))
    for place, workers in enumerate(WORKERS, 1):
        for sessions in SESSIONS:
            with Proved(network, sessions, workers) as proved:
                rows[place][1].append(loaded(proved, sessions, network))
    for name, told in rows:
        print("| %s | %s | %s |" % (network.name, name, " | ".join(map(rate, told))), flush=True)


def heading(*words):
    print("\n| %s |\n|%s" % (" | ".join(words), "---|" * len(words)), flush=True)


known = networks()
if "times" in parts:
    heading("One at a time: median, 99th of 100; busiest thread an answer, in ms", "plain", *("%d workers" % workers for workers in WORKERS))
    for network in known:
        times(network)
if "rates" in parts:
    heading("Requests a second, processor time of an answer", "workers", *("%d sessions" % sessions for sessions in SESSIONS))
    for network in known:
        rates(network)
if "memory" in parts:
    for network in known[1], known[4]:
        with Proved(network, 256, 4) as proved:
            before = proved.most_memory()
            told = load(proved.first, 256, 1, network, 64, 60)
            print("\nmemory, %s, 4 workers, 256 sessions: %.0f MB at the start, %.0f MB at the most after %d answers" % (
                network.name, before, proved.most_memory(), told["answers"] if told else 0), flush=True)
if "idle" in parts:
    for sessions in (0, 256):
        with Proved(known[3], 256, 2, spread=16) as proved:
            held = subprocess.Popen([os.path.join(work, "load"), str(proved.first), str(sessions), "0", "25", "0", *known[3].ends.split()], stdout=subprocess.DEVNULL) if sessions else None
            time.sleep(3)
            before, began = proved.busy(), time.monotonic()
            time.sleep(20)
            share = (proved.busy() - before) / (time.monotonic() - began)
            print("idle, 16 elements, 2 workers, %d silent sessions: %.2f in 100 of one processor" % (sessions, 100 * share), flush=True)
            if held:
                held.kill()
                held.wait()
PY
