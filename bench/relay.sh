#!/bin/sh
# What a chain of programs costs: 1, 2, 4, 8 and 16 domains in a row, each in a program of its own that dials the next one; the same joined by
# relays of TCP (bench/plain/relay.c); and beside both one program that holds all of them. A client of the first asks for paths through all: the
# time from a request to its reply for one request at a time; requests a second, with the processor time of an answer in all programs together,
# with 64 requests of one client under way, and with 64 of each of 8 clients, there with the longest time without an answer; how long after that the
# programs are still (each busy for less than a hundredth of a processor), and how busy they are then, when nobody asks. Behind the table come
# octets of one request and of its reply, as the relays count them, and what a program takes by itself, by its peers. A domain has two nodes, so
# hardly any time goes into searches. With a delay there are the rows with relays alone: each hands on what comes that much later, each way, as a
# long line does. A key lives for one second. Programs, relays and clients share the machine; the load is told. It needs Python and a C compiler.
# The figures hold for the machine and the moment alone: no clause speaks of time.
# usage: bench/relay.sh [PROGRAM [SECONDS [DELAY]]]   (the program that the gate proved and built, 3 seconds a figure, and a delay of 0 milliseconds)
set -eu
top=$(cd "$(dirname "$0")/.." && pwd)
program=${1:-$top/crates/pce_main/out/pce_main}
[ -x "$program" ] || { echo "relay: no program $program; \`rt ci\` builds it" >&2; exit 2; }
work=$(mktemp -d)
trap 'rm -rf "$work"' EXIT
cc -O2 -o "$work/relay" "$top/bench/plain/relay.c"
cc -O2 -o "$work/load" "$top/bench/plain/load.c"
python3 - "$(realpath "$program")" "$top" "$work" "${2:-3}" "${3:-0}" <<'PY'
import os
import subprocess
import sys
import time

program, top, work, seconds, delay = sys.argv[1:4] + [float(word) for word in sys.argv[4:6]]
sys.dont_write_bytecode = True
sys.path.insert(0, os.path.join(top, "tools"))
import messages  # noqa: E402
import servers  # noqa: E402
from sessions import Session  # noqa: E402

COUNTS, CLIENTS = (1, 2, 4, 8, 16), 8
ONE, DIALLED, RELAYED = "one program", "%d programs that dial each other", "%d programs joined by relays"
ALONE = 50  # requests, one at a time
PEERS = ((2, "a port each"), (256, "a port each"), (256, "one port"))  # of a program by itself


def topology(domain, count):
    """Two nodes and a link between them; paths come in at the first and go on from the second."""
    lines = ["topology %d" % domain, "node 10.%d.0.1" % domain, "node 10.%d.0.2" % domain,
             "link 10.%d.0.1 10.%d.0.2 10.%d.1.1 10.%d.1.2 1 1 1000 00000000" % (domain, domain, domain, domain)]
    if domain < count:
        lines.append("out 10.%d.0.2 10.%d.0.1 10.%d.2.1 10.%d.2.2 %d 1 1 1000 00000000" % (domain, domain + 1, domain, domain, domain + 1))
    if domain > 1:
        lines.append("entry 10.%d.0.1 %d" % (domain, domain - 1))
    return "".join(line + "\n" for line in lines)


def neighbour(at, domain, port, **more):
    return dict({"name": "n%d" % domain, "as": at, "class": "neighbour", "neighbour": domain, "down": True, "port": port}, **more)


def client(place, port):
    return {"name": "c%d" % place, "as": 1, "class": "client", "port": port}


class Chain:
    """So many domains: each in a program of its own, joined in this way, or all in one."""

    def __init__(self, count, how):
        self.first, self.count, self.relay, self.programs = servers.free_ports(CLIENTS + 2 * count), count, None, []
        clients = [client(place, self.first + place) for place in range(CLIENTS)]
        if how == ONE:
            settings = servers.in_a_row(count, [], ["t%d.txt" % at for at in range(1, count + 1)], key_life=1)
            self.start(settings + servers.rows("peer", *clients), range(1, count + 1))
            time.sleep(1)  # the elements open their sessions
            return
        for at in range(count, 0, -1):  # who is dialled is there first
            element = {"as": at, "id": "192.0.2.%d" % at, "topology": "t%d.txt" % at, "key_life": 1}
            peers = (clients if at == 1 else []) + self.neighbours(at, how)
            self.start(servers.rows("element", element) + servers.rows("peer", *peers), [at])
        if how == RELAYED and count > 1:
            pairs = [str(self.port(at, end)) for at in range(1, count) for end in (0, 1)]
            self.relay = subprocess.Popen([os.path.join(work, "relay"), "%d" % (delay * 1000), *pairs], stdin=subprocess.PIPE, stdout=subprocess.PIPE,
                                          preexec_fn=servers.bound_to_parent)
        self.wait()

    def neighbours(self, at, how):
        """Of a domain in a program of its own: the one before, which is heard at the far end's port, and the one behind."""
        heard, dials = ({"from": servers.HOST}, {"connect": servers.HOST}) if how == DIALLED else ({}, {})
        before = [neighbour(at, at - 1, self.port(at - 1, 1), **heard)] if at > 1 else []
        behind = [neighbour(at, at + 1, self.port(at, 1 if how == DIALLED else 0), **dials)] if at < self.count else []
        return before + behind

    def port(self, at, end):
        """The port of the near end of the line behind a domain, or of the far end."""
        return self.first + CLIENTS + 2 * at + end

    def start(self, settings, domains):
        self.programs.append(servers.Server(program, settings, [("t%d.txt" % at, topology(at, self.count)) for at in domains], within=60))

    def wait(self):
        """Waits until requests get through."""
        until = time.monotonic() + 30
        with Session(servers.HOST, self.first) as asker:
            asker.begin()
            for ident in range(1, 1000):
                reply = messages.read(asker.ask(messages.request_of(ident, "10.1.0.1", "10.%d.0.2" % self.count, range(1, self.count + 1))))
                if messages.first_body(reply.objects, "METRIC"):
                    return
                if time.monotonic() > until:
                    sys.exit("relay: no request gets through %d programs" % self.count)
                time.sleep(0.1)

    def busy(self):
        return sum(server.busy() for server in self.programs)

    def load(self, sessions, window, during=seconds, count=0):
        """What a load comes to, with the processor seconds of all programs."""
        before = self.busy()
        words = [self.first, sessions, window, during, count, "10.1.0.1", 1, "10.%d.0.2" % self.count, 1, *range(1, self.count + 1)]
        done = subprocess.run([os.path.join(work, "load"), *map(str, words)], capture_output=True, text=True)
        if done.returncode != 0:
            return None
        words = done.stdout.split()
        told = {word: float(value) for word, value in zip(words[::2], words[1::2])}
        return dict(told, busy=self.busy() - before)

    def counted(self):
        """What went over each relay since the last time: (requests, octets, replies, octets) of both directions together."""
        if not self.relay:
            return []
        self.relay.stdin.write(b"\n")
        self.relay.stdin.flush()
        lines = [[int(word) for word in self.relay.stdout.readline().split()[1::2]] for _ in range(2 * (self.count - 1))]
        return [[one + other for one, other in zip(*lines[at:at + 2])][:4] for at in range(0, len(lines), 2)]

    def __enter__(self):
        return self

    def __exit__(self, *_):
        if self.relay:
            self.relay.kill()
            self.relay.wait()
        for server in self.programs:
            server.__exit__()


def alone(told):
    return "%.2f, %.2f" % (told["median"] / 1000, told["p99"] / 1000) if told else "failed"


def rate(told):
    if not told or not told["answers"]:
        return "no answers" if told else "failed"
    lost = told["answers"] - told["paths"]
    return "{:,.0f}; {:.3f}".format(told["rate"], 1000 * told["busy"] / told["answers"]) + (" (%.0f without a path)" % lost if lost else "")


def flooded(told):
    return "%s; %.0f" % (rate(told), told["gap"] / 1000) if told else rate(told)


def octets(chain, answers):
    """Octets of one request and of its reply on the first relay and on the last, as they were counted; the client leaves one behind, under way."""
    counted = chain.counted()
    for requests, asked, replies, told in counted:
        if not answers <= replies <= requests <= answers + 1 or asked % requests or told % replies:
            return "other than one request and one reply each: %s" % counted
    each = [(asked // requests, told // replies) for requests, asked, replies, told in counted]
    return "%d and %d on the first relay, %d and %d on the last, in all %d" % (*each[0], *each[-1], sum(map(sum, each)))


def share(busy, during=3):
    """How busy that is for so many seconds, in 100 of a processor."""
    before, began = busy(), time.monotonic()
    time.sleep(during)
    return 100 * (busy() - before) / (time.monotonic() - began)


def idle(chain, within=30):
    """How long until the programs are still, and how busy they are then."""
    began = time.monotonic()
    while share(chain.busy, 0.5) >= len(chain.programs):
        if time.monotonic() - began > within:
            return "not in %d; %.1f" % (within, share(chain.busy))
    return "%.1f; %.1f" % (time.monotonic() - began - 0.5, share(chain.busy))


def by_itself(count, where):
    """What a program of one domain takes while nobody asks."""
    first = servers.free_ports(count)
    peers = [dict(client(place, first), **{"from": "127.0.1.%d" % place}) if where == "one port" else client(place, first + place) for place in range(count)]
    settings = servers.rows("element", {"as": 1, "id": "192.0.2.1", "topology": "t1.txt"}) + servers.rows("peer", *peers)
    with servers.Server(program, settings, [("t1.txt", topology(1, 1))], within=60) as server:
        time.sleep(1)
        return "%d threads, %.1f megabytes, %.2f in 100 of a processor" % (len(server.threads()), server.most_memory(), share(server.busy))


def row(count, how, shown):
    with Chain(count, how) as chain:
        chain.counted()
        one = chain.load(1, 1, 120, ALONE)
        if how == RELAYED:
            counts[count] = octets(chain, one["answers"] if one else 0)
        words = [alone(one), rate(chain.load(1, 64)), flooded(chain.load(CLIENTS, 64)), idle(chain)]
        print("| %s | %s | %s |" % (shown, "" if count == 1 else "in " + how.replace("%d", str(count)), " | ".join(words)), flush=True)


print("load %s, %d processors, a delay of %g ms on each relay" % (" ".join(open("/proc/loadavg").read().split()[:3]), os.cpu_count(), delay))
heading = ["Domains", "", "One at a time: median, 99th of %d, in ms" % ALONE, "64 of one client: a second; processor of an answer, in ms",
           "64 of each of %d clients; longest without an answer, in ms" % CLIENTS, "Still after, in s; idle, in 100 of a processor"]
print("\n| %s |\n|%s" % (" | ".join(heading), "---|" * len(heading)), flush=True)
counts = {}
for count in COUNTS:
    ways = [ONE] if count == 1 else [RELAYED] if delay else [DIALLED, RELAYED, ONE]
    for how in ways:
        row(count, how, count if how == ways[0] else "")
print("\nA request and its reply, in octets:")
for count, told in counts.items():
    print("%d domains: %s" % (count, told))
if not delay:
    print("\nA program by itself:")
    for many, where in PEERS:
        print("%d peers at %s: %s" % (many, where, by_itself(many, where)), flush=True)
print("\nload %s" % " ".join(open("/proc/loadavg").read().split()[:3]))
PY
