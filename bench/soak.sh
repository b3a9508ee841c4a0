#!/bin/sh
# A server under load for long: 16 elements in a row, 64 clients that ask one request behind the other through three domains, topologies that
# change every second, and every ten seconds a client whose connection is reset with a request under way, and which comes again. Each request
# has to be answered once, by a path whose cost one of the topologies gives, and no key may stand in two answers within its life; memory has to
# stay as it was after the first tenth of the time. It tells what was answered and how much memory there was, once a minute and at the end, with
# what the server and these clients took of a processor and how busy the machine was; the status is 0 where nothing was wrong. It needs Python.
# It stands outside the gate. With --all there are beside them (bench/beside.py) twenty peers of all classes at one port, a neighbour that paths go on
# through, which comes and goes, a chain of four programs that dial each other, with loads of their own, and a server whose keys and pending requests are
# at their limits all the time. Each of the six servers writes a record, is stopped at the end, and plays it: it hands out, octet for octet, what came.
# usage: bench/soak.sh [PROGRAM [MINUTES]] [--all] [--records FOLDER] [--life TICKS] [--pause SECONDS] [--held] [--harm PEERS] [--without asks|loads|resets ..]
#   (the program that the gate proved and built, 30 minutes, keys that live for 5 ticks, a pause of up to 0.3 seconds before each request, and
#    nothing left out; without a part it shows what memory does by the others alone. With --harm so many further clients do what nobody should,
#    meanwhile: octets at random, messages that drip, answers that are not read, resets, guesses of keys, forged replies, long lists. Records stand below
#    FOLDER, where one is given, and stay; else in a folder that goes. With --held, which needs a C compiler, it tells too what the program holds of the
#    memory that it has: blocks that were taken and not given back. MALLOC_ARENA_MAX=1 before it has all threads share one pool of memory)
set -eu
top=$(cd "$(dirname "$0")/.." && pwd)
exec python3 - "$top" "$@" <<'PY'
import argparse
import os
import random
import resource
import socket
import struct
import subprocess
import sys
import tempfile
import threading
import time

top = sys.argv.pop(1)
says = argparse.ArgumentParser()
says.add_argument("program", nargs="?", default=os.path.join(top, "crates/pce_main/out/pce_main"))
says.add_argument("minutes", nargs="?", type=float, default=30)
says.add_argument("--life", type=int, default=5)
says.add_argument("--pause", type=float, default=0.3)
says.add_argument("--held", action="store_true")
says.add_argument("--all", action="store_true")
says.add_argument("--records")
says.add_argument("--harm", type=int, default=0)
says.add_argument("--without", nargs="*", default=[], choices=("asks", "loads", "resets"))
given = says.parse_args()
program, minutes, LIFE = os.path.abspath(given.program), given.minutes, given.life
if not os.access(program, os.X_OK):
    sys.exit("soak: no program %s; `rt ci` builds it" % program)
sys.dont_write_bytecode = True
sys.path[:0] = [os.path.join(top, "tools"), os.path.join(top, "bench")]
import beside  # noqa: E402
import messages  # noqa: E402
import records  # noqa: E402
import servers  # noqa: E402
from sessions import Ended, Session, Silent  # noqa: E402

ELEMENTS, CLIENTS = 16, 64
COSTS = (5, 40)  # of the one link inside a domain, in its two topologies
wrong, lock = [], threading.Lock()


def topology(domain, cost):
    """Two nodes with a link between them, an entry at the first, and a link from the second to the next domain."""
    lines = ["topology %d" % domain, "node 10.%d.0.1" % domain, "node 10.%d.0.2" % domain,
             "link 10.%d.0.1 10.%d.0.2 10.%d.1.1 10.%d.1.2 1 %d 1000 00000000" % (domain, domain, domain, domain, cost)]
    if domain < ELEMENTS or given.all:
        lines.append("out 10.%d.0.2 10.%d.0.1 10.%d.2.1 10.%d.2.2 %d 1 1 1000 00000000" % (domain, domain + 1, domain, domain, domain + 1))
    if domain > 1:
        lines.append("entry 10.%d.0.1 %d" % (domain, domain - 1))
    if given.all:
        lines.append("entry 10.%d.0.1 %d" % (domain, beside.FAR))
    return "".join(line + "\n" for line in lines)


def differs(text):
    with lock:
        wrong.append(text)
    print("soak: %s" % text, flush=True)


def opened(port, within):
    """A connection, of which what comes is kept where there is a record."""
    return records.KeptSession(came, "127.0.0.1", port, within) if came else Session("127.0.0.1", port, within)


class Client(threading.Thread):
    """Asks, and looks at each answer."""

    def __init__(self, place, port, keys):
        super().__init__(daemon=True)
        self.place, self.port, self.keys = place, port, keys
        self.domains = [place % (ELEMENTS - 2) + 1 + step for step in range(3)]
        self.answered = self.refused = self.resets = 0
        self.reset = threading.Event()

    def run(self):
        number = 0
        while time.monotonic() < end:
            try:
                with opened(self.port, 60) as session:
                    session.begin()
                    number = self.talk(session, number)
            except (Silent, Ended, OSError) as fault:
                differs("client %d, request %d: %s" % (self.place, number, fault))
                time.sleep(1)

    def talk(self, session, number):
        while time.monotonic() < end:
            number += 1
            first, last = self.domains[0], self.domains[-1]
            session.send(messages.request_of(number, "10.%d.0.1" % first, "10.%d.0.2" % last, self.domains))
            if self.reset.is_set():
                self.reset.clear()
                self.resets += 1
                session.socket.setsockopt(socket.SOL_SOCKET, socket.SO_LINGER, struct.pack("ii", 1, 0))
                return number
            self.look_at(session.answer(), number)
            session.heard.clear()
            time.sleep(given.pause * random.random())
        session.socket.settimeout(0.2)
        try:
            session.receive(time.monotonic() + 0.2)
        except (Silent, Ended):
            pass
        if any(octets[1] == messages.REPLY for octets in session.waiting):
            differs("client %d is answered once more than it asked" % self.place)
        return number

    def look_at(self, reply, number):
        message = messages.read(reply)
        if messages.first_body(message.objects, "RP")["id"] != number:
            differs("client %d: the answer to %d is %s" % (self.place, number, reply.hex()))
        metric = messages.first_body(message.objects, "METRIC")
        if metric is None:
            self.refused += 1
            if messages.first_body(message.objects, "NOTIFICATION") != {"type": 1, "value": 2}:
                differs("client %d: no path: %s" % (self.place, reply.hex()))
            return
        self.answered += 1
        if metric["value"] - 2 not in {a + b + c for a in COSTS for b in COSTS for c in COSTS}:
            differs("client %d: the cost is %s" % (self.place, metric["value"]))
        now = time.monotonic()
        for hop in messages.first_body(message.objects, "ERO")["hops"]:
            if hop.kind == "key":
                with lock:
                    if now - self.keys.get(hop.value, -LIFE) < LIFE - 2:
                        differs("key %d at %s is issued twice within its life" % hop.value)
                    self.keys[hop.value] = now


class Harm(threading.Thread):
    """Does what nobody should, in one way behind the other, each over a connection of its own."""

    def __init__(self, place, port):
        super().__init__(daemon=True)
        self.port, self.at, self.draws, self.done = port, place % ELEMENTS + 1, random.Random(place), 0

    def run(self):
        ways = (self.say_anything, self.drip, self.never_read, self.go, self.guess, self.forge, self.name_many)
        while time.monotonic() < end:
            try:
                with opened(self.port, 2) as session:
                    self.draws.choice(ways)(session)
            except (Silent, Ended, OSError):
                pass
            self.done += 1
            time.sleep(0.05)

    def number(self):
        return self.draws.randrange(1, 2**32)

    def say_anything(self, session):
        session.send(self.draws.randbytes(self.draws.randrange(1, 4096)))
        session.rest(1)

    def drip(self, session):
        session.begin()
        for octet in self.expansion():
            session.send(bytes([octet]))
            time.sleep(0.01)

    def never_read(self, session):
        session.begin().send(*(self.expansion() for _ in range(5000)))
        time.sleep(1)

    def go(self, session):
        session.begin().send(self.expansion()[:self.draws.randrange(1, 20)])
        session.socket.setsockopt(socket.SOL_SOCKET, socket.SO_LINGER, struct.pack("ii", 1, 0))

    def guess(self, session):
        session.begin()
        for _ in range(50):
            session.ask(self.expansion())

    def forge(self, session):
        session.begin().send(*(messages.message_of(messages.REPLY, messages.parameters_of(self.number()), messages.object_of(3, 1, bytes(4))) for _ in range(100)))
        session.rest(0.5)

    def name_many(self, session):
        first = self.draws.randrange(1, 2**31)
        session.begin().send(messages.message_of(5, *map(messages.parameters_of, range(first, first + 5000)), messages.object_of(12, 1, bytes([0, 0, 1, 1]))))
        session.rest(0.5)

    def expansion(self):
        return messages.expansion_of(self.number(), self.draws.randrange(2**16), "192.0.2.%d" % self.at)


def memory_now(server):
    with open("/proc/%d/status" % server.process.pid) as file:
        return next(int(line.split()[1]) for line in file if line.startswith("VmRSS")) / 1024


def count_held(folder):
    """From here on programs that are started count what they hold, in a file of this folder."""
    library, shown = os.path.join(folder, "held.so"), os.path.join(folder, "held")
    subprocess.run(["cc", "-O2", "-shared", "-fPIC", "-o", library, os.path.join(top, "bench/plain/held.c")], check=True)
    open(shown, "w").close()
    os.environ.update(LD_PRELOAD=library, HELD=shown)
    return shown


def held_now(shown):
    with open(shown, "rb") as file:
        return struct.unpack("qq", file.read())


def own_seconds():
    """What these clients took of a processor so far."""
    used = resource.getrusage(resource.RUSAGE_SELF)
    return used.ru_utime + used.ru_stime


def rise(points):
    """By how much a line through points rises, for each step of the first coordinate."""
    if len(points) < 2:
        return 0.0
    x, y = (sum(point[axis] for point in points) / len(points) for axis in (0, 1))
    return sum((a - x) * (b - y) for a, b in points) / sum((a - x) ** 2 for a, _ in points)


class Rest:
    """What stands beside the clients with --all."""

    def __init__(self, run):
        self.go, self.memory = run, []
        self.chain, self.edge = beside.Chain(program, run, runs), beside.Edge(program, run, runs)
        self.chain.is_up()
        self.threads = [beside.shared_asker(run, came, shared, row, COSTS) for row in beside.shared_rows(shared, ELEMENTS)]
        self.threads += [beside.Behind(run, "the neighbour behind the last element", lambda: opened(shared + 1, 60)),
                         beside.behind_asker(run, lambda: opened(shared + 2, 60), ELEMENTS, COSTS), *self.chain.clients(), *self.edge.threads()]
        for thread in self.threads:
            thread.start()

    def servers(self):
        return [("the server at its limits", self.edge.server, self.edge.came), *self.chain.all()]

    def end(self, main):
        """Waits for all, tells what they did, and plays the records of all servers."""
        for thread in self.threads:
            thread.join(120)
        settled, most = (max(now for at, now in self.memory if at < share * minutes + 1) for share in (6, 60))
        if most > 1.1 * settled + 6:  # a megabyte for each server
            differs("memory of the other servers rose from %.1f to %.1f megabytes" % (settled, most))
        print("soak: beside: %s; the other servers had %.1f megabytes after a tenth of the time, %.1f at the most" % (
            ", ".join("%s %d" % row for row in sorted(self.go.count.items())), settled, most), flush=True)
        for what, one, kept in [("the server", main, came), *self.servers()]:
            plays(what, one, kept)


def size_of(folder):
    return sum(os.path.getsize(os.path.join(folder, name)) for name in os.listdir(folder)) / 2**20


def plays(what, server, kept):
    """A server is stopped; its record hands out what came."""
    time.sleep(0.5)
    more = server.told.all[server.told.all.index("pce: ready") + 1:]
    status, began = server.finish(600), time.monotonic()
    if status != 0 or more:
        differs("%s ends with status %s, and said %s" % (what, status, more))
    faults, octets, events, sessions = records.compare(program, server.run(), kept)
    for fault in faults:
        differs("the record of %s: %s" % (what, fault))
    print("soak: the record of %s: %d events in %.1f megabytes, %d sessions; %d octets were compared in %d s, %d wrong" % (
        what, events, size_of(server.run()), sessions, octets, time.monotonic() - began, len(faults)), flush=True)


first = servers.free_ports(CLIENTS + given.harm + 3)
shared, came = first + CLIENTS + given.harm, records.Came() if given.all else None
names = ["t%d.txt" % domain for domain in range(1, ELEMENTS + 1)]
files = [(name, topology(domain, COSTS[0])) for domain, name in enumerate(names, 1)]
files += [("u%d.txt" % domain, topology(domain, COSTS[1])) for domain in range(1, ELEMENTS + 1)]
peers = [("c%d" % place, place % (ELEMENTS - 2) + 1, "client", first + place) for place in range(CLIENTS)]
peers += [("x%d" % place, place % ELEMENTS + 1, "client", first + CLIENTS + place) for place in range(given.harm)]
if given.all:
    peers += beside.shared_rows(shared, ELEMENTS) + [("behind", ELEMENTS, "neighbour %d" % beside.BEHIND, shared + 1, {"down": True}),
                                                     ("through", ELEMENTS - 1, "client", shared + 2)]
settings = servers.in_a_row(ELEMENTS, peers, names, "workers = 4\n", key_life=LIFE)
folder = tempfile.TemporaryDirectory()
runs = os.path.abspath(given.records or folder.name) if given.all else None
if runs:
    os.makedirs(os.path.join(runs, "main"), exist_ok=True)
made = (lambda *words, **more: records.Recorded(os.path.join(runs, "main"), *words, **more)) if runs else servers.Server
shown = count_held(folder.name) if given.held else None
with made(program, settings, files, within=60) as server:
    time.sleep(2)  # the elements open their sessions
    began = time.monotonic()
    end = began + 60 * minutes
    rest = Rest(beside.Run(end, differs)) if given.all else None
    clients = [Client(place, first + place, {} if place == 0 else None) for place in range(CLIENTS if "asks" not in given.without else 0)]
    for client in clients:
        client.keys = clients[0].keys
        client.start()
    harmful = [Harm(place, first + CLIENTS + place) for place in range(given.harm)]
    for one in harmful:
        one.start()
    turn, loads, memory, held, busy = 0, 0, [], [], []

    def answers():
        return sum(client.answered for client in clients)

    def counted(rows):
        """What was held in the mean."""
        blocks, octets = (sum(row[place] for row in rows) / max(len(rows), 1) for place in (0, 1))
        return ", of which it held %.3f in %.0f blocks in the mean" % (octets / 2**20, blocks) if rows else ""

    def shares():
        """What the server and the clients took of a processor, and how many processes wanted one."""
        gone = time.monotonic() - began
        return "server %.2f and clients %.2f of a processor, load %.1f" % (server.busy() / gone, own_seconds() / gone, sum(busy) / len(busy))

    while time.monotonic() < end:
        turn += 1
        if "loads" not in given.without:
            loads += 1
            domain = random.randrange(1, ELEMENTS + 1)
            told = server.say("load %d %s%d.txt" % (domain, random.choice("tu"), domain))
            if told is None or " ok generation " not in told and " refused generations full" not in told:
                differs("the answer to a load is %s" % told)
        if rest and "loads" not in given.without:
            rest.chain.load()
        if turn % 10 == 0 and clients and "resets" not in given.without:
            random.choice(clients).reset.set()
        memory.append((time.monotonic() - began, memory_now(server)))
        held += [held_now(shown)] if shown else []
        busy.append(os.getloadavg()[0])
        if rest:
            rest.memory.append((memory[-1][0], sum(memory_now(one) for _, one, _ in rest.servers())))
        if turn % 60 == 0:
            print("soak: after %d s: %d answers, %.2f megabytes%s; %s" % (memory[-1][0], answers(), memory[-1][1], counted(held[-60:]), shares()), flush=True)
        if not server.is_running():
            differs("the server ended with status %s" % server.process.returncode)
            break
        time.sleep(1)
    told = shares()
    for thread in clients + harmful:
        thread.join(90)
    settled = max(megabytes for at, megabytes in memory if at < 6 * minutes + 1)
    most = max(megabytes for _, megabytes in memory)
    if most > 1.1 * settled + 1 + given.harm:  # for each that does harm a megabyte more may wait
        differs("memory rose from %.1f to %.1f megabytes" % (settled, most))
    if rest:
        rest.end(server)
    second = [point for point in memory if point[0] > 30 * minutes]
    print("soak: %d answers, %d without a free key, %d resets, %d loads; harm %d times" % (
        answers(), sum(client.refused for client in clients), sum(client.resets for client in clients), loads, sum(one.done for one in harmful)))
    print("soak: %.2f megabytes after a tenth of the time, %.2f at the most, %+.3f a minute in the second half; %s" % (
        settled, most, 60 * rise(second), told))
    print("soak: %d wrong" % len(wrong))
sys.exit(1 if wrong else 0)
PY
