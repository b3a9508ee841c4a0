#!/bin/sh
# A server at all its limits at once (docs/PROFILE.md, "Limits"), over IPv6: 16 elements in a row, each with 1,024 nodes in a line, 8,192 links, 256 out
# links at one tail and 64 entries; 256 peers, all connected; 8,192 live keys at each element, of a thousand hops each; 1,024 pending requests at each,
# of 256 exclusions and in messages of 65,532 octets, taken in 16 generations; 8 workers with caches; and 208 clients that ask for what stands behind keys
# and read nothing. Nothing but named refusals may come: each answer is what was worked out by hand, what is over a limit is told so, and once all has
# gone that waits, paths are answered again. It tells what memory there was (VmHWM) beside what docs/READING.md says that keys take; it stops above
# 10 GB, or where the machine has less than 2 GB left. A parent, which knows IPv4 alone, has no part in it. The status is 1 where something was wrong.
# It needs Python, some 6 GB and two to five minutes.
# usage: bench/limits.sh [PROGRAM]   (the program that the gate proved and built, where left out)
set -eu
top=$(cd "$(dirname "$0")/.." && pwd)
exec python3 - "$top" "$@" <<'PY'
import os
import signal
import socket
import sys
import threading
import time
from collections import Counter

top = sys.argv.pop(1)
program = os.path.abspath(sys.argv[1] if len(sys.argv) > 1 else os.path.join(top, "crates/pce_main/out/pce_main"))
if not os.access(program, os.X_OK):
    sys.exit("limits: no program %s; `rt ci` builds it" % program)
sys.dont_write_bytecode = True
sys.path.insert(0, os.path.join(top, "tools"))
import ipaddress  # noqa: E402
import messages  # noqa: E402
import servers  # noqa: E402
from sessions import Ended, Session, Silent  # noqa: E402

HOST = servers.HOST
ELEMENTS, PEERS, NODES, LINKS, OUT, ENTRIES = 16, 256, 1024, 8192, 256, 16
KEYS, PENDING, GENERATIONS, MESSAGE, EXCLUDED = 8192, 1024, 16, 65532, 256
BOUND = 4.3  # GB, as docs/READING.md has it
MOST, LEFT = 10.0, 2.0  # GB
EACH = PENDING // GENERATIONS  # requests of each generation
wrong = 0


def differs(text):
    global wrong
    wrong += 1
    print("limits: %s" % text, flush=True)


def expect(what, got, wanted):
    if got != wanted:
        differs("%s: %s, and not %s" % (what, str(got)[:300], str(wanted)[:300]))


# ---- the network


def node(domain, place):
    return "fd00:0:0:%x:0:0:0:%x" % (domain, place)


def topology(domain):
    """A line of 1,024 nodes with eight links from each to the next, of which one costs 1; the last node leads on, by 256 links, to the first sixteen of the
    next domain, which are the entries from there."""
    rows = ["topology %d" % domain] + ["node " + node(domain, place) for place in range(NODES)]
    for n in range(LINKS):
        begin = n // 8 % NODES
        rows.append("link %s %s fd01:0:0:%x:0:0:0:%x fd02:0:0:%x:0:0:0:%x 1 %d 1000 00000000" % (
            node(domain, begin), node(domain, (begin + 1) % NODES), domain, n, domain, n, n % 8 + 1))
    for n in range(OUT if domain < ELEMENTS else 0):
        rows.append("out %s %s fd03:0:0:%x:0:0:0:%x fd04:0:0:%x:0:0:0:%x %d 1 1 1000 00000000" % (
            node(domain, NODES - 1), node(domain + 1, n % ENTRIES), domain, n, domain, n, domain + 1))
    rows += ["entry %s %d" % (node(domain, place), domain - 1 if domain > 1 else 300) for place in range(ENTRIES)]
    rows += ["entry %s %d" % (node(domain, ENTRIES + place), 301 + place // ENTRIES) for place in range(3 * ENTRIES)]
    return "".join(row + "\n" for row in rows)


def cost(entry):
    """From an entry of the first domain to the last node of the last: to the end of its line, and for each further domain a link and the line from the
    entry that is the furthest along."""
    return NODES - 1 - entry + (ELEMENTS - 1) * (1 + NODES - ENTRIES)


assert (cost(0), cost(15)) == (16158, 16143)


# ---- messages


def padded(*objects):
    """A request message of the greatest length, by an object that none knows and none has to."""
    content = b"".join(objects)
    return messages.message_of(messages.REQUEST, content, messages.object_of(200, 1, bytes(MESSAGE - 8 - len(content)), must=False))


EXCLUSIONS = messages.object_of(17, 1, bytes(4) + b"".join(bytes([2, 20]) + ipaddress.ip_address("fd09:0:0:0:0:0:0:%x" % place).packed + bytes([128, 1])
                                                            for place in range(EXCLUDED)))


def beyond(domain, number):
    """A request that waits on the neighbour behind an element."""
    return (messages.parameters_of(number) + messages.ends_between(node(domain, 0), node(400 + domain, 1)) + EXCLUSIONS + messages.through((domain, 400 + domain)))


def read(octets):
    return messages.read(octets).objects


def word(octets):
    objects = read(octets)
    notice, none, metric, error = (messages.first_body(objects, name) for name in ("NOTIFICATION", "NO-PATH", "METRIC", "PCEP-ERROR"))
    if notice or error:
        return "%s %d/%d" % ("notice" if notice else "error", (notice or error)["type"], (notice or error)["value"])
    if none:
        return "no path %d %08x" % (none["nature"], none["vector"])
    return "cost %d" % metric["value"] if metric else "route of %d hops" % len(messages.first_body(objects, "ERO")["hops"])


# ---- memory


def gigabytes(pid, name):
    with open("/proc/%s" % (pid and "%d/status" % pid or "meminfo")) as file:
        return next(int(line.split()[1]) for line in file if line.startswith(name)) * 1024 / 1e9


def watch(server, is_over):
    while not is_over.wait(0.5) and server.is_running():
        try:
            now, left = gigabytes(server.process.pid, "VmRSS"), gigabytes(None, "MemAvailable")
        except (OSError, StopIteration):
            return
        if now > MOST or left < LEFT:
            print("limits: stopped: it has %.1f GB, and the machine %.1f left" % (now, left), flush=True)
            server.process.send_signal(signal.SIGKILL)
            os._exit(1)


def tell(server, what, began):
    print("limits: %s: %.2f GB at the most, %.2f now; %d s" % (what, gigabytes(server.process.pid, "VmHWM"), gigabytes(server.process.pid, "VmRSS"),
                                                               time.monotonic() - began), flush=True)


# ---- what is done


def fill_keys(asker, number=1):
    """Each request takes sixteen keys of every element: so many are answered by sixteen branches, and then there are no keys."""
    for number in range(1, KEYS // ENTRIES + 1):
        objects = read(asker.ask(messages.message_of(messages.REQUEST, messages.parameters_of(number, 0x40), messages.ends_between(
            node(1, 0), node(ELEMENTS, NODES - 1)), messages.through(range(1, ELEMENTS + 1))), 120))
        costs = [one.body["value"] for one in objects if one.name == "METRIC"]
        if costs != [cost(entry) for entry in range(ENTRIES)]:
            differs("request %d is answered by branches of cost %s" % (number, costs))
            return
    octets = asker.ask(messages.message_of(messages.REQUEST, messages.parameters_of(number + 1, 0x40), messages.ends_between(
        node(1, 0), node(ELEMENTS, NODES - 1)), messages.through(range(1, ELEMENTS + 1))), 120)
    expect("the answer where no key is free", word(octets), "notice 1/2")


def fill_pending(server, domain, asker, behind):
    """So many requests wait in so many generations; one more of either is refused."""
    number, loads = 0, 0
    for generation in range(1, GENERATIONS + 1):
        for begin in range(0, EACH, 12):
            asker.send(padded(*(beyond(domain, number + place + 1) for place in range(min(12, EACH - begin)))))
            number += min(12, EACH - begin)
        for _ in range(EACH):
            if behind.answer(60)[1] != messages.REQUEST:
                differs("the neighbour behind element %d is not asked" % domain)
        behind.heard.clear()
        told = server.say("load %d t%d.txt" % (domain, domain)).split(" ", 1)[1]
        expect("a load at element %d" % domain, told, "ok generation %d" % (generation + 1) if generation < GENERATIONS else "refused generations full")
        loads += 1
    asker.send(padded(beyond(domain, number + 1)))
    expect("one request more at element %d" % domain, word(asker.answer(60)), "notice 1/2")
    return loads


def unread(session, domain):
    """Asks 2,700 times for what stands behind a key, and reads nothing."""
    session.socket.setsockopt(socket.SOL_SOCKET, socket.SO_RCVBUF, 4096)
    key = messages.expansion_of(1, 1 + domain, "192.0.2.%d" % domain)[16:]
    octets = messages.message_of(messages.REQUEST, *(messages.parameters_of(number, 0x100) + key for number in range(1, 2701)))
    session.within = 60
    session.send(octets)


first = servers.free_ports(PEERS + 1)
peers, place_of = [], {}
for domain in range(1, ELEMENTS + 1):
    rows = [("a", "client", {}), ("b", "neighbour %d" % (400 + domain), {"down": True}), ("n", "neighbour 300", {})]
    rows += [("u%d_" % place, "client", {}) for place in range(PEERS // ELEMENTS - len(rows))]
    for name, kind, keys in rows:
        place_of[domain, name] = first + len(peers)
        peers.append((name.rstrip("_") + "x%d" % domain, domain, kind, first + len(peers), keys))
names = ["t%d.txt" % domain for domain in range(1, ELEMENTS + 1)]
files = [(name, topology(domain)) for domain, name in enumerate(names, 1)]
settings = servers.in_a_row(ELEMENTS, peers, names, "workers = 8\nwatch = %d\n" % (first + PEERS), key_life=3600)
began, is_over, unread_ones = time.monotonic(), threading.Event(), 0
with servers.Server(program, settings, files, within=120) as server:
    threading.Thread(target=watch, args=(server, is_over), daemon=True).start()
    time.sleep(2)
    tell(server, "%d elements, each with %d nodes and %d links" % (ELEMENTS, NODES, LINKS), began)
    at = {key: Session(HOST, port, within=60).begin() for key, port in place_of.items()}
    tell(server, "%d peers" % len(at), began)
    fill_keys(at[1, "n"])
    most_of_keys = gigabytes(server.process.pid, "VmHWM")
    tell(server, "%d keys of each, for which READING.md says about %.1f GB" % (KEYS, BOUND), began)
    loads = sum(fill_pending(server, domain, at[domain, "a"], at[domain, "b"]) for domain in range(1, ELEMENTS + 1))
    tell(server, "%d pending requests of each in %d generations, %d loads" % (PENDING, GENERATIONS, loads), began)
    for (domain, name), session in at.items():
        if name.startswith("u"):
            unread(session, domain)
            unread_ones += 1
        elif name == "n":
            session.send(padded(messages.parameters_of(9))[:-4])
    time.sleep(5)
    tell(server, "%d clients that read nothing, and %d messages that lack their end" % (unread_ones, ELEMENTS), began)
    with socket.create_connection((HOST, first + PEERS), timeout=60) as link:
        link.sendall(b"16\n")
        expect("a watcher", link.recv(100).decode(), "16 generation %d nodes %d links %d\n" % (GENERATIONS, NODES, LINKS))
    for domain in (1, ELEMENTS):
        reply = at[domain, "a"].ask(messages.request_of(5000, node(domain, 0), node(domain, 9), (domain,)), 60)
        expect("a request where %d wait at element %d" % (PENDING, domain), word(reply), "notice 1/2")
    for domain in range(1, ELEMENTS + 1):
        at[domain, "b"].close()
        said = Counter(word(at[domain, "a"].answer(60)) for _ in range(PENDING))
        expect("what is told of all that waits at element %d" % domain, dict(said), {"no path 1 00000008": PENDING})
        reply = at[domain, "a"].ask(messages.request_of(6000, node(domain, 0), node(domain, 9), (domain,)), 60)
        expect("a request at element %d once none waits" % domain, word(reply), "cost 9")
        expect("a load at element %d once none waits" % domain, server.say("load %d t%d.txt" % (domain, domain)).split(" ", 1)[1],
               "ok generation %d" % (GENERATIONS + 1))
    expect("the answer where still no key is free", word(at[2, "a"].ask(messages.request_of(6001, node(2, 0), node(3, 9), (2, 3)), 60)), "notice 1/2")
    for (domain, name), session in at.items():
        if name == "u0_":
            session.within = 60
            expect("a client that reads at last", word(session.answer()), "route of %d hops" % len(messages.first_body(read(at[domain, "a"].ask(
                messages.expansion_of(6002, 1 + domain, "192.0.2.%d" % domain), 60)), "ERO")["hops"]))
    expect("what standard error says", server.told.all[server.told.all.index("pce: ready") + 1:], [])
    if not server.is_running():
        differs("the server ended with status %s" % server.process.returncode)
    tell(server, "all", began)
    most = gigabytes(server.process.pid, "VmHWM")
    is_over.set()
print("limits: %d wrong; %.2f GB at the most, %.2f with the keys alone (about %.1f by docs/READING.md), in %d seconds" % (
    wrong, most, most_of_keys, BOUND, time.monotonic() - began))
sys.exit(1 if wrong else 0)
PY
