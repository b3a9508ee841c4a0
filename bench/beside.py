"""What stands beside the clients of bench/soak.sh with --all: peers of all classes, twenty of them at one port; a neighbour that paths go on through; a
chain of four programs that dial each other; and a server whose keys and pending requests are always at their limits. Each looks at what it hears: an
answer is one of those that were worked out by hand, to a request that was asked, once."""
import itertools
import os
import random
import sys
import threading
import time
from collections import Counter, deque

sys.path.insert(0, os.path.join(os.path.dirname(os.path.dirname(os.path.abspath(__file__))), "tools"))
import lost  # noqa: E402
import messages  # noqa: E402
import records  # noqa: E402
import servers  # noqa: E402
from sessions import Ended, Session, Silent  # noqa: E402

HOST = servers.HOST
SHARED = 20  # peers at one port
BEHIND = 17  # the domain behind the last element
TOLD = 7  # what its element tells
BRANCH = messages.object_of(7, 1, b"".join(bytes([1, 8, 10, BEHIND, 0, place, 32, 0]) for place in (1, 2)))
SEVEN = messages.object_of(6, 1, bytes([0, 0, 2, 2, 0x40, 0xE0, 0, 0]))  # 7.0 in single precision
FAR = 101  # the domain of the neighbours that ask
NO_KEY, BUSY = "no path 0 00000010", "notice 1/2"
LIFE, KEYS, PENDING = 20, 8192, 1024  # of the server at its limits
AT_ONCE = 32  # requests of one client there
HELD = 8  # requests that the neighbour there answers at a time


class Run:
    """When it ends, what was wrong, and what was counted."""

    def __init__(self, end, differs):
        self.end, self.differs, self.count = end, differs, Counter()

    def goes_on(self):
        return time.monotonic() < self.end


class Beside(threading.Thread):
    """A peer over one connection behind the other."""

    def __init__(self, run, name, opened):
        super().__init__(daemon=True)
        self.go, self.name_of, self.opened, self.draws = run, name, opened, random.Random(name)

    def run(self):
        while self.go.goes_on():
            try:
                with self.opened() as session:
                    session.begin(0, 0)
                    self.talk(session)
            except (Ended, Silent, OSError) as fault:
                if self.go.goes_on():
                    self.go.differs("%s: %s" % (self.name_of, fault))
                    time.sleep(1)


class Asks(Beside):
    """Asks one request behind the other; `draw` gives a request by its number, and the answers that it may have."""

    def __init__(self, run, name, opened, draw, pause=0.3):
        super().__init__(run, name, opened)
        self.draw, self.pause, self.number = draw, pause, 0

    def talk(self, session):
        while self.go.goes_on():
            self.number += 1
            octets, allowed = self.draw(self.number, self.draws)
            numbers, word = lost.told(session.ask(octets, 60))
            word = "route" if len(word) > 40 else word
            if numbers != [self.number] or word not in allowed:
                self.go.differs("%s: request %d is answered %s under %s, and not one of %s" % (self.name_of, self.number, word, numbers, sorted(allowed)))
            self.go.count[self.name_of.split()[0] + (" answered" if word not in (BUSY, lost.BROKEN) else " told there is no way or no room")] += 1
            session.heard.clear()
            time.sleep(self.pause * self.draws.random())


# ---- peers of all classes


def path(number, domains, closed, source=None):
    return messages.message_of(messages.REQUEST, messages.parameters_of(number, 0x40 if closed else 0), messages.ends_between(
        source or "10.%d.0.1" % domains[0], "10.%d.0.2" % domains[-1]), messages.through(domains))


def costs(count, one, more=0):
    """What paths through so many domains may cost, each of which has one of two topologies."""
    return {"cost %d" % (sum(row) + count - 1 + more) for row in itertools.product(one, repeat=count)}


def shared_rows(port, elements):
    """Twenty peers at one port, told apart by their addresses: clients, clients that may not expand, neighbours and parents."""
    rows = []
    for place in range(SHARED):
        kind, keys = (("client", {}), ("client", {"expand": False}), ("neighbour %d" % FAR, {}), ("parent", {}))[place % 4]
        rows.append(("s%d" % place, place % (elements - 2) + 1, kind, port, dict(keys, **{"from": "127.0.1.%d" % (place + 1)})))
    return rows


def shared_asker(run, kept, port, row, one):
    name, at, kind, _, keys = row

    def opened():
        if kept:
            return records.KeptSession(kept, HOST, port, 60, keys["from"], True)
        return Session(HOST, port, 60, keys["from"])

    def draw(number, draws):
        if kind == "client" and draws.random() < 0.2:
            return messages.expansion_of(number, draws.randrange(1, 65536), "192.0.2.%d" % at), {NO_KEY} if "expand" in keys else {NO_KEY, "route"}
        count = 1 if kind == "parent" else draws.randrange(1, 4)
        return path(number, range(at, at + count), kind != "client"), costs(count, one) | {BUSY}
    word = "parents" if kind == "parent" else "neighbours" if kind != "client" else "clients"
    return Asks(run, "%s at one port: %s" % (word, name), opened, draw)


class Behind(Beside):
    """The neighbour behind the last element: answers each request with one branch, and goes now and then."""

    def talk(self, session):
        until = time.monotonic() + 20 + 20 * self.draws.random()
        while self.go.goes_on() and time.monotonic() < until:
            try:
                octets = session.answer(0.5)
            except Silent:
                continue
            session.heard.clear()
            number = messages.first_body(messages.read(octets).objects, "RP")["id"]
            if octets[1] == messages.REQUEST:
                self.go.count["asked behind the last element"] += 1
                session.send(messages.message_of(messages.REPLY, messages.parameters_of(number, 0x40), BRANCH, SEVEN))


def behind_asker(run, opened, elements, one):
    """A client whose paths go on through that neighbour. While it is away, or where it goes with the request, there is no way."""
    domains = (elements - 1, elements, BEHIND)
    return Asks(run, "paths to a neighbour", opened, lambda number, draws: (path(number, domains, False), costs(2, one, TOLD + 1) | {BUSY, lost.BROKEN}))


# ---- four programs that dial each other


class Chain:
    """Programs at addresses of their own; topologies change in each."""

    def __init__(self, program, run, runs):
        self.go, self.came, self.draws = run, [records.Came() for _ in range(lost.PROGRAMS)] if runs else None, random.Random(4)
        self.port, self.programs = servers.free_ports(1), []
        made = (lambda place, *given, **more: records.Recorded(os.path.join(runs, "chain%d" % place), *given, **more)) if runs else (
            lambda place, *given, **more: servers.Server(*given, **more))
        for domain in range(1, lost.PROGRAMS + 1):
            if runs:
                os.mkdir(os.path.join(runs, "chain%d" % domain))
            files = [("d%d.txt" % domain, lost.topology(domain)), ("e%d.txt" % domain, self.dearer(domain))]
            self.programs.append(made(domain, program, self.settings(domain), files, host=self.address(domain), within=60))

    def address(self, domain):
        return "127.0.2.%d" % domain

    def settings(self, domain):
        text = lost.settings(domain).replace("10.77.0.%d" % (100 + domain), "127.0.3.%d" % domain)
        text = text.replace('from = "%s"' % lost.address(domain - 1), 'from = "%s"' % HOST).replace(lost.address(domain + 1), self.address(domain + 1))
        return text.replace("[[peer]]\n", "[[peer]]\nport = %d\n" % self.port)

    def dearer(self, domain):
        """The same with a cheap link that costs three times as much."""
        return lost.topology(domain).replace(" 2 %d 1000 00000000" % domain, " 2 %d 1000 00000000" % (3 * domain))

    def clients(self):
        """One at each end, which asks through all."""
        whole = tuple(range(1, lost.PROGRAMS + 1))
        sums = {"cost %d" % (sum(row) + lost.PROGRAMS - 1) for row in itertools.product(*((domain, 3 * domain) for domain in whole))}

        def made(domains):
            def opened():
                where = self.address(domains[0]), self.port, 60, "127.0.3.%d" % domains[0]
                return records.KeptSession(self.came[domains[0] - 1], *where, True) if self.came else Session(*where)

            def draw(number, draws):
                question = lost.Question(domains, draws.choice((0, 2000)), 2, "")
                wanted = sums if not question.bandwidth else {"cost %d" % lost.cost(domains, 2000, 2)}
                return lost.request_of(number, question), wanted | {BUSY}
            return Asks(self.go, "chain from domain %d" % domains[0], opened, draw)
        return [made(whole), made(whole[::-1])]

    def is_up(self, within=120):
        """Waits until paths get through both ways."""
        for domains in (range(1, lost.PROGRAMS + 1), range(lost.PROGRAMS, 0, -1)):
            domains, until = tuple(domains), time.monotonic() + within
            where = self.address(domains[0]), self.port, 60, "127.0.3.%d" % domains[0]
            with records.KeptSession(self.came[domains[0] - 1], *where, True) if self.came else Session(*where) as session:
                session.begin()
                for number in itertools.count(1):
                    if lost.told(session.ask(lost.request_of(number, lost.Question(domains, 0, 2, ""))))[1] != lost.BROKEN:
                        break
                    if time.monotonic() > until:
                        self.go.differs("the chain does not come up")
                        return
                    time.sleep(0.1)

    def load(self):
        domain = self.draws.randrange(lost.PROGRAMS)
        told = self.programs[domain].say("load %d %s%d.txt" % (domain + 1, self.draws.choice("de"), domain + 1))
        if not told or " ok generation " not in told:
            self.go.differs("the answer to a load of the chain is %s" % told)

    def all(self):
        """Each server with what came from it."""
        return [("program %d of the chain" % place, server, self.came and self.came[place - 1]) for place, server in enumerate(self.programs, 1)]


# ---- quotas at their edge


class Edge:
    """A server whose second element has no free key for a part of the time, and whose third always has as many pending requests as it may."""

    def __init__(self, program, run, runs):
        self.go, self.came = run, records.Came() if runs else None
        self.first = servers.free_ports(3)
        files = [("d%d.txt" % domain, lost.topology(domain)) for domain in (1, 2, 3)]
        peers = [("keys", 1, "client", self.first), ("room", 3, "client", self.first + 1), ("holds", 3, "neighbour 9", self.first + 2, {"down": True})]
        settings = servers.in_a_row(3, peers, [name for name, _ in files], key_life=LIFE)
        if runs:
            os.mkdir(os.path.join(runs, "edge"))
        self.server = records.Recorded(os.path.join(runs, "edge"), program, settings, files, within=60) if runs else servers.Server(program, settings, files, within=60)

    def opened(self, place):
        return records.KeptSession(self.came, HOST, self.first + place, 60) if self.came else Session(HOST, self.first + place, 60)

    def threads(self):
        return [TakesKeys(self.go, "keys at their edge", lambda: self.opened(0)), Fills(self.go, "requests at their edge", self)]


class TakesKeys(Beside):
    """Asks through two domains, faster than keys expire: it gets a path, or is told that no key is free; no key stands in two answers within its life."""

    def talk(self, session):
        number, seen, waiting = 0, {}, set()
        while self.go.goes_on() or waiting:
            if self.go.goes_on():
                fresh = range(number + 1, number + 1 + AT_ONCE)
                number += AT_ONCE
                waiting.update(fresh)
                session.send(*(path(one, (1, 2), False) for one in fresh))
            while waiting:
                octets = session.answer(60)
                numbers, word = lost.told(octets)
                if len(numbers) != 1 or numbers[0] not in waiting or word not in ("cost 4", BUSY):  # 1 + 1 + 2
                    self.go.differs("%s: answered %s under %s" % (self.name_of, word, numbers))
                waiting.discard(numbers[0])
                self.go.count["keys: paths" if word != BUSY else "keys: none free"] += 1
                if word != BUSY:
                    self.once(octets, seen)
            session.heard.clear()
            time.sleep(AT_ONCE * LIFE / KEYS / 1.5)

    def once(self, octets, seen):
        now = time.monotonic()
        for hop in messages.first_body(messages.read(octets).objects, "ERO")["hops"]:
            if hop.kind == "key":
                if now - seen.get(hop.value, -LIFE) < LIFE - 2:
                    self.go.differs("key %s is issued twice within its life" % (hop.value,))
                seen[hop.value] = now


class Fills(threading.Thread):
    """A client whose requests wait at a neighbour that answers eight at a time; as many wait as there is room for, and one more is refused."""

    def __init__(self, run, name, edge):
        super().__init__(daemon=True)
        self.go, self.name_of, self.edge, self.number = run, name, edge, 0

    def run(self):
        try:
            with self.edge.opened(1) as session, self.edge.opened(2) as neighbour:
                session.begin(), neighbour.begin()
                self.talk(session, neighbour)
        except (Ended, Silent, OSError) as fault:
            if self.go.goes_on():
                self.go.differs("%s: %s" % (self.name_of, fault))

    def fresh(self, count):
        found = range(self.number + 1, self.number + 1 + count)
        self.number += count
        return [messages.request_of(one, "10.3.0.1", "10.9.0.1", (3, 9)) for one in found]

    def expect(self, got, wanted):
        if got != wanted:
            self.go.differs("%s: %s, and not %s" % (self.name_of, got, wanted))

    def talk(self, session, neighbour):
        held, mine = deque(), deque(range(1, PENDING + 1))
        session.send(*self.fresh(PENDING))
        while self.go.goes_on():
            while len(held) < PENDING:
                held.append(messages.first_body(messages.read(neighbour.answer(60)).objects, "RP")["id"])
            more = self.number + 1
            self.expect(lost.told(session.ask(self.fresh(1)[0], 60)), ([more], BUSY))
            neighbour.send(*(messages.message_of(messages.REPLY, messages.parameters_of(held.popleft(), 0x40), messages.object_of(3, 1, bytes(4))) for _ in range(HELD)))
            came = sorted(lost.told(session.answer(60)) for _ in range(HELD))
            # the neighbour has no path: nature 0; its element has none either, whose target is in no topology here
            self.expect(came, [([mine.popleft()], "no path 0 00000000") for _ in range(HELD)])
            mine.extend(range(self.number + 1, self.number + 1 + HELD))
            session.send(*self.fresh(HELD))
            self.go.count["requests: refused at the edge"] += 1
            self.go.count["requests: answered at the edge"] += HELD
            session.heard.clear(), neighbour.heard.clear()
            time.sleep(0.2)
