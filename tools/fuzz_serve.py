"""What `tools/fuzz --serve` does: sends changed streams of octets to a running server, at peers of all classes, and tells what was met.

A stream is what a peer sends over one connection, in pieces. It is drawn from the seed and its own number (but for the keys in it, of which some were
heard of late): mostly a right opening, and then messages of the examples, right ones of that peer's class, and changed ones. Of each it must be true that
  - what the session says is what the table of docs/PROFILE.md ("Sessions") says of these octets, which session_table.py works out by itself;
  - each answer is to a request that the peer sent over this connection, and no request is answered twice;
  - in time the connection ends, or stays where the table says so; where it stays a right request is answered by what was worked out by hand;
  - others are answered as before, standard error says nothing more, and the server goes on.
A server is ended after so many streams, and another begins. Of some the record is played again: it hands out, octet for octet, what came.

What was met is counted from outside: rows of the table by class of peer, errors, notices, Closes and kinds of answers. What was never met is
named at the end. What differs is printed with the octets that were sent."""
import contextlib
import heapq
import itertools
import multiprocessing
import os
import random
import selectors
import signal
import socket
import tempfile
import threading
import time
from collections import Counter, deque

import messages
import records
import servers
from session_table import ROWS, Table, answer_words, session_word
from sessions import Ended, Session, Silent

HOST = servers.HOST
EXAMPLES = os.path.join(os.path.dirname(os.path.dirname(os.path.abspath(__file__))), "examples")
FILES = ("d1.txt", "d2.txt", "d3.txt", "d2-dearer.txt")
EPOCH = 20000  # streams of one server
TOLD = 20  # faults of one server
LANES = 5  # peers of each class, and as many of each `down` neighbour
WITHIN = 60  # seconds in which something must come, on a busy machine
TURNS = 200  # turns of our own in which it must come, too
LAG = 1.0  # seconds for which these lines stood still themselves, behind which times are not judged
AT_REST = 20  # seconds in which some requests are answered, where nothing else is done
PATIENCE = 0.03  # seconds that answers are waited for, where none has to come
OPENED = messages.open_of() + messages.keepalive_of()
LEAST = {16, 61}  # the costs of 10.1.0.1 to 10.3.0.9 in the two topologies of the second domain: 1 + 5 + 10 or 1 + 50 + 10

# classes of peers: the element, and the keys of the row
CLASSES = {"client": (1, {}), "client of the middle": (2, {}), "client that may not expand": (3, {"expand": False}), "neighbour": (2, {"neighbour": 7}),
           "denied neighbour": (2, {"neighbour": 8}), "parent": (2, {}), "down neighbour": (3, {"down": True})}
DOMAINS = {"client": (1, 2, 3), "client of the middle": (2, 3), "client that may not expand": (3,), "neighbour": (2, 3), "denied neighbour": (2, 3),
           "parent": (2, 3), "down neighbour": (3,)}
# what a request from a node to itself is answered: a client has the path, the parent a branch from each node that it asks of, and a neighbour from which
# no entry leads in none; keys may be in use
AT_LAST = {name: ("path",) if name.startswith("client") else ("branches", "notice 1/2") if name == "parent" else ("no path 0",) for name in CLASSES}
FIRST = {1: "10.1.0.1", 2: "10.2.0.1", 3: "10.3.0.1"}
LAST = {1: "10.1.0.1", 2: "10.2.0.2", 3: "10.3.0.9"}

ERRORS = ("1/1", "1/2", "1/6", "1/7", "1/8", "2/0", "3/1", "3/2", "4/1", "4/2", "4/4", "6/1", "6/3", "8/0", "9/0", "10/1", "13/1", "19/2", "19/5")
CLOSES = ("1", "2", "3", "5")
ANSWERS = ("path", "path behind a key", "branches", "no path 0", "no path 0, source", "no path 0, target", "no path 0, source, target", "no path 0, key",
           "no path 1, chain", "notice 1/2", "request sent on")


# ---- drawing


class Drawer:
    """Draws what peers send: the messages of the examples, right ones for a class, and changes of both."""

    def __init__(self, changer, corpus, floods=0):
        self.changer, self.corpus, self.floods = changer, corpus, floods
        self.keys = deque([(number, "192.0.2.%d" % at) for number in range(1, 9) for at in (1, 2, 3)], 200)  # that were heard of late

    def domains(self, name, draw):
        own = DOMAINS[name]
        return own[:draw.randrange(1, len(own) + 1)] + ((4 + draw.randrange(3),) if draw.random() < 0.15 else ())

    def ends(self, domains, draw):
        source = FIRST.get(domains[0]) if draw.random() < 0.9 else "10.9.9.9"
        target = LAST.get(domains[-1], "10.4.0.1") if draw.random() < 0.85 else "10.3.0.7"
        if draw.random() < 0.03:
            source, target = "fd00:0:0:0:0:0:0:1", "fd00:0:0:0:0:0:0:2"
        return messages.ends_between(source, target)

    def request(self, name, draw):
        """A right request of this class."""
        number = draw.randrange(1, 50)
        if draw.random() < 0.15:
            key, where = draw.choice(self.keys)
            return messages.expansion_of(number, key if draw.random() < 0.8 else draw.randrange(65536), where)
        domains = self.domains(name, draw)
        flags = 0 if name.startswith("client") else 0x40
        more = []
        if draw.random() < 0.2:
            more.append(messages.object_of(6, 1, bytes([0, 0, draw.choice((0, 1)), draw.choice((1, 2, 3))]) + draw.choice((b"\x41\x80\0\0", b"\x44\0\0\0"))))
        if draw.random() < 0.1:
            more.append(messages.object_of(5, draw.choice((1, 1, 1, 2)), draw.choice((b"\x44\x7a\0\0", b"\x45\0\0\0"))))
        if draw.random() < 0.1:
            more.append(messages.object_of(17, 1, bytes(4) + bytes([1, 8, 10, draw.choice((2, 3)), 0, draw.choice((1, 2)), 32, 1])))
        if not name.startswith("client") or domains != (DOMAINS[name][0],) or draw.random() < 0.5:
            if not (name == "client" and draw.random() < 0.1):  # without domains a parent is asked
                more.append(messages.through(domains))
        return messages.message_of(messages.REQUEST, messages.parameters_of(number, flags), self.ends(domains, draw), *more)

    def others(self, draw):
        """Right messages of other types."""
        number = messages.parameters_of(draw.randrange(1, 50))
        return draw.choice((
            messages.keepalive_of(), messages.open_of(draw.randrange(256), draw.choice((0, 60, 255))), messages.message_of(draw.choice((0, 8, 9, 12, 77, 255))),
            messages.message_of(draw.choice((10, 11))), messages.message_of(7, messages.object_of(15, 1, bytes([0, 0, 0, draw.randrange(1, 6)]))),
            messages.message_of(5, number, messages.object_of(12, 1, bytes([0, 0, draw.choice((1, 2)), draw.choice((1, 2))]))),
            messages.message_of(6, number, messages.object_of(13, 1, bytes([0, 0, draw.choice((3, 4, 8, 13)), draw.choice((0, 1, 4))]))),
            self.reply(draw.randrange(1, 50), draw), messages.open_of() * 2, messages.message_of(77) * 5))

    def reply(self, number, draw):
        """A reply of a neighbour that paths go on through."""
        parts = [messages.parameters_of(number, 0x40)]
        if draw.random() < 0.1:
            return messages.message_of(6, parts[0], messages.object_of(13, 1, bytes([0, 0, *draw.choice(((4, 4), (13, 1), (8, 0), (3, 1), (4, 1)))])))
        if draw.random() < 0.05:
            return messages.message_of(5, parts[0], messages.object_of(12, 1, bytes([0, 0, 1, 2])))
        for _ in range(draw.choice((0, 1, 1, 1, 2, 3))):
            hop = bytes([1, 8, 10, 4, 0, draw.randrange(1, 4), 32, 0])
            key = bytes([64, 8, 0, draw.randrange(1, 9), 192, 0, 2, 4]) + bytes([1, 8, 10, 4, 0, 9, 32, 0])
            parts += [messages.object_of(7, 1, hop + (key if draw.random() < 0.7 else b"")),
                      messages.object_of(6, 1, bytes([0, 0, 2, draw.choice((2, 2, 2, 1, 3))]) + draw.choice((b"\x40\xe0\0\0", b"\x40\xd0\0\0", b"\x4b\x80\0\0")))]
        if len(parts) == 1:
            parts.append(messages.object_of(3, 1, bytes([draw.choice((0, 0, 1, 2)), 0, 0, 0])))
        return messages.message_of(messages.REPLY, *parts)

    def opening(self, draw):
        how = draw.random()
        if how < 0.8:
            return OPENED
        timers = draw.choice((0, 0, 1, 30, 255)), draw.choice((0, 0, 60, 255))
        terms = messages.open_of(*timers)
        again = messages.message_of(6, messages.object_of(13, 1, bytes([0, 0, 1, 4])), terms[4:])
        return draw.choice((terms + messages.keepalive_of(), terms + again + messages.keepalive_of(), terms + again + again, terms[:4] + b"\1\x10\0\x08\x40\0\0\0",
                            terms + messages.message_of(6, messages.object_of(13, 1, bytes([0, 0, 1, draw.randrange(1, 8)]))), terms,
                            messages.message_of(7, messages.object_of(15, 1, bytes([0, 0, 0, 1]))), messages.keepalive_of(), terms + terms,
                            terms + messages.message_of(7, messages.object_of(15, 1, bytes([0, 0, 0, 1]))), terms + bytes(8),
                            self.changer.message(terms, terms) + messages.keepalive_of(), self.changer.message(draw.choice(self.corpus.messages), terms), b""))

    def message(self, name, draw):
        how = draw.random()
        if how < 0.3:
            return self.request(name, draw)
        if how < 0.42:
            return self.others(draw)
        if how < 0.72:
            return self.changer.message(self.request(name, draw), draw.choice(self.corpus.messages))
        if how < 0.78:
            return self.changer.message(self.others(draw), draw.choice(self.corpus.messages))
        if how < 0.97:
            return self.changer.message(draw.choice(self.corpus.messages), draw.choice(self.corpus.messages))
        return draw.randbytes(draw.randrange(1, 200))

    def flood(self, name, draw):
        """More requests than an element has room for, through a neighbour that need not answer."""
        domains = DOMAINS[name] + (4 + draw.randrange(3),)
        ends, way = messages.ends_between(FIRST[domains[0]], "10.4.0.1"), messages.through(domains)
        flags = 0 if name.startswith("client") else 0x40
        return [OPENED] + [messages.message_of(messages.REQUEST, messages.parameters_of(number, flags), ends, way) for number in range(1, 1100)]

    def stream(self, name, draw):
        """The pieces that a peer sends."""
        self.changer.draw = draw
        if self.floods and draw.random() < 1 / self.floods:
            return self.flood(name, draw)
        octets = self.opening(draw) + b"".join(self.message(name, draw) for _ in range(draw.choice((0, 1, 1, 2, 2, 3, 5, 8))))
        how = draw.random()
        if how < 0.6:
            return [octets] if octets else []
        if how < 0.97 or len(octets) > 120:
            cuts = sorted(draw.randrange(len(octets) + 1) for _ in range(draw.choice((1, 2, 4))))
            return [octets[at:to] for at, to in zip([0] + cuts, cuts + [len(octets)]) if at < to]
        return [bytes([octet]) for octet in octets]


# ---- a stream at a peer's port


class Line:
    """The port of a peer, at which one stream is tried behind the other."""

    def __init__(self, job, name, port):
        self.job, self.name, self.port = job, name, port
        self.socket, self.serial = None, 0

    def begin(self):
        self.number, self.draw = self.job.next_stream()
        self.pieces = self.job.drawer.stream(self.name, self.draw)
        self.table, self.stream, self.heard, self.answers, self.sent = Table(), messages.Stream(), [], [], []
        self.phase, self.is_cut, self.probed, self.forged = "sends", False, None, 0
        self.serial += 1
        self.socket = socket.create_connection((HOST, self.port), timeout=30)
        self.socket.setsockopt(socket.IPPROTO_TCP, socket.TCP_NODELAY, 1)
        self.socket.setblocking(False)
        self.connection = self.job.kept.begin(self.port) if self.job.kept else None
        self.began = time.monotonic()
        self.act()
        self.job.selector.register(self.socket, selectors.EVENT_READ, self)
        self.job.at(self.began + WITHIN, self, "late")
        self.step()

    def act(self):
        """It does or hears something now."""
        self.active, self.turn = time.monotonic(), self.job.turns

    def late(self):
        """Nothing was done or heard for long, though there was time to."""
        if time.monotonic() < self.active + WITHIN or self.job.turns < self.turn + TURNS:
            self.job.at(time.monotonic() + WITHIN / 4, self, "late")
            return
        self.differs("its connection does not end within %d seconds" % WITHIN)
        self.is_cut = True
        self.end()

    def send(self, octets):
        self.act()
        if self.is_cut:
            return
        try:
            if self.socket.send(octets) != len(octets):
                self.is_cut = True
        except OSError:
            self.is_cut = True
            return
        self.sent.append(octets)
        self.table.take(octets)

    def step(self):
        """The next piece; behind the last what brings the stream to its end."""
        if self.phase != "sends":
            return
        if self.pieces and self.table.state != "down":
            self.send(self.pieces.pop(0))
            self.job.at(time.monotonic() + (self.draw.choice((0, 0, 0.001, 0.005)) if 0 < len(self.pieces) < 5 else 0), self, "step")
        elif self.table.state == "down" or self.is_cut:
            self.phase = "ends"
        elif self.table.stream.held:
            self.half_close()
        elif self.table.state == "Up":
            self.fence()
        elif self.draw.random() < 0.5:
            self.phase = "ends"
            self.send(messages.message_of(7, messages.object_of(15, 1, bytes([0, 0, 0, 1]))))
        else:
            self.half_close()

    def half_close(self):
        self.phase, self.is_cut = "ends", True
        with contextlib.suppress(OSError):
            self.socket.shutdown(socket.SHUT_WR)

    def fence(self):
        """An Open, behind whose answer all that came before was taken; and in some streams a right request."""
        self.phase, self.fenced = "fenced", False
        self.send(messages.open_of())
        if self.draw.random() < 0.3:
            own = DOMAINS[self.name][0]
            self.probed = 2**31 + self.number % 2**30
            self.send(messages.message_of(messages.REQUEST, messages.parameters_of(self.probed, 0 if self.name.startswith("client") else 0x40),
                                          messages.ends_between(FIRST[own], FIRST[own]), messages.through((own,))))
        self.proceed()

    def proceed(self):
        """Goes on where the fence is answered, and the request behind it."""
        if self.phase == "fenced" and len(self.words()) >= len(self.table.says) and not (self.probed and self.probe() is None):
            waits = sum(self.table.asked.values()) - bool(self.probed) - len(self.answers)
            self.phase = "waits"
            self.job.at(time.monotonic() + (PATIENCE if waits > 0 or self.name == "down neighbour" else 0), self, "close")

    def probe(self):
        return next((word for word, number in self.answers if number == self.probed), None)

    def close(self):
        if self.phase == "waits" and self.table.stream.held:
            self.half_close()
        elif self.phase == "waits":
            self.phase = "ends"
            self.send(messages.message_of(7, messages.object_of(15, 1, bytes([0, 0, 0, 1]))))

    def words(self):
        """What the session said; of Keepalives the first."""
        found, keeps = [], 0
        for word in self.heard:
            keeps += word == "keepalive"
            if word != "keepalive" or keeps == 1:
                found.append(word)
        return found

    def come(self):
        try:
            piece = self.socket.recv(65536)
        except BlockingIOError:
            return
        except OSError:
            self.is_cut, piece = True, b""
        if not piece:
            self.end()
            return
        self.act()
        if self.connection:
            self.connection.came(piece)
        for octets in self.stream.feed(piece):
            self.hear(octets)
        self.proceed()

    def hear(self, octets):
        try:
            word = session_word(octets)
            if word:
                self.heard.append(word)
                return
            message = messages.read(octets)
            routes = [one.body["hops"] for one in message.objects if one.name == "ERO"]
            self.job.drawer.keys.extend((hop.value[0], str(hop.value[1])) for hops in routes for hop in hops if hop.kind == "key")
            for answer, number in answer_words(message):
                self.answers.append((answer, number))
                if answer == "request sent on" and self.name == "down neighbour" and self.forged < 8 and self.phase in ("fenced", "waits"):
                    self.forged += 1
                    self.job.drawer.changer.draw = self.draw
                    reply = self.job.drawer.reply(number, self.draw)
                    self.send(reply if self.draw.random() < 0.5 else self.job.drawer.changer.message(reply, reply))
        except (messages.Malformed, TypeError, KeyError) as fault:
            self.differs("it hears %s: %s" % (octets.hex(), fault))

    def end(self):
        self.job.selector.unregister(self.socket)
        self.socket.close()
        self.socket, self.phase = None, "ended"
        self.serial += 1
        self.judge()
        self.job.ended(self)

    def differs(self, text):
        self.job.differs("stream %d, %s: %s\n  sent %s\n  heard %s, %s" % (
            self.number, self.name, text, " ".join(piece.hex() for piece in self.sent), self.words(), self.answers))

    def judge(self):
        says, words = self.table.says, self.words()
        if self.table.dead and words[-1:] == ["close 2"] and time.monotonic() - self.began >= self.table.dead - 1:
            says, words = says[:len(words) - 1] + ["close 2"], words
        if words != says and not (self.is_cut and words == says[:len(words)]):
            self.differs("its session says what the table does not: %s" % says)
            return
        self.judge_answers()
        met = self.job.met
        met.update(("row", self.name, row) for row in self.table.rows)
        met.update(("error", self.name, word[6:]) for word in words if word.startswith("error"))
        met.update(("close", self.name, word[6:]) for word in words if word.startswith("close"))
        met.update(("error", self.name, word[6:]) if word.startswith("error") else ("answer", self.name, word) for word, _ in self.answers)

    def judge_answers(self):
        left = self.table.asked.copy()
        for word, number in self.answers:
            if word == "request sent on" or word == "notice 1/1" and self.name == "down neighbour":
                if self.name != "down neighbour":
                    self.differs("it is asked itself")
            elif word == "error 8/0":
                if number is not None and not self.table.replied[number] and not self.table.is_loose:
                    self.differs("a reply to %d is refused that was not sent" % number)
            elif number is not None:
                left[number] -= 1
                if left[number] < 0 and not self.table.is_loose:
                    self.differs("%d is answered %s, and was asked %d times" % (number, word, self.table.asked[number]))
        if len([1 for word, number in self.answers if number is None]) > self.table.requests + sum(self.table.replied.values()) and not self.table.is_loose:
            self.differs("it hears more errors than it sent requests")
        # a reply that is sent beside that request may end the session before its answer
        is_over = self.is_cut or self.table.says[-1].startswith("close")
        if self.probed and self.probe() not in AT_LAST[self.name] and not (is_over and self.probe() is None):
            self.differs("a right request at the end is answered %s" % self.probe())


# ---- what takes a minute


def slow_cases(job, port, name):
    """Rows that take time, one behind the other, at a port of their own."""
    close = messages.message_of(7, messages.object_of(15, 1, bytes([0, 0, 0, 1])))
    rows = ((b"", ["OpenWait: 60 ticks"], "error 1/2", 60), (messages.open_of(), ["KeepWait: 60 ticks"], "error 1/7", 60),
            (messages.open_of(1, 3) + messages.keepalive_of(), ["Up: DeadTimer"], "close 2", 3), (OPENED, ["Up: our Keepalive"], "keepalive", 30),
            (messages.open_of() + messages.message_of(6, messages.object_of(13, 1, bytes([0, 0, 1, 4])), messages.open_of(2, 0)[4:]) + messages.keepalive_of(),
             ["Up: our Keepalive"], "keepalive", 2))
    for octets, met, last, seconds in itertools.cycle(rows):
        connects = time.monotonic()
        with Session(HOST, port, within=seconds + WITHIN) as session:
            stream = records.KeptStream(job.kept.begin(port)) if job.kept else session.stream
            session.stream = stream
            session.send(octets)
            began, words = time.monotonic(), []
            while last not in words[2:] and not (last in words and last != "keepalive"):
                if job.is_over.is_set():
                    return
                try:
                    words.append(session_word(session.next(1)))
                except Silent:
                    if time.monotonic() - began > seconds + WITHIN + 1000 * job.stood_still(connects):
                        job.differs("%s: behind %s it says %s within %d seconds, and not %s" % (name, octets.hex(), words, seconds + WITHIN, last))
                        return
            took = time.monotonic() - began
            if took < seconds - 1.5 and not job.stood_still(connects - 120):
                job.differs("%s: behind %s it says %s after %.1f seconds, and not %d" % (name, octets.hex(), last, took, seconds))
            job.met.update(("row", name, row) for row in met)
            job.met.update([("error" if last.startswith("error") else "close", name, last[6:])] if last != "keepalive" else [])
            if last == "keepalive":
                session.send(close)
                session.rest(WITHIN)


def guarded(job, *given):
    try:
        slow_cases(job, *given)
    except (Ended, Silent, OSError) as fault:
        if not job.is_over.is_set():
            job.differs("%s: %s" % (given, fault))


# ---- a server, and all that is tried at it


class YieldingPlain(servers.Server):
    """A server that yields to what asks it, on a busy machine."""

    def begins(self):
        super().begins()
        os.nice(4)


class Yielding(records.Recorded, YieldingPlain):
    """The same with a record."""


class Job:
    """A server, its peers, and what was met."""

    def __init__(self, program, seed, place, drawer, runs):
        self.program, self.seed, self.place, self.drawer, self.runs = program, seed, place, drawer, runs
        self.met, self.faults, self.number, self.compared, self.events = Counter(), [], 0, 0, 0

    def differs(self, text):
        self.faults.append(text)

    def next_stream(self):
        self.number += 1
        return self.number, random.Random("%d %d %d" % (self.seed, self.place, self.number))

    def at(self, when, line, what):
        heapq.heappush(self.timers, (when, next(self.order), line, line.serial, what))

    def settings(self):
        """The row of three domains and their parent, and peers of all classes."""
        with open(os.path.join(EXAMPLES, "parent", "parent.toml")) as file:
            text = file.read()
        head, parent = text[:text.index("[[peer]]")], text[text.index("[parent]"):]
        rows, ports, place = [], [], 0
        for name, (at, keys) in CLASSES.items():
            for lane in range(LANES + 1):
                row = dict({"name": "p%d" % place, "as": at, "class": name.split()[-1] if "neighbour" in name else name.split()[0], "port": self.first + place}, **keys)
                if name == "down neighbour":
                    row["neighbour"] = 4 + lane
                rows.append(row)
                ports.append((name, self.first + place))
                place += 1
        rows.append({"name": "good", "as": 1, "class": "client", "port": self.first + place})
        self.good_port = self.first + place
        return (head.replace("parent = true", "parent = true\nkey_life = 5") + servers.rows("peer", *rows) + servers.rows("deny", {"at": 2, "from": 8, "next": 3})
                + parent), ports

    def run(self, count, is_recorded):
        """So many streams at one server."""
        self.first = servers.free_ports(len(CLASSES) * (LANES + 1) + 1)
        settings, ports = self.settings()
        files = []
        for name in FILES:
            with open(os.path.join(EXAMPLES, "three", name)) as file:
                files.append((name, file.read()))
        self.kept = records.Came() if is_recorded else None
        made = Yielding if is_recorded else YieldingPlain
        with tempfile.TemporaryDirectory(dir=self.runs) as runs:
            with made(*([runs] if is_recorded else []), self.program, settings, files, within=WITHIN) as server:
                self.serve(server, ports, count)
                if is_recorded:
                    self.compare(server)

    def serve(self, server, ports, count):
        self.turns, self.last, self.stood = 0, time.monotonic(), 0.0
        self.selector, self.timers, self.order, self.left, self.is_over = selectors.DefaultSelector(), [], itertools.count(), count, threading.Event()
        slow, lines = [], []
        for place, (name, port) in enumerate(ports):
            if place % (LANES + 1) == LANES:
                slow.append(threading.Thread(target=guarded, args=(self, port, name), daemon=True))
            else:
                lines.append(Line(self, name, port))
        said = len(server.told.all)
        good = GoodClient(self, self.good_port)
        slow.append(good)
        for thread in slow:
            thread.start()
        for line in lines:
            self.left -= 1
            line.begin()
        self.busy, turn, self.server_runs = len(lines), time.monotonic(), server.is_running
        while self.busy:
            self.turn()
            if time.monotonic() > turn:
                turn = time.monotonic() + 1
                server.say("load 2 %s" % random.choice(("d2.txt", "d2-dearer.txt")))
                if not server.is_running():
                    self.differs("the server ends with status %s" % server.process.returncode)
                    break
        good.is_answered()
        self.is_over.set()
        for thread in slow:
            thread.join(WITHIN + 5)
        if len(server.told.all) > said:
            self.differs("standard error says %s" % server.told.all[said:])
        if server.is_running():
            self.met["memory", "", "at most %d MB" % (64 * (1 + int(server.most_memory()) // 64))] += 1

    def stood_still(self, since):
        """Whether these lines stood still for a while since a moment, so that no time can be judged: the server may have, too, and makes up for it."""
        return self.stood > since or time.monotonic() - self.last > LAG

    def turn(self):
        now = time.monotonic()
        if now - self.last > LAG:
            self.stood = now
        self.last, self.turns = now, self.turns + 1
        for key, _ in self.selector.select(max(0, min(0.1, self.timers[0][0] - now if self.timers else 0.1))):
            key.data.come()
        now = time.monotonic()
        while self.timers and self.timers[0][0] <= now:
            _, _, line, serial, what = heapq.heappop(self.timers)
            if serial == line.serial:
                getattr(line, what)()

    def ended(self, line):
        if self.left > 0 and len(self.faults) < 50:
            self.left -= 1
            line.begin()
        else:
            self.busy -= 1

    def compare(self, server):
        time.sleep(0.5)  # sessions see that their peers have gone
        status = server.finish(WITHIN)
        if status != 0:
            self.differs("behind `stop` it ends with status %s" % status)
        faults, octets, events, _ = records.compare(self.program, server.run(), self.kept)
        self.compared += octets
        self.events += events
        for fault in faults:
            self.differs("the record: %s" % fault)


class GoodClient(threading.Thread):
    """A client that asks for one path again and again."""

    def __init__(self, job, port):
        super().__init__(daemon=True)
        self.job, self.number, self.port = job, 0, port

    def begin(self):
        if self.job.kept:
            return records.KeptSession(self.job.kept, HOST, self.port, WITHIN).begin()
        return Session(HOST, self.port, WITHIN).begin()

    def run(self):
        while not self.job.is_over.is_set():
            try:
                with self.begin() as session:
                    while not self.job.is_over.wait(0.5):
                        self.ask(session)
            except (Ended, Silent, OSError) as fault:
                if not self.job.is_over.is_set():
                    self.job.differs("a client that does no harm: %s" % fault)

    def is_answered(self):
        """Once all others have gone nothing may be left that its requests have to wait for."""
        wanted, until = self.number + 3, time.monotonic() + AT_REST
        while self.number < wanted and self.job.server_runs():
            if time.monotonic() > until:
                self.job.differs("a client that does no harm waits for %d seconds once all others have gone" % AT_REST)
                return
            time.sleep(0.05)

    def ask(self, session):
        self.number += 1
        octets = session.ask(messages.request_of(self.number, "10.1.0.1", "10.3.0.9", (1, 2, 3)), WITHIN)
        objects = messages.read(octets).objects
        cost, notice = messages.first_body(objects, "METRIC"), messages.first_body(objects, "NOTIFICATION")
        if messages.first_body(objects, "RP")["id"] != self.number or not (cost and cost["value"] in LEAST or notice == {"type": 1, "value": 2}):
            self.job.differs("a client that does no harm is answered %s" % octets.hex())


# ---- all of it


def lanes_of(given):
    """A process that runs servers one behind the other, and tells of each what was tried."""
    path, seed, place, counts, recorded, floods, changer, corpus, folder, told = given
    signal.signal(signal.SIGINT, signal.SIG_IGN)
    signal.signal(signal.SIGTERM, signal.SIG_DFL)
    job = Job(path, seed, place, Drawer(changer(None), corpus(), floods), folder)
    for turn, count in enumerate(counts):
        try:
            job.run(count, recorded and turn % recorded == 0)
        except (servers.NotStarted, OSError, Ended, Silent) as fault:
            job.differs("%s: %s" % (type(fault).__name__, fault))
        told.put((job.met, job.faults, job.number, job.compared, job.events))
        job.met, job.faults, job.compared, job.events = Counter(), [], 0, 0
    told.put(None)


def rows_of(met, kind):
    """How often each was met, by all classes."""
    found = Counter()
    for (what, _, name), count in met.items():
        found[name] += count if what == kind else 0
    return +found


def report(met):
    """What was met, and what never."""
    for kind, known in (("row", ROWS), ("error", ERRORS), ("close", CLOSES), ("answer", ANSWERS)):
        found = rows_of(met, kind)
        print("fuzz: %ss met: %s" % (kind, "; ".join("%s %d" % (name, found[name]) for name in sorted(found))))
        never = [name for name in known if not found[name]]
        print("fuzz: %ss never met: %s" % (kind, "; ".join(never) or "none"))
        beyond = [name for name in found if name not in known]
        if beyond:
            print("fuzz: %ss that no page names: %s" % (kind, "; ".join(beyond)))
    for name in CLASSES:
        never = [row for row in ROWS if not met["row", name, row]]
        print("fuzz: rows never met by a %s: %s" % (name, "; ".join(never) or "none"))
    print("fuzz: memory: %s" % ", ".join(sorted(name for (kind, _, name) in met if kind == "memory")), flush=True)


def fuzz(path, seed, count, jobs, recorded, floods, changer, corpus):
    """Tries so many streams; whether all was right."""
    told, met, wrong, compared, events, began = multiprocessing.Queue(), Counter(), 0, 0, 0, time.monotonic()
    numbers, over = Counter(), 0
    with tempfile.TemporaryDirectory() as folder:
        each = [count // jobs + (place < count % jobs) for place in range(jobs)]
        turns = [[min(EPOCH, share - at) for at in range(0, share, EPOCH)] for share in each]
        processes = [multiprocessing.Process(target=lanes_of, args=((path, seed, place, counts, recorded, floods, changer, corpus, folder, told),))
                     for place, counts in enumerate(turns)]
        for process in processes:
            process.start()
        try:
            while over < jobs:
                one = told.get()
                if one is None:
                    over += 1
                    continue
                more, faults, number, octets, played = one
                met.update(more)
                wrong, compared, events = wrong + len(faults), compared + octets, events + played
                numbers[len(numbers)] = 0
                numbers["all"] += min(EPOCH, number)
                for fault in faults[:TOLD]:
                    print("fuzz: %s\n" % fault, flush=True)
                gone = time.monotonic() - began
                print("fuzz: some %d streams, %.0f a second, %d wrong" % (numbers["all"], numbers["all"] / gone, wrong), flush=True)
        except KeyboardInterrupt:
            for process in processes:
                process.terminate()
    report(met)
    tried = sum(number for (kind, _, name), number in met.items() if (kind, name) == ("row", "Idle: begins"))
    print("fuzz: seed %d, %d streams in %d seconds; records of %d events were played, %d octets were compared; %d wrong" % (
        seed, tried, time.monotonic() - began, events, compared, wrong), flush=True)
    return not wrong
