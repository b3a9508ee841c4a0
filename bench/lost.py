"""What bench/lost.sh runs; it says what is shown."""
import argparse
import multiprocessing
import os
import random
import signal
import struct
import subprocess
import sys
import tempfile
import threading
import time
from collections import Counter, namedtuple

TOP = os.path.dirname(os.path.dirname(os.path.abspath(__file__)))
sys.dont_write_bytecode = True
sys.path[:0] = [os.path.join(TOP, "tools"), os.path.join(TOP, "bench")]
import messages  # noqa: E402
import records  # noqa: E402
import servers  # noqa: E402
import wires  # noqa: E402
from sessions import Ended, Session, Silent  # noqa: E402

PORT = 4189
PROGRAMS = 4
PACE = 0.5  # seconds between requests of a client: while a line is silent, far fewer wait than an element has room for
DEAD = 120  # the DeadTimer of elements
SLACK = 15  # seconds beyond a time of the standard, on a busy machine
FOUND = 70 + SLACK  # within a minute after it is back a program is dialled, and a try takes ten seconds
FELT = 30 + SLACK  # behind a reset of one end the other says something within 30 seconds, is reset too, and takes the next connection
BROKEN = "no path 1 00000008"
DAY = 86400

Question = namedtuple("Question", "domains bandwidth kind answer")
Asked = namedtuple("Asked", "question at")


# ---- the network, and what is answered in it


def topology(domain):
    """Two nodes, each an entry from that side, with a cheap and a dear link each way, and links to both neighbours."""
    near, far = "10.%d.0.1" % domain, "10.%d.0.2" % domain
    rows = ["topology %d" % domain, "node " + near, "node " + far]
    for place, (one, other) in enumerate(((near, far), (far, near))):
        rows += ["link %s %s 20.%d.%d.1 30.%d.%d.1 2 %d 1000 00000000" % (one, other, domain, place, domain, place, domain),
                 "link %s %s 20.%d.%d.2 30.%d.%d.2 1 %d 8000 00000000" % (one, other, domain, place, domain, place, 10 * domain)]
    for place, (there, node, other) in enumerate(((domain - 1, near, 2), (domain + 1, far, 1))):
        if 1 <= there <= PROGRAMS:
            rows += ["out %s 10.%d.0.%d 40.%d.%d.1 50.%d.%d.1 %d 1 1 8000 00000000" % (node, there, other, domain, place, domain, place, there),
                     "entry %s %d" % (node, there)]
    return "".join(row + "\n" for row in rows)


def cost(domains, bandwidth, kind):
    """By hand: the link of each domain, and one between two. te: cheap or dear; igp: the dear link has 1, the cheap 2; hops: one each."""
    within = {2: sum(domains) * (10 if bandwidth > 1000 else 1), 1: len(domains), 3: len(domains)}[kind]
    return within + len(domains) - 1


def questions(domains):
    return [Question(domains, bandwidth, kind, "cost %d" % cost(domains, bandwidth, kind)) for bandwidth in (0, 2000) for kind in (2, 1, 3)] + [
        Question(domains, 9000, 2, "no path 0 00000000")]


# some of them in figures, so that the rule is not all that is looked at
assert [cost(*row) for row in (((1, 2, 3, 4), 0, 2), ((1, 2, 3, 4), 2000, 2), ((1, 2, 3, 4), 0, 1), ((1,), 0, 2), ((4, 3), 2000, 2))] == [13, 103, 7, 1, 71]


def request_of(ident, question):
    there = question.domains[0] <= question.domains[-1] and question.domains[0] < PROGRAMS
    source, target = (1, 2) if there else (2, 1)
    more = [messages.object_of(5, 1, struct.pack(">f", question.bandwidth))] if question.bandwidth else []
    return messages.message_of(messages.REQUEST, messages.parameters_of(ident), messages.ends_between("10.%d.0.%d" % (question.domains[0], source),
                               "10.%d.0.%d" % (question.domains[-1], target)), *more, messages.object_of(6, 1, bytes([0, 0, 0, question.kind, 0, 0, 0, 0])),
                               messages.through(question.domains))


def told(octets):
    """The numbers of the requests that a message answers, and its answer in short."""
    objects = messages.read(octets).objects
    cost_told, none, error, notice = (messages.first_body(objects, name) for name in ("METRIC", "NO-PATH", "PCEP-ERROR", "NOTIFICATION"))
    numbers = [one.body["id"] for one in objects if one.name == "RP"]
    if error or notice:
        return numbers, "%s %d/%d" % ("error" if error else "notice", (error or notice)["type"], (error or notice)["value"])
    if none:
        return numbers, "no path %d %08x" % (none["nature"], none["vector"])
    return numbers, "cost %d" % cost_told["value"] if cost_told else octets.hex()


def settings(domain):
    rows = [{"name": "n%d" % other, "as": domain, "class": "neighbour", "neighbour": other, "down": True, key: address(other)}
            for other, key in ((domain - 1, "from"), (domain + 1, "connect")) if 1 <= other <= PROGRAMS]
    rows += [{"name": "c%d" % domain, "as": domain, "class": "client", "from": address(100 + domain)}]
    element = {"as": domain, "id": "192.0.2.%d" % domain, "topology": "d%d.txt" % domain, "key_life": 5}
    return servers.rows("element", element) + servers.rows("peer", *rows)


def address(place):
    return "10.77.0.%d" % place


def first_witness(program):
    """What `pce path` says of one program that holds all, for the questions that its words can put."""
    with tempfile.TemporaryDirectory() as folder:
        names = ["d%d.txt" % domain for domain in range(1, PROGRAMS + 1)]
        for domain, name in enumerate(names, 1):
            with open(os.path.join(folder, name), "w") as file:
                file.write(topology(domain))
        with open(os.path.join(folder, "whole.toml"), "w") as file:
            file.write(servers.in_a_row(PROGRAMS, [], names))
        for domains in ((1, 2, 3, 4), (4, 3, 2, 1), (1, 2), (4, 3), (1,), (4,)):
            source, target = (1, 2) if domains[0] == 1 else (2, 1)
            done = subprocess.run([program, "path", os.path.join(folder, "whole.toml"), "10.%d.0.%d" % (domains[0], source), "10.%d.0.%d" % (domains[-1], target),
                                   *map(str, domains)], capture_output=True, text=True, timeout=60)
            wanted = "cost %d" % cost(domains, 0, 2)
            if done.stdout.split("\n")[0] != wanted:
                return "`pce path` says %s of the domains %s, and not %s" % (done.stdout.split("\n")[0], domains, wanted)
    return None


# ---- clients


class Asker(threading.Thread):
    """A client that asks without end, on a machine of its own, and looks at each answer."""

    def __init__(self, part, domain):
        super().__init__(daemon=True)
        self.part, self.domain, self.host = part, domain, address(domain)
        whole = tuple(range(domain, PROGRAMS + 1) if domain == 1 else range(domain, 0, -1))
        self.questions = [question for count in (PROGRAMS, PROGRAMS, 2, 1) for question in questions(whole[:count])]
        self.number, self.waiting, self.sessions = 0, {}, 0
        self.right = {}  # by the domains of a question, when the last one was asked that was answered right

    def run(self):
        self.part.machines[100 + self.domain].enter()
        while not self.part.is_over:
            try:
                with Session(self.host, PORT, within=30) as session:
                    session.begin(10, 60)
                    self.sessions += 1
                    self.talk(session)
            except (Ended, Silent, OSError) as fault:
                if not self.part.is_over:
                    self.lose(fault)
                time.sleep(0.5)

    def lose(self, fault):
        self.part.count["asked of a session that ended"] += len(self.waiting)
        self.part.count["sessions that ended"] += 1
        if not self.part.may_end(self.domain):
            self.part.differs("the session of c%d ends: %s" % (self.domain, fault))
        self.waiting.clear()

    def talk(self, session):
        ask = keep = heard = time.monotonic()
        while not self.part.is_over:
            now = time.monotonic()
            if now >= ask:
                ask = now + PACE
                self.ask(session)
            if now >= keep:
                keep = now + 10
                session.send(messages.keepalive_of())
            try:
                octets = session.next(max(0.01, min(ask, keep) - time.monotonic()))
                heard = time.monotonic()
                if octets[1] == messages.CLOSE:
                    raise Ended("it says %s" % octets.hex())
                if octets[1] != messages.KEEPALIVE:
                    self.hear(octets)
            except Silent:
                if time.monotonic() - heard > DEAD:
                    raise
            late = [number for number, one in self.waiting.items() if time.monotonic() - one.at > DEAD + SLACK + FELT]
            for number in late:
                self.part.differs("a request of c%d through %s waits for %d seconds" % (self.domain, self.waiting[number].question.domains, DEAD + SLACK + FELT))
                del self.waiting[number]

    def ask(self, session):
        self.number += 1
        question = self.part.draws.choice(self.questions)
        self.waiting[self.number] = Asked(question, time.monotonic())
        self.part.count["asked"] += 1
        session.send(request_of(self.number, question))

    def hear(self, octets):
        numbers, answer = told(octets)
        for number in numbers or [None]:
            asked = self.waiting.pop(number, None)
            if asked is None:
                self.part.differs("c%d is answered %s under number %s, which does not wait" % (self.domain, octets.hex(), number))
            elif answer == asked.question.answer:
                self.part.count["answered right"] += 1
                self.right[asked.question.domains] = max(asked.at, self.right.get(asked.question.domains, 0))
            elif answer == BROKEN and self.part.may_break(asked):
                self.part.count["told of a line that is lost"] += 1
                self.part.longest = max(self.part.longest, time.monotonic() - asked.at)
            else:
                self.part.differs("c%d is answered %s, and not %s, %.1f seconds behind its request, through %s" % (
                    self.domain, answer, asked.question.answer, time.monotonic() - asked.at, asked.question.domains))


# ---- a chain, and what is done to its network


class Part:
    """Four programs on four machines, and two clients."""

    def __init__(self, program, seed, name, clocks=None):
        self.program, self.name, self.draws = program, name, random.Random(seed)
        self.wrong, self.count, self.times, self.is_over, self.longest = [], Counter(), [], False, 0.0
        self.troubles = []  # of each the lines that may be lost, whose sessions may end, when it began and when it was over
        self.machines = {place: wires.Machine(address(place)) for place in (*range(1, PROGRAMS + 1), 101, 100 + PROGRAMS, 102)}
        self.wire = wires.Wire(list(self.machines.values()), seed)
        files = [("d%d.txt" % domain, topology(domain)) for domain in range(1, PROGRAMS + 1)]
        self.running = {domain: wires.Served(self.machines[domain], program, settings(domain), files, more=clocks) for domain in range(1, PROGRAMS + 1)}
        self.askers = [Asker(self, domain) for domain in (1, PROGRAMS)]

    def __enter__(self):
        with self.trouble("the start", [(1, 2), (2, 3), (3, 4)], within=FOUND):
            for asker in self.askers:
                asker.start()
        return self

    def __exit__(self, kind, *_):
        if kind is None:
            time.sleep(3)
        self.is_over = True
        for asker in self.askers:
            asker.join(10)
        for domain, server in self.running.items():
            if not server.is_running():
                self.differs("the program of domain %d ends with status %s" % (domain, server.process.returncode))
            more = server.told.all[server.told.all.index("pce: ready") + 1:]
            if more:
                self.differs("the program of domain %d says %s" % (domain, more))
            server.__exit__()

    def differs(self, text):
        self.wrong.append("%s: %s" % (self.name, text))
        print("lost: %s: %s" % (self.name, text), flush=True)

    def way(self, one, other):
        return self.wire.way(self.machines[one], self.machines[other])

    def lines_of(self, question):
        return {tuple(sorted(pair)) for pair in zip(question.domains, question.domains[1:])}

    def may_break(self, asked):
        """Whether a line that the request needs may have been lost while it waited."""
        return any(self.lines_of(asked.question) & set(lines) and (ended is None or asked.at <= ended) for lines, _, _, ended in self.troubles)

    def may_end(self, domain):
        return any(domain in of and (ended is None or time.monotonic() <= ended + SLACK) for _, of, _, ended in self.troubles)

    def trouble(self, what, lines, of=(), within=FOUND):
        return Trouble(self, what, lines, of, within)

    def comes_right(self, within):
        """Waits until whole paths are answered both ways that were asked from now on; after how many seconds."""
        began = time.monotonic()
        while time.monotonic() < began + within:
            if all(asker.right.get(asker.questions[0].domains, 0) >= began for asker in self.askers):
                return time.monotonic() - began
            time.sleep(0.05)
        return None

    def answers_alone(self, since, domains):
        """Whether these were asked and answered since a moment."""
        return any(asker.right.get(domains, 0) >= since for asker in self.askers)


class Trouble:
    """Something happens to these lines: behind it answers come right again within so many seconds."""

    def __init__(self, part, what, lines, of, within):
        self.part, self.what, self.within = part, what, within
        self.row = [lines, of, time.monotonic(), None]

    def __enter__(self):
        self.part.troubles.append(self.row)
        return self

    def __exit__(self, kind, *_):
        if kind:
            return
        took = self.part.comes_right(self.within)
        if took is None:
            self.part.differs("behind %s no path is answered within %d seconds" % (self.what, self.within))
        else:
            self.part.times.append("%s %.1f s" % (self.what, took))
        self.row[3] = time.monotonic()


def waits_for_broken(part, what, begun):
    """Requests that wait on a line without a sign are told so at DeadTimer, not before, and not much later."""
    before = part.count["told of a line that is lost"]
    while part.count["told of a line that is lost"] == before and time.monotonic() < begun + DEAD + SLACK:
        time.sleep(0.05)
    took = time.monotonic() - begun
    if not DEAD - 30 - 2 <= took < DEAD + SLACK:
        part.differs("%s: it is told after %.0f seconds" % (what, took))
    part.times.append("%s: told after %.1f s" % (what, took))


def quiet(part, seconds, what):
    """So long nothing but right answers may come, and some must, of whole paths both ways too."""
    before, since = part.count["answered right"], time.monotonic()

    def came():
        return part.count["answered right"] - before >= seconds / PACE / 2 and all(asker.right.get(asker.questions[0].domains, 0) >= since for asker in part.askers)
    time.sleep(seconds)
    while not came() and time.monotonic() < since + seconds + SLACK:
        time.sleep(0.05)
    if not came():
        part.differs("%s: in %d seconds %d answers, whole paths last asked at %s" % (
            what, seconds + SLACK, part.count["answered right"] - before, [asker.right.get(asker.questions[0].domains, 0) - since for asker in part.askers]))


# ---- the parts


def loss(program, seed):
    """Loss, delay, another order, twice, stalls, with wall clocks that jump; then resets; and clients that vanish."""
    with tempfile.TemporaryDirectory() as folder:
        library, shown, runs = (os.path.join(folder, name) for name in ("jump.so", "jumped", "runs"))
        subprocess.run(["cc", "-O2", "-shared", "-fPIC", "-o", library, os.path.join(TOP, "bench/plain/jump.c")], check=True)
        os.mkdir(runs)
        with open(shown, "wb") as file:
            file.write(bytes(16))
        clocks = {"LD_PRELOAD": library, "JUMPED": shown}
        with Part(program, seed, "loss", clocks) as part:
            keeps_record(part, runs, clocks)
            stop = threading.Event()
            jumps = threading.Thread(target=jump, args=(part, shown, stop), daemon=True)
            jumps.start()
            bad_lines(part)
            stop.set()
            jumps.join()
            forged_resets(part)
            vanishing_client(part)
        plays(part, runs, shown)
    return part


def keeps_record(part, runs, clocks):
    """The program of domain 2 begins anew, and writes a record."""
    with part.trouble("a program that is started anew", [(1, 2), (2, 3)]):
        part.running[2].stop()
        part.running[2].more = dict(clocks, PCE_RECORD=runs)
        part.running[2].start()


def jump(part, shown, stop):
    """The wall clocks of all four jump by days, forward and back."""
    while not stop.wait(2):
        with open(shown, "r+b") as file:
            file.write(struct.pack("q", part.draws.choice((-400, -3, -1, 0, 1, 2, 30, 365)) * DAY))
        part.count["jumps of the clock"] += 1


def bad_lines(part):
    for what, delay, jitter, lost, twice, seconds in (("delay and another order", 0.02, 0.03, 0, 0.02, 20), ("a little loss", 0.01, 0.02, 0.03, 0.01, 30),
                                                      ("much loss", 0.02, 0.04, 0.15, 0.02, 40)):
        for way in part.wire.every_way():
            way.delay, way.jitter, way.loss, way.twice = delay, jitter, lost, twice
        quiet(part, seconds, what)
    for way in part.wire.every_way():
        way.loss = 0
    for seconds in (5, 15):
        part.way(2, 3).held_until = part.way(1, 101).held_until = time.monotonic() + seconds
        quiet(part, seconds + 10, "a stall")
    for way in part.wire.every_way():
        way.delay = way.jitter = way.twice = 0


def forged_resets(part):
    for one, other in ((2, 3), (1, 2), (3, 4), (2, 3)):
        with part.trouble("a reset", [(one, other)], within=FELT):
            part.way(one, other).resets += 1
            time.sleep(2)
    for one, other in ((1, 101), (4, 104)):
        with part.trouble("a reset of a client", [], of=[one], within=FELT):
            part.way(one, other).resets += 1
            time.sleep(2)
    time.sleep(SLACK)


def vanishing_client(part):
    """A client of domain 2 with a DeadTimer vanishes: the next one from its address has to wait that long, and no longer."""
    told_after = []

    def run():
        part.machines[102].enter()
        for dead in (4, 9):
            with Session(address(2), PORT) as first:
                first.begin(1, dead)
                part.wire.forget(part.machines[2], part.machines[102])
                began = time.monotonic()
                with Session(address(2), PORT, within=dead + 2 * SLACK) as second:
                    try:
                        second.next()
                        told_after.append((dead, time.monotonic() - began))
                    except (Ended, Silent) as fault:
                        part.differs("a client behind one that vanished: %s" % fault)
    thread = threading.Thread(target=run)
    thread.start()
    thread.join()
    for dead, took in told_after:
        if not dead - 1.5 <= took < dead + SLACK:
            part.differs("behind a client that vanished with DeadTimer %d the next one is served after %.1f seconds" % (dead, took))
        part.times.append("a client behind one that vanished with DeadTimer %d: %.1f s" % (dead, took))


def plays(part, runs, shown):
    """The record that was written while the clock jumped plays, and the program did look at that clock."""
    folder = os.path.join(runs, sorted(os.listdir(runs))[-1])
    replay = records.Replay(part.program, folder)
    sessions = sum(1 for _ in replay.sessions())
    if replay.status != 0 or replay.refused or not replay.events:
        part.differs("the record of a clock that jumps: status %s, %d events, refused %s" % (replay.status, replay.events, replay.refused[:3]))
    with open(shown, "rb") as file:
        seen = struct.unpack("qq", file.read())[1]
    if not seen or len(replay.parts) < 2:
        part.differs("the clock that jumped was read %d times, and the record has %d parts" % (seen, len(replay.parts)))
    part.times.append("record of %d events, %d sessions and %d parts, the jumped clock read %d times" % (replay.events, sessions, len(replay.parts), seen))


def silence(program, seed):
    """Connections between two programs die without a sign, and new ones pass."""
    with Part(program, seed, "silence") as part:
        quiet(part, 5, "before")
        with part.trouble("a line that died without a sign", [(2, 3)]):
            begun = time.monotonic()
            part.wire.forget(part.machines[2], part.machines[3])
            waits_for_broken(part, "a line that died without a sign", begun)
        quiet(part, 5, "behind it")
        return part


def parted(program, seed):
    """The chain is in two parts for more than two minutes."""
    with Part(program, seed, "parted") as part:
        quiet(part, 5, "before")
        with part.trouble("two parts", [(2, 3)]):
            begun = time.monotonic()
            part.way(2, 3).is_cut = True
            waits_for_broken(part, "two parts", begun)
            time.sleep(max(0, begun + DEAD + 10 - time.monotonic()))
            for domains in ((1, 2), (4, 3), (1,), (4,)):
                if not part.answers_alone(begun + 5, domains):
                    part.differs("while the chain is in two parts, no path is answered through %s" % (domains,))
            part.way(2, 3).is_cut = False
        quiet(part, 5, "behind it")
        return part


def vanished(program, seed):
    """A machine vanishes, without a word of its programs, and is there again: at once, and after DeadTimer."""
    lines = [(2, 3), (3, 4)]
    with Part(program, seed, "vanished") as part:
        for seconds in (5, DEAD + 10):
            quiet(part, 5, "before")
            with part.trouble("a machine that was away for %d s" % seconds, lines):
                begun = time.monotonic()
                for other in (2, 4):
                    part.way(3, other).is_cut = True
                part.running[3].stop(signal.SIGKILL)
                if seconds > DEAD:
                    waits_for_broken(part, "a machine that vanished", begun)
                time.sleep(max(0, begun + seconds - time.monotonic()))
                for other in (2, 4):
                    part.way(3, other).is_cut = False
                part.running[3].start()
        quiet(part, 5, "behind it")
        return part


def still(program, seed):
    """A machine stands still: for less than DeadTimer, which nobody is told of, and for longer."""
    with Part(program, seed, "still") as part:
        quiet(part, 5, "before")
        servers.freeze(part.running[2].process)
        time.sleep(25)
        part.running[2].process.send_signal(signal.SIGCONT)
        quiet(part, 20, "behind 25 seconds of standing still")
        with part.trouble("a machine that stood still for %d s" % (DEAD + 30), [(1, 2), (2, 3)]):
            begun = time.monotonic()
            servers.freeze(part.running[2].process)
            waits_for_broken(part, "a machine that stands still", begun)
            time.sleep(max(0, begun + DEAD + 30 - time.monotonic()))
            part.running[2].process.send_signal(signal.SIGCONT)
        quiet(part, 5, "behind it")
        return part


PARTS = (loss, silence, parted, vanished, still)


def one_part(part, program, seed, told_to):
    try:
        made = part(program, seed)
        wire = made.wire
        told_to.put((part.__name__, made.wrong, made.count, made.times, made.longest, [wire.carried, wire.lost, wire.turned, wire.doubled, wire.reset]))
    except (servers.NotStarted, OSError, Ended, Silent, subprocess.SubprocessError, ValueError) as fault:
        told_to.put((part.__name__, ["%s: %s" % (type(fault).__name__, fault)], Counter(), [], 0.0, [0] * 5))


def main():
    says = argparse.ArgumentParser()
    says.add_argument("program", nargs="?", default=os.path.join(TOP, "crates/pce_main/out/pce_main"))
    says.add_argument("parts", nargs="*", default=[])
    says.add_argument("--seed", type=int, default=1)
    given = says.parse_args()
    program = os.path.abspath(given.program)
    if not os.access(program, os.X_OK):
        sys.exit("lost: no program %s; `rt ci` builds it" % program)
    fault = wires.fault_of_machine()
    if fault:
        print("lost: no such network can be made here: %s" % fault)
        sys.exit(2)
    began, wrong = time.monotonic(), []
    fault = first_witness(program)
    if fault:
        wrong.append(fault)
        print("lost: %s" % fault)
    told_to, count, packets = multiprocessing.Queue(), Counter(), [0] * 5
    chosen = [part for part in PARTS if not given.parts or part.__name__ in given.parts]
    processes = [multiprocessing.Process(target=one_part, args=(part, program, given.seed, told_to)) for part in chosen]
    for process in processes:
        process.start()
    for _ in chosen:
        name, faults, more, times, longest, carried = told_to.get()
        wrong += faults
        count.update(more)
        packets = [one + other for one, other in zip(packets, carried)]
        print("lost: %s: %s; the longest wait for a line that was lost %.1f s; %d wrong" % (name, "; ".join(times), longest, len(faults)), flush=True)
        for fault in faults[:20] if not more else []:
            print("lost: %s: %s" % (name, fault))
    for process in processes:
        process.join()
    print("lost: %s; of %d packets %d lost, %d turned, %d twice, %d resets; %d wrong, in %d seconds" % (
        ", ".join("%d %s" % (count[what], what) for what in ("asked", "answered right", "told of a line that is lost", "asked of a session that ended",
                                                             "sessions that ended", "jumps of the clock")), *packets, len(wrong), time.monotonic() - began))
    sys.exit(1 if wrong else 0)


if __name__ == "__main__":
    main()
