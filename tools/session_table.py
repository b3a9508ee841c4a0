"""The table of a session (docs/PROFILE.md, "Sessions"), worked out from the octets that a peer sends, and the words of what an element says, for
tools/fuzz_serve.py. Nothing here is the program's own: messages are read by messages.py."""
from collections import Counter

import messages

STATEFUL = {10: "19/5", 11: "19/2"}
OF_SESSION = (1, 2, 9, 19)  # types of PCErr that a session says
ROWS = ("Idle: begins", "OpenWait: Open", "OpenWait: Open of another version", "OpenWait: Close", "OpenWait: another message", "OpenWait: no message",
        "OpenWait: 60 ticks", "KeepWait: Keepalive", "KeepWait: PCErr 1/4 with an OPEN", "KeepWait: PCErr 1/4 again", "KeepWait: PCErr 1/4 without an OPEN",
        "KeepWait: another PCErr", "KeepWait: Close", "KeepWait: another message", "KeepWait: no message", "KeepWait: 60 ticks", "Up: Keepalive", "Up: Open",
        "Up: PCReq", "Up: PCRep", "Up: PCNtf", "Up: PCErr", "Up: Close", "Up: type 10", "Up: type 11", "Up: unknown type", "Up: the fifth unknown type",
        "Up: no message", "Up: DeadTimer", "Up: our Keepalive")
NAMED = {0: "", 2: ", target", 4: ", source", 6: ", source, target", 8: ", chain", 16: ", key"}


class Table:
    """What a session says to these octets, and which rows that takes."""

    def __init__(self):
        self.stream, self.state = messages.Stream(), "OpenWait"
        self.says, self.rows = ["open 30 120"], ["Idle: begins"]
        self.retried, self.unknown, self.dead, self.keepalive = False, 0, 0, 30
        self.asked, self.replied, self.requests, self.is_loose = Counter(), Counter(), 0, False

    def take(self, octets):
        """Octets that are sent."""
        for frame in self.stream.feed(octets):
            if self.state == "down":
                return
            try:
                if self.stream.bad and not messages.is_head(frame.ljust(4, b"\0")):
                    raise messages.Malformed(0)
                message = messages.read(frame)
            except messages.Malformed:
                self.is_loose = self.is_loose or self.state == "Up" and frame[1:2] in (b"\3", b"\4")
                self.bad()
                continue
            getattr(self, "in_" + self.state)(message)

    def row(self, name, *says, then=None):
        self.rows.append("%s: %s" % (self.state, name))
        self.says += says
        self.state = then or self.state

    def bad(self):
        self.row("no message", "close 3" if self.state == "Up" else "error 1/1", then="down")

    def in_OpenWait(self, message):
        opening = messages.first_body(message.objects or [], "OPEN")
        if message.kind == messages.OPEN and opening["version"] == 1:
            self.dead = opening["dead"]
            self.row("Open", "keepalive", then="KeepWait")
        elif message.kind == messages.OPEN:
            self.row("Open of another version", "error 1/8", then="down")
        elif message.kind == messages.CLOSE:
            self.row("Close", then="down")
        else:
            self.row("another message", "error 1/1", then="down")

    def in_KeepWait(self, message):
        if message.kind == messages.KEEPALIVE:
            self.row("Keepalive", then="Up")
        elif message.kind == messages.ERROR:
            self.refused(messages.first_body(message.objects, "PCEP-ERROR"), messages.first_body(message.objects, "OPEN"))
        elif message.kind == messages.CLOSE:
            self.row("Close", then="down")
        else:
            self.row("another message", "error 1/1", then="down")

    def refused(self, error, opening):
        if error is None or (error["type"], error["value"]) != (1, 4):
            self.row("another PCErr", then="down")
        elif opening is None or self.retried:
            self.row("PCErr 1/4 without an OPEN" if opening is None else "PCErr 1/4 again", "error 1/6", then="down")
        else:
            self.retried, self.keepalive = True, opening["keepalive"]
            self.row("PCErr 1/4 with an OPEN", "open %d %d" % (opening["keepalive"], opening["dead"]))

    def in_Up(self, message):
        kind = message.kind
        if kind == messages.KEEPALIVE:
            self.row("Keepalive")
        elif kind == messages.OPEN:
            self.row("Open", "error 9/0")
        elif kind == messages.CLOSE:
            self.row("Close", then="down")
        elif kind in STATEFUL:
            self.row("type %d" % kind, "error " + STATEFUL[kind], "close 1", then="down")
        elif message.objects is None:
            self.unknown += 1
            if self.unknown == 5:
                self.row("the fifth unknown type", "error 2/0", "close 5", then="down")
            else:
                self.row("unknown type", "error 2/0")
        else:
            self.row({messages.REQUEST: "PCReq", messages.REPLY: "PCRep", messages.NOTICE: "PCNtf", messages.ERROR: "PCErr"}[kind])
            self.passes(message)

    def passes(self, message):
        for group in messages.groups(message):
            numbers = [one.body["id"] for one in group if one.name == "RP"]
            if message.kind == messages.REQUEST:
                self.requests += 1
                self.asked.update(numbers[:1])
            elif message.kind == messages.REPLY:
                self.replied.update(numbers)


# ---- what is heard


def session_word(octets):
    """What a session says, in short; none where it is an answer."""
    if octets[1] == messages.KEEPALIVE:
        return "keepalive"
    message = messages.read(octets)
    if message.kind == messages.OPEN:
        body = messages.first_body(message.objects, "OPEN")
        return "open %d %d" % (body["keepalive"], body["dead"])
    if message.kind == messages.CLOSE:
        return "close %d" % messages.first_body(message.objects, "CLOSE")["reason"]
    error = messages.first_body(message.objects or [], "PCEP-ERROR")
    if message.kind == messages.ERROR and error["type"] in OF_SESSION:
        return "error %d/%d" % (error["type"], error["value"])
    return None


def answer_words(message):
    """Of each answer in a message its kind and the number of its request."""
    for group in messages.groups(message):
        numbers = [one.body["id"] for one in group if one.name == "RP"] or [None]
        error, notice, none = (messages.first_body(group, name) for name in ("PCEP-ERROR", "NOTIFICATION", "NO-PATH"))
        if message.kind == messages.REQUEST:
            word = "request sent on"
        elif error:
            word = "error %d/%d" % (error["type"], error["value"])
        elif notice:
            word = "notice %d/%d" % (notice["type"], notice["value"])
        elif none:
            word = "no path %d%s" % (none["nature"], NAMED.get(none["vector"], ", %08x" % none["vector"]))
        else:
            flags = messages.first_body(group, "RP")["flags"]
            word = "path behind a key" if flags & 0x100 else "branches" if flags & 0x40 else "path"
        for number in numbers:
            yield word, number
