"""Reads PCEP messages, and writes those of a router, for the programs of this folder and of .ci.

A message is read by the rules of docs/PROFILE.md ("Objects", "How objects make messages"), and what is malformed is named as the program's own
reading names it: by the place of the first object at fault, where the header stands at 0. The program tells only that a message is malformed,
not where; `.ci/views` compares the two readings over many messages. Nothing here judges whether a request is answered or refused."""
import ipaddress
import struct
from collections import namedtuple

VERSION = 1
OPEN, KEEPALIVE, REQUEST, REPLY, NOTICE, ERROR, CLOSE = 1, 2, 3, 4, 5, 6, 7

Object = namedtuple("Object", "name class_number kind must place body")
Hop = namedtuple("Hop", "kind loose value")
Exclusion = namedtuple("Exclusion", "kind avoid value")
Message = namedtuple("Message", "kind objects")


class Malformed(Exception):
    """What is no message; `place` is that of the first object at fault."""

    def __init__(self, place):
        super().__init__("malformed at %d" % place)
        self.place = place


class Fault(Exception):
    """A part that is not as it has to be."""


def need(holds):
    if not holds:
        raise Fault()


def address(octets):
    return ipaddress.ip_address(bytes(octets))


def number(octets):
    return int.from_bytes(octets, "big")


def single(octets):
    """The value of a word of single precision."""
    word = number(octets)
    need(word <= 1 << 31 and (word >> 23) & 255 != 255)
    return struct.unpack(">f", octets)[0]


def tlvs(octets):
    """The TLVs behind the fixed part of a body: type and value."""
    found = []
    while octets:
        need(len(octets) >= 4)
        kind, length = struct.unpack(">HH", octets[:4])
        padded = 4 + (length + 3) // 4 * 4
        need(len(octets) >= padded)
        found.append((kind, octets[4:4 + length]))
        octets = octets[padded:]
    return found


def word_among(kind, octets):
    """The number in the first TLV of this type that has four octets, or none."""
    return next((number(value) for have, value in tlvs(octets) if have == kind and len(value) == 4), None)


def subobjects(octets, lengths):
    """The subobjects of a body: their first bit, type and content."""
    found = []
    while octets:
        need(len(octets) >= 2)
        bit, kind, length = octets[0] >= 128, octets[0] % 128, octets[1]
        need(length <= len(octets))
        need(length == lengths[kind] if kind in lengths else length >= 4 and length % 4 == 0)
        found.append((bit, kind, octets[2:length]))
        octets = octets[length:]
    return found


def hops(octets):
    """The steps of a route."""
    found = []
    for loose, kind, content in subobjects(octets, {1: 8, 2: 20, 32: 4, 64: 8, 65: 20}):
        if kind in (1, 2):
            found.append(Hop("address", loose, (address(content[:-2]), content[-2])))
        elif kind == 32:
            found.append(Hop("domain", loose, number(content)))
        elif kind in (64, 65):
            found.append(Hop("key", loose, (number(content[:2]), address(content[2:]))))
        else:
            found.append(Hop("other", loose, (kind, content)))
    return found


def exclusions(octets):
    found = []
    for avoid, kind, content in subobjects(octets, {1: 8, 2: 20, 32: 4, 34: 8}):
        if kind in (1, 2):
            found.append(Exclusion("address", avoid, (address(content[:-2]), content[-2], content[-1])))
        elif kind == 32:
            found.append(Exclusion("domain", avoid, number(content)))
        elif kind == 34:
            found.append(Exclusion("risk", avoid, number(content[:4])))
        else:
            found.append(Exclusion("other", avoid, (kind, content)))
    return found


# ---- bodies of objects, each by its octets behind the header


def open_body(octets):
    need(len(octets) >= 4)
    stateful = word_among(16, octets[4:]) is not None
    return {"version": octets[0] >> 5, "keepalive": octets[1], "dead": octets[2], "session": octets[3], "stateful": stateful}


def request_parameters(octets):
    need(len(octets) >= 8)
    tlvs(octets[8:])
    return {"flags": number(octets[:4]), "id": number(octets[4:8])}


def no_path(octets):
    need(len(octets) >= 4)
    return {"nature": octets[0], "vector": word_among(1, octets[4:]) or 0}


def ends_of(width):
    def end_points(octets):
        need(len(octets) == 2 * width)
        return {"source": address(octets[:width]), "target": address(octets[width:])}
    return end_points


def bandwidth(octets):
    need(len(octets) == 4)
    return {"value": single(octets)}


def metric(octets):
    need(len(octets) == 8)
    return {"bound": bool(octets[2] & 1), "computed": bool(octets[2] & 2), "type": octets[3], "value": single(octets[4:])}


def attributes(octets):
    need(len(octets) >= 16)
    tlvs(octets[16:])
    return {"none": number(octets[:4]), "any": number(octets[4:8]), "all": number(octets[8:12])}


def route(octets):
    return {"hops": hops(octets)}


def kind_and_value(octets):
    need(len(octets) >= 4)
    tlvs(octets[4:])
    return {"type": octets[2], "value": octets[3]}


def reason(octets):
    need(len(octets) >= 4)
    tlvs(octets[4:])
    return {"reason": octets[3]}


def excluded(octets):
    need(len(octets) >= 4)
    return {"exclusions": exclusions(octets[4:])}


# by class and type
BODIES = {
    (1, 1): ("OPEN", open_body), (2, 1): ("RP", request_parameters), (3, 1): ("NO-PATH", no_path), (4, 1): ("END-POINTS", ends_of(4)),
    (4, 2): ("END-POINTS", ends_of(16)), (5, 1): ("BANDWIDTH", bandwidth), (6, 1): ("METRIC", metric), (7, 1): ("ERO", route),
    (9, 1): ("LSPA", attributes), (10, 1): ("IRO", route), (12, 1): ("NOTIFICATION", kind_and_value),
    (13, 1): ("PCEP-ERROR", kind_and_value), (15, 1): ("CLOSE", reason), (16, 1): ("PATH-KEY", route), (17, 1): ("XRO", excluded)}


def unread(octets):
    return {"octets": octets}


def object_at(octets, place):
    """The object at a place of a message, and the place behind it."""
    rest = octets[place:]
    try:
        need(len(rest) >= 4)
        length = number(rest[2:4])
        need(4 <= length <= len(rest) and length % 4 == 0)
        name, reads = BODIES.get((rest[0], rest[1] >> 4), ("other", unread))
        return Object(name, rest[0], rest[1] >> 4, bool(rest[1] & 2), place, reads(rest[4:length])), place + length
    except Fault:
        raise Malformed(place) from None


def objects_of(octets):
    """The objects of a message behind its header."""
    found = []
    place = 4
    while place < len(octets):
        one, place = object_at(octets, place)
        found.append(one)
    return found


def read(octets):
    """The message that these octets are."""
    if len(octets) < 4 or octets[0] >> 5 != VERSION or number(octets[2:4]) != len(octets):
        raise Malformed(0)
    kind = octets[1]
    if not OPEN <= kind <= CLOSE:
        return Message(kind, None)
    first = {OPEN: "OPEN", CLOSE: "CLOSE"}.get(kind)
    if first and object_at(octets, 4)[0].name != first:
        raise Malformed(4)
    return Message(kind, objects_of(octets))


def groups(message):
    """Which objects of a message belong together: a request begins at each RP behind another, a reply at each RP, an item of a notice or of a
    report at each RP behind what it tells."""
    closes = {REQUEST: ("RP",), REPLY: ("RP",)}.get(message.kind, ("NOTIFICATION", "PCEP-ERROR"))
    found, closed = [[]], message.kind == REPLY
    for one in message.objects:
        if one.name == "RP" and closed:
            found.append([])
            closed = False
        found[-1].append(one)
        closed = closed or one.name in closes
    if message.kind == REPLY:
        return found[1:]
    return found if message.kind == REQUEST or message.objects else []


def first_body(objects, name):
    """What the first object of this name says."""
    return next((one.body for one in objects if one.name == name), None)


# ---- streams


def is_head(octets):
    """The octets begin with a header that a message may have."""
    return octets[0] >> 5 == VERSION and number(octets[2:4]) >= 4 and number(octets[2:4]) % 4 == 0


class Stream:
    """Octets that come one behind the other, of one peer."""

    def __init__(self):
        self.held = b""
        self.bad = False

    def feed(self, piece):
        """The messages that this piece completes. Behind a header that no message has nothing is a message: that rest is handed out as it is."""
        self.held += piece
        found = []
        while len(self.held) >= 4 and not self.bad:
            if not is_head(self.held):
                self.bad = True
            elif len(self.held) < number(self.held[2:4]):
                break
            else:
                length = number(self.held[2:4])
                found.append(self.held[:length])
                self.held = self.held[length:]
        if self.bad:
            found.append(self.held)
            self.held = b""
        return [octets for octets in found if octets]


# ---- writing


def object_of(class_number, kind, body, must=True):
    """An object; `must` is its flag P."""
    return struct.pack(">BBH", class_number, kind << 4 | (2 if must else 0), len(body) + 4) + body


def message_of(kind, *objects):
    """A message of these objects."""
    content = b"".join(objects)
    return struct.pack(">BBH", VERSION << 5, kind, len(content) + 4) + content


def open_of(keepalive=0, dead=0):
    """An Open with these timers, in seconds; 0 is none."""
    return message_of(OPEN, object_of(1, 1, bytes([VERSION << 5, keepalive, dead, 0]), must=False))


def keepalive_of():
    return message_of(KEEPALIVE)


def parameters_of(ident, flags=0):
    """An RP."""
    return object_of(2, 1, struct.pack(">II", flags, ident))


def ends_between(source, target):
    """END-POINTS; the addresses are both of IPv4 or both of IPv6."""
    ends = [ipaddress.ip_address(end) for end in (source, target)]
    if ends[0].version != ends[1].version:
        raise ValueError("the ends are of two kinds")
    return object_of(4, 1 if ends[0].version == 4 else 2, ends[0].packed + ends[1].packed)


def through(domains):
    """An IRO of domains."""
    return object_of(10, 1, b"".join(struct.pack(">BBH", 32, 4, domain) for domain in domains))


def request_of(ident, source, target, domains=()):
    """A PCReq for a path from here to there, through these domains in their order, or through those that the element finds."""
    return message_of(REQUEST, parameters_of(ident), ends_between(source, target), *([through(domains)] if domains else []))


def expansion_of(ident, key, where):
    """A PCReq for what stands behind a path key of the element at this address."""
    at = ipaddress.ip_address(where)
    part = struct.pack(">BBH", 64 if at.version == 4 else 65, 4 + len(at.packed), key) + at.packed
    return message_of(REQUEST, parameters_of(ident, 0x100), object_of(16, 1, part))
