"""Reads transcripts of `play` and `blind`, for the programs of this folder.

A transcript alone has what elements and the parent say. What outside peers say stands in its script: with that, a message of theirs comes where
its `take` is told, at a line `take` of its own, or at the end of the line of a `feed` where nothing takes it. A peer's octets count from its
`open` on, and only of lines `feed` and `receive` that are answered `ok`; `blind` answers none, so of its transcripts only what elements and the
parent say is known."""
import itertools
import re
from collections import namedtuple

from messages import Stream

# number: that of the line of the script; text: the line of the transcript, None for a message that only the script has; sender, receiver and
# octets: those of a message, else None
Line = namedtuple("Line", "number text sender receiver octets")

LINE = re.compile(r"([1-9][0-9]*) (.+)")
MESSAGE = re.compile(r"([0-9]+)>([0-9A-Za-z]+) ((?:[0-9a-f]{2})+)")
HANDED = re.compile(r"ok ((?:[0-9a-f]{2})+)( ended)?")


class NoTranscript(Exception):
    """A text that is no transcript."""


def lines_of(text):
    """The lines of a transcript: number and text."""
    found = []
    for place, line in enumerate(text.splitlines(), 1):
        parts = LINE.fullmatch(line)
        if parts is None:
            raise NoTranscript("line %d is no line of a transcript: %s" % (place, line[:80]))
        found.append((int(parts[1]), parts[2]))
    return found


def plain(number, text):
    """A line of a transcript."""
    said = MESSAGE.fullmatch(text)
    if said:
        return Line(number, text, said[1], said[2], bytes.fromhex(said[3]))
    return Line(number, text, None, None, None)


def handed_out(text):
    """The octets that a drain handed out, or none."""
    parts = HANDED.fullmatch(text)
    return bytes.fromhex(parts[1]) if parts else None


class Feeds:
    """What outside peers say, by the lines of a script."""

    def __init__(self, script):
        self.script = [line.split() for line in script.splitlines()]
        self.streams = {}
        self.waiting = {}  # messages that came and were not taken, by peer

    def words(self, number):
        return self.script[number - 1] if number <= len(self.script) else []

    def begin(self, number, texts):
        """A line of the script, before what the transcript tells of it; gives the peer of which all is taken at its end, and the one of which
        one message is."""
        words = self.words(number)
        if not words or not any(re.match("ok( |$)", text) for text in texts):
            return None, None
        if words[0] == "open" and len(words) == 3:
            self.streams[words[1]], self.waiting[words[1]] = Stream(), []
        if words[0] in ("feed", "receive") and len(words) == 3:
            stream = self.streams.setdefault(words[1], Stream())
            self.waiting.setdefault(words[1], []).extend(stream.feed(bytes.fromhex(words[2])))
        return words[1] if words[0] == "feed" else None, words[1] if words[0] == "take" else None

    def take(self, peer):
        """The next message of a peer, or none."""
        waiting = self.waiting.get(peer)
        return waiting.pop(0) if waiting else None


def with_feeds(lines, script, element_of):
    """The lines of a transcript, and among them the messages of outside peers; `element_of` names the element of a peer."""
    feeds = Feeds(script)
    found = []
    for number, group in itertools.groupby(lines, key=lambda line: line[0]):
        texts = [text for _, text in group]
        fed, taker = feeds.begin(number, texts)
        one = feeds.take(taker) if taker else None
        if one:
            found.append(Line(number, None, taker, element_of(taker), one))
        for text in texts:
            taken = feeds.take(fed) if fed and text == "take " + fed else None
            if taken:
                found.append(Line(number, None, fed, element_of(fed), taken))
            if fed and text == "ok":
                while (left := feeds.take(fed)) is not None:
                    found.append(Line(number, None, fed, element_of(fed), left))
            found.append(plain(number, text))
    return found


def elements_by_peer(lines):
    """The element that each outside peer is heard to talk to."""
    found = {}
    for _, text in lines:
        said = MESSAGE.fullmatch(text)
        if said and not said[2].isdigit():
            found[said[2]] = said[1]
    return found


def read(transcript, script=""):
    """All that a transcript tells, line by line, with what its script says of outside peers."""
    lines = lines_of(transcript)
    elements = elements_by_peer(lines)
    return with_feeds(lines, script, lambda peer: elements.get(peer, "?"))
