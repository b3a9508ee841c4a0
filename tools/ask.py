#!/usr/bin/env python3
"""Asks a running element for a path, as a router does, and tells the reply in words.

usage: tools/ask.py HOST PORT SRC DST [AS ..]     a path from SRC to DST through these domains in their order, the element's own first
       tools/ask.py HOST PORT key NUMBER ADDR     what stands behind the path key of this number of the element at ADDR
       --from ADDR                                the address of this machine from which it connects; that of the route, where left out
       --within SECONDS                           how long each answer may take; 10, where left out
       --octets                                   the reply in hexadecimal, in place of words

HOST and PORT are those at which the element listens for this router. Without an AS the element finds the domains (by its parent, where it has
one). The session is opened, the one request is sent, and the session is closed. The status is 0 where a path came, 1 where the answer is
another, 2 where the words are wrong, and 3 where nobody listens there, or nothing is answered in time. Needs Python alone."""
import argparse
import importlib.machinery
import importlib.util
import os
import sys

sys.dont_write_bytecode = True
import messages  # noqa: E402
import sessions  # noqa: E402

TOOLS = os.path.dirname(os.path.abspath(__file__))
IDENT = 1
CLOSE = messages.message_of(messages.CLOSE, messages.object_of(15, 1, bytes([0, 0, 0, 1])))


def in_words(octets):
    """The message as tools/words tells it."""
    loader = importlib.machinery.SourceFileLoader("words", os.path.join(TOOLS, "words"))
    words = importlib.util.module_from_spec(importlib.util.spec_from_loader("words", loader))
    loader.exec_module(words)
    return words.message_words(octets)


def is_path(octets):
    """The message is a reply with a path."""
    try:
        message = messages.read(octets)
    except messages.Malformed:
        return False
    return message.kind == messages.REPLY and any(one.name == "ERO" for one in message.objects)


def number(word, most):
    if not (word.isascii() and word.isdigit() and 1 <= int(word) <= most):
        raise ValueError("%s is no number from 1 to %d" % (word, most))
    return int(word)


def asked(given):
    """The request that the words ask for."""
    if given.source == "key":
        if len(given.domains) != 1:
            raise ValueError("behind `key` stand its number and the address of its element")
        return messages.expansion_of(IDENT, number(given.target, 65535), given.domains[0])
    return messages.request_of(IDENT, given.source, given.target, [number(word, 65535) for word in given.domains])


def read_words():
    says = argparse.ArgumentParser(description=__doc__, formatter_class=argparse.RawDescriptionHelpFormatter, usage=argparse.SUPPRESS)
    says.add_argument("host", help=argparse.SUPPRESS)
    says.add_argument("port", help=argparse.SUPPRESS)
    says.add_argument("source", help=argparse.SUPPRESS)
    says.add_argument("target", help=argparse.SUPPRESS)
    says.add_argument("domains", nargs="*", help=argparse.SUPPRESS)
    says.add_argument("--from", dest="origin", help=argparse.SUPPRESS)
    says.add_argument("--within", type=float, default=10, help=argparse.SUPPRESS)
    says.add_argument("--octets", action="store_true", help=argparse.SUPPRESS)
    return says.parse_args()


def stop(status, text):
    print("ask: %s" % text, file=sys.stderr)
    sys.exit(status)


def main():
    given = read_words()
    try:
        port, request = number(given.port, 65535), asked(given)
    except ValueError as fault:
        stop(2, fault)
    try:
        with sessions.Session(given.host, port, given.within, given.origin) as session:
            reply = session.begin().ask(request)
            session.send(CLOSE)
    except sessions.Silent as fault:
        stop(3, "%s port %d: %s (a port may be another peer's, or be taken: it serves one connection at a time)" % (given.host, port, fault))
    except (sessions.Ended, OSError) as fault:
        stop(3, "%s port %d: %s" % (given.host, port, getattr(fault, "strerror", None) or fault))
    print(reply.hex() if given.octets else in_words(reply))
    sys.exit(0 if is_path(reply) else 1)


if __name__ == "__main__":
    main()
