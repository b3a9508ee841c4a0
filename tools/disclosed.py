#!/usr/bin/env python3
"""Turns the transcript of a script into a script for a network without topologies, and compares what closed peers hear in both.

usage: tools/disclosed.py NET SCRIPT [PROGRAM]   (the built program, where left out)

The script is played with `disclose on` on the network of the settings NET. Of its transcript a script for `blind` is made, line by line: what
only a network with topologies knows becomes a comment, a `finish` becomes the events that it is told to have made, and a `solve` gets the
rows that are told of it. That script is written. What `blind` writes of it must be the messages to closed peers and the drains of closed
outside peers that the transcript has, byte for byte and under the same lines; else the first that differ are told, and the status is 1."""
import os
import re
import subprocess
import sys
import tomllib

TOP = os.path.dirname(os.path.dirname(os.path.abspath(__file__)))
BUILT = os.path.join(TOP, "crates/pce_main/out/pce_main")

# what a network without topologies does not know, or is not told
UNKNOWN = ("load", "change", "certify", "disclose")


class Wrong(Exception):
    """What differs."""


def run(program, command, settings, script):
    """What the program writes of a script: the numbers of lines, and their texts."""
    done = subprocess.run([program, command, os.path.basename(settings)], input="".join(line + "\n" for line in script).encode(),
                          capture_output=True, cwd=os.path.dirname(settings) or ".", timeout=300)
    if done.returncode != 0 or done.stderr:
        raise Wrong("`%s` ends with status %d: %s" % (command, done.returncode, done.stderr.decode().strip()))
    told = []
    for line in done.stdout.decode().splitlines():
        number, text = line.split(" ", 1)
        told.append((int(number), text))
    return told


def closed_peers(settings):
    """The names of the outside peers that are no clients."""
    with open(settings, "rb") as file:
        return {peer["name"] for peer in tomllib.load(file).get("peer", []) if peer["class"] != "client"}


def made_blind(script, told):
    """The lines for `blind`, each with the number of the line that it comes from."""
    of_line = {}
    for number, text in told:
        of_line.setdefault(number, []).append(text)
    lines = []
    for number, line in enumerate(script, 1):
        texts = of_line.get(number, [])
        word = line.split(" ")[0]
        if word in UNKNOWN:
            lines.append((number, "# " + line))
        elif word == "finish":
            lines += [(number, event) for event in events_of(texts)]
        elif word == "solve":
            lines.append((number, " ".join([line] + rows_of(texts))))
        else:
            lines.append((number, line))
    return lines


def rows_of(texts):
    """The words of the rows that are told."""
    return [word for text in texts if text.startswith("row ") for word in text.split(" ")[1:]]


def events_of(texts):
    """The events that are told, each solve with its rows."""
    events = []
    for text in texts:
        if re.fullmatch("(carry|solve) [0-9]+ [0-9]+", text):
            events.append(text)
        elif text.startswith("row "):
            events[-1] += text[3:]
    return events


def heard_by_closed(script, told, closed):
    """What of a transcript closed peers hear."""
    heard = []
    for number, text in told:
        message = re.fullmatch("[0-9]+>([0-9A-Za-z]+) [0-9a-f]+", text)
        words = script[number - 1].split(" ")
        if message:
            if message[1].isdigit() or message[1] in closed:
                heard.append((number, text))
        elif words[0] == "drain" and words[1] in closed and text.startswith("ok"):
            heard.append((number, text))
    return heard


def compare(program, settings, script):
    """The lines for `blind`, and what closed peers hear of the script, which must be the same in both ways."""
    played = ["disclose on"] + script
    told = run(program, "play", settings, played)
    lines = made_blind(played, told)
    spoken = [(lines[number - 1][0], text) for number, text in run(program, "blind", settings, [line for _, line in lines])]
    heard = heard_by_closed(played, told, closed_peers(settings))
    if spoken != heard:
        at = next((k for k, pair in enumerate(zip(spoken, heard)) if pair[0] != pair[1]), min(len(spoken), len(heard)))
        raise Wrong("`blind` tells\n  %s\nand not\n  %s" % (spoken[at:at + 1], heard[at:at + 1]))
    return [line for _, line in lines], heard


def main(words):
    """The lines for `blind` on the standard output; how it compares on the standard error."""
    if len(words) not in (2, 3):
        sys.exit("usage: tools/disclosed.py NET SCRIPT [PROGRAM]")
    program = os.path.abspath(words[2] if len(words) == 3 else BUILT)
    with open(words[1]) as file:
        script = file.read().splitlines()
    try:
        lines, heard = compare(program, words[0], script)
    except Wrong as differs:
        sys.exit("disclosed: %s" % differs)
    print("\n".join(lines))
    print("disclosed: %d lines to closed peers are alike" % len(heard), file=sys.stderr)


if __name__ == "__main__":
    main(sys.argv[1:])
