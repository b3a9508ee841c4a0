#!/bin/sh
# Chains of four programs that dial each other, each on a machine of its own, and clients at both ends, over a network that fails: it loses packets,
# delays them, hands them on in another order and twice, stalls and forges resets; connections go without a sign; it falls into two parts for more
# than two minutes, and joins again; a machine vanishes without a word, or stands still; and wall clocks jump by days. What must be of it:
#   - every answer is right by the costs that were worked out by hand (`pce path` says so of one program that holds all), each request is answered
#     once, and none that was not asked;
#   - where a line only loses, delays, turns and stalls, nothing else comes, and no session ends;
#   - behind a line that dies without a sign requests wait until DeadTimer and are then told NO-PATH of nature 1 with bit 28; requests that do not
#     need that line are answered meanwhile; and once the line is back answers come again in time (docs/SERVER.md, "What breaks");
#   - a clock that jumps changes nothing, and the record that was written meanwhile plays.
# It prints what was wrong, and one line of counts; the status is 1 where something was wrong, 2 where there can be no such network. It needs Python,
# a C compiler, root and /dev/net/tun (bench/wires.py). It takes five minutes; some parts alone take one to five.
# usage: bench/lost.sh [PROGRAM [PART ..]] [--seed N]   (the program that the gate proved and built, and all parts: loss silence parted vanished still)
set -eu
top=$(cd "$(dirname "$0")/.." && pwd)
exec python3 "$top/bench/lost.py" "$@"
