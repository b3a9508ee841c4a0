#!/bin/sh
# Times `bulk` in the form without a bandwidth, in which each request has a path: the drawn network is played for 1,000 and for 8,000
# requests, one behind the other, and what they are answered is counted. Beside it stands a plain program in C over the joined topologies,
# with one search for each request, with one table for each target, and with one table of all pairs of nodes. Of the rounds the least counts, in milliseconds, with the ratios; the
# sums of the costs have to agree. It makes a program in a copy of the repository, over the libraries that the gate proved, and proves and
# builds it there. The figures hold for the machine and the moment alone: no clause speaks of time.
# usage: bench/bulk.sh [ROUNDS]   (5 where left out)
set -eu
rounds=${1:-5}
top=$(cd "$(dirname "$0")/.." && pwd)
copy=$(mktemp -d)
trap 'rm -rf "$copy"' EXIT
cc -O2 -o "$copy/plain" "$top/bench/plain/bulk.c"
mkdir -p "$copy/crates"
cp "$top/HANDLES" "$copy/"
# The libraries below, each once.
libraries=$(awk -F: '
    function visit(name, below, count, i) {
        if (name in seen || !(name in uses)) return
        seen[name] = 1
        count = split(uses[name], below, " ")
        for (i = 1; i <= count; i++) visit(below[i])
        print name
    }
    /^[a-z]/ { split($1, words, " "); uses[words[1]] = $2 }
    END { visit("plant_client") }' "$top/crates.txt")
for name in $libraries; do
    [ -d "$top/crates/$name" ] || continue
    mkdir -p "$copy/crates/$name/out"
    cp -r "$top/crates/$name/src" "$copy/crates/$name/"
    for part in specs proofs out/rlib; do
        [ ! -d "$top/crates/$name/$part" ] || cp -r "$top/crates/$name/$part" "$copy/crates/$name/$part"
    done
    grep "^$name[ :]" "$top/crates.txt" >>"$copy/crates.txt"
done
echo "bulk_bench: plant_client" >>"$copy/crates.txt"
crate=$copy/crates/bulk_bench
mkdir -p "$crate/src"
cat >"$crate/src/main.rt" <<RT
//! Times requests over the drawn network.
#![tactic(auto)]

ghost use Rattle.std.specs.Prelude.{◌≤◌};

use plant_client::{Demand, play};
use std::io;
use std::time::Instant;

fn measure(rt: &HostRuntime, count: u16) -> io::Result<()>
    requires { count ≤ 8000 }
{
    let mut best = u128::MAX;
    let mut sum = 0;
    for _round in 0..$rounds {
        let start = Instant::now(rt)?;
        if let Ok(tally) = play(rt.alloc(), Demand::Zero, count) {
            best = best.min(start.elapsed(rt)?.as_micros());
            sum = tally.sum;
        }
    }
    println!(rt; "bulk {count} {best} {sum}")
}

fn main(rt: HostRuntime) -> io::Result<()> {
    measure(&rt, 1_000)?;
    measure(&rt, 8_000)
}
RT
(cd "$crate" && rt run >"$copy/figures" 2>"$copy/log") || {
    tail -40 "$copy/log" >&2
    exit 1
}
"$copy/plain" >"$copy/beside"
awk '
    FNR == NR { time[$1, $2] = $3; sum[$2] = $4; next }
    $1 == "bulk" {
        if ($4 != sum[$2]) { print "bulk: sums differ at " $2 " requests: " $4 ", beside " sum[$2]; exit 1 }
        printf "%d requests: %.1f ms", $2, $3 / 1000
        split("searches tables all-pairs", ways, " ")
        for (i = 1; i <= 3; i++) printf "; by %s %.2f ms, %.1f times", ways[i], time[ways[i], $2] / 1000, $3 / time[ways[i], $2]
        print ""
    }' "$copy/beside" "$copy/figures"
