#!/bin/sh
# Memory that is refused between the events of a network: two requests through three domains, a key that is expanded, a link that breaks and
# keys that expire, event by event on a `Plant`. In each run the allocation of one number fails, and what finds no memory is done once more.
# What is answered and said has to be what it is in a run in which nothing fails. It makes a program in a copy of the repository, and tries
# it by `rt try`, which proves nothing; each run is a build of its own, of a minute or more. The line of a number says how often an event
# was done again; the status is 0 where no run was otherwise.
# usage: bench/repeats.sh N ..   (numbers of allocations from 1, of which there are some 700)
set -eu
[ $# -gt 0 ] || { echo 'usage: bench/repeats.sh N ..' >&2; exit 2; }
top=$(cd "$(dirname "$0")/.." && pwd)
copy=$(mktemp -d)
trap 'rm -rf "$copy"' EXIT
mkdir "$copy/crates"
cp "$top/HANDLES" "$top/crates.txt" "$copy/"
for crate in "$top"/crates/*; do
    mkdir "$copy/crates/${crate##*/}"
    for part in src specs proofs; do
        [ ! -d "$crate/$part" ] || ln -s "$crate/$part" "$copy/crates/${crate##*/}/$part"
    done
done
echo 'repeats: dom_base line_text te_text plant_text plant_network' >>"$copy/crates.txt"
mkdir -p "$copy/crates/repeats/src"

text() { # a file as a literal, without comments and without the files that settings name
    grep -v -e '^#' -e '^topology =' "$top/examples/three/$1" | sed 's/"/\\"/g; s/$/\\n/' | tr -d '\n'
}
cat >"$copy/crates/repeats/src/main.rt" <<RT
//! A run of a network in which what finds no memory is done once more.
#![tactic(auto)]

use dom_base::{As, List, Peer, Tick};
use line_text::read_hex;
use plant_network::Plant;
use plant_network::model::{Event, Outcome, Refused};
use plant_text::{Network, read_network};
use std::alloc::Global;
use std::io;
use te_text::read_topology;

const SETTINGS: &[u8] = b"$(text three.toml)";

const FIRST: &[u8] = b"$(text d1.txt)";
const SECOND: &[u8] = b"$(text d2.txt)";
const THIRD: &[u8] = b"$(text d3.txt)";

RT
cat >>"$copy/crates/repeats/src/main.rt" <<'RT'
// An Open without timers and a Keepalive; a request through three domains, twice; a key that is to be expanded.
const UP: &[u8] = b"2001000c011000082000000120020004";
const ASKS: &[u8] = b"2003002c0212000c00000000000000010412000c0a0100010a0300090a120010200400012004000220040003";
const ASKS_AGAIN: &[u8] = b"2003002c0212000c00000000000000020412000c0a0100010a0300090a120010200400012004000220040003";
const EXPANDS: &[u8] = b"2003001c0212000c00000100000000071012000c40080002c0000202";

// Peers are told by their places in the settings: the client of domain 1, and that of domain 2.
#[derive(Clone, Copy)]
enum Step {
    Load(u16, &'static [u8]),
    Open(u32, u32),
    Shut(u32),
    Feed(u32, &'static [u8]),
    Take(u32),
    Carry(u16, u16),
    Break(u16, u16),
    Solve(u16, u64),
    Tick(u64),
    Drain(u32, u32),
}

const STEPS: [Step; 49] = [
    Step::Load(1, FIRST),
    Step::Load(2, SECOND),
    Step::Load(3, THIRD),
    Step::Carry(1, 2),
    Step::Carry(2, 1),
    Step::Carry(1, 2),
    Step::Carry(2, 1),
    Step::Carry(2, 3),
    Step::Carry(3, 2),
    Step::Carry(2, 3),
    Step::Carry(3, 2),
    Step::Open(0, 1),
    Step::Feed(0, UP),
    Step::Take(0),
    Step::Take(0),
    Step::Feed(0, ASKS),
    Step::Take(0),
    Step::Carry(1, 2),
    Step::Carry(2, 3),
    Step::Solve(3, 1),
    Step::Carry(3, 2),
    Step::Solve(2, 1),
    Step::Carry(2, 1),
    Step::Solve(1, 1),
    Step::Drain(0, 1),
    Step::Open(1, 2),
    Step::Feed(1, UP),
    Step::Take(1),
    Step::Take(1),
    Step::Feed(1, EXPANDS),
    Step::Take(1),
    Step::Drain(1, 2),
    Step::Feed(0, ASKS_AGAIN),
    Step::Take(0),
    Step::Carry(1, 2),
    Step::Break(2, 3),
    Step::Carry(2, 1),
    Step::Drain(0, 1),
    Step::Carry(2, 3),
    Step::Carry(3, 2),
    Step::Carry(2, 3),
    Step::Carry(3, 2),
    Step::Tick(29),
    Step::Tick(600),
    Step::Feed(1, EXPANDS),
    Step::Take(1),
    Step::Drain(1, 2),
    Step::Shut(0),
    Step::Shut(1),
];

fn settings(alloc: Global) -> Option<Network> {
    for _ in 0..2 {
        if let Ok(network) = read_network(alloc, SETTINGS) {
            return Some(network);
        }
    }
    None
}

fn plant(alloc: Global) -> Option<Plant> {
    for _ in 0..2 {
        if let Ok(plant) = Plant::new(alloc, settings(alloc)?) {
            return Some(plant);
        }
    }
    None
}

fn load(alloc: Global, at: u16, text: &[u8]) -> Option<Event> {
    for _ in 0..2 {
        if let Ok(topology) = read_topology(alloc, text) {
            return Some(Event::Load(As(at), topology));
        }
    }
    None
}

fn feed(alloc: Global, peer: u32, digits: &[u8]) -> Option<Event> {
    for _ in 0..2 {
        if let Ok(octets) = read_hex(alloc, digits) {
            return Some(Event::Feed(peer, List::from_vec(octets)));
        }
    }
    None
}

fn event(alloc: Global, step: Step) -> Option<Event> {
    match step {
        Step::Load(at, text) => load(alloc, at, text),
        Step::Open(peer, holder) => Some(Event::Open(peer, holder)),
        Step::Shut(peer) => Some(Event::Shut(peer)),
        Step::Feed(peer, digits) => feed(alloc, peer, digits),
        Step::Take(peer) => Some(Event::Take(peer)),
        Step::Carry(from, to) => Some(Event::Carry(As(from), As(to))),
        Step::Break(from, to) => Some(Event::Break(As(from), As(to))),
        Step::Solve(at, number) => Some(Event::Solve(As(at), number)),
        Step::Tick(tick) => Some(Event::Tick(Tick(tick))),
        Step::Drain(peer, holder) => Some(Event::Drain(peer, holder)),
    }
}

fn hex(rt: &HostRuntime, octets: &[u8]) -> io::Result<()> {
    for octet in octets {
        print!(rt; "{:02x}", *octet)?;
    }
    println!(rt; "")
}

fn tell(rt: &HostRuntime, outcome: Result<Outcome, Refused>) -> io::Result<()> {
    match outcome {
        Ok(Outcome::Done) => println!(rt; "done"),
        Ok(Outcome::Loaded(number)) => println!(rt; "loaded {number}"),
        Ok(Outcome::Drained { bytes, ended }) => {
            print!(rt; "drained {ended} ")?;
            hex(rt, bytes.as_slice())
        }
        Err(_) => println!(rt; "refused"),
    }
}

fn show(rt: &HostRuntime, plant: &Plant) -> io::Result<()> {
    let said = plant.said();
    for k in 0..said.len() {
        let (from, to) = said.way(k);
        match to {
            Peer::Outside(peer) => print!(rt; "{} to outside {peer} ", from.0)?,
            Peer::Inner(at) => print!(rt; "{} to {} ", from.0, at.0)?,
        }
        hex(rt, said.bytes(k))?;
    }
    Ok(())
}

// Does an event until memory suffices; how often it was done again, or none where it does not.
fn once(rt: &HostRuntime, plant: &mut Plant, step: Step) -> io::Result<Option<u32>> {
    for tries in 0..2 {
        let Some(event) = event(rt.alloc(), step) else {
            return Ok(None);
        };
        let outcome = plant.step(event);
        if let Err(Refused::NoMemory) = outcome {
            continue;
        }
        tell(rt, outcome)?;
        show(rt, plant)?;
        return Ok(Some(tries));
    }
    Ok(None)
}

fn main(rt: HostRuntime) -> io::Result<()> {
    let Some(mut plant) = plant(rt.alloc()) else {
        return println!(rt; "no network");
    };
    let mut again = 0;
    for step in STEPS {
        let Some(tries) = once(&rt, &mut plant, step)? else {
            return println!(rt; "no event");
        };
        again += tries;
    }
    eprintln!(rt; "again {again}")
}
RT

cd "$copy/crates/repeats"
try() { # where its output goes, flags
    out=$1
    shift
    rt try "$@" --steps 1 --seconds 60 >"$copy/$out" 2>"$copy/said" || { tail -5 "$copy/said" >&2; exit 2; }
}
try wanted
grep -q '^drained true' "$copy/wanted" && { echo 'repeats: a session is over that should not be' >&2; exit 2; }
failed=0
for number; do
    try got --fail-alloc "$number"
    if cmp -s "$copy/got" "$copy/wanted"; then
        echo "repeats: allocation $number: the same, events done again: $(sed -n 's/^again //p' "$copy/said")"
    else
        echo "repeats: allocation $number: otherwise"
        failed=1
    fi
done
exit "$failed"
