#!/bin/sh
# What changes to a topology cost at the limits, in microseconds: one change and 8,192 changes to a topology of 1,024 nodes and
# 8,192 inner links, beside building the same topology.
# It makes a program in a copy of the repository, proves and builds it there, and runs it. The figures hold for the
# machine and the moment alone: no clause speaks of time.
# usage: bench/deltas.sh
set -eu
if [ $# -ne 0 ]; then
    echo 'usage: bench/deltas.sh' >&2
    exit 2
fi
top=$(cd "$(dirname "$0")/.." && pwd)
copy=$(mktemp -d)
trap 'rm -rf "$copy"' EXIT
mkdir -p "$copy/crates"
cp "$top/HANDLES" "$copy/"
for name in dom_base line_text te_links te_text te_deltas; do
    cp -r "$top/crates/$name" "$copy/crates/"
    grep "^$name[ :]" "$top/crates.txt" >>"$copy/crates.txt"
done
echo 'deltas_bench: dom_base te_links te_deltas' >>"$copy/crates.txt"
crate=$copy/crates/deltas_bench
mkdir -p "$crate/src"

cat >"$crate/src/network.rt" <<'RT'
//! A topology at the limits, and changes to it.
use dom_base::{Addr, As, Link, List, NoMemory};
use std::alloc::Global;
use te_deltas::Change;
use te_links::{Parts, Topology};

const NODES: u32 = 1_024;

const LINKS_EACH: u32 = 8;

fn addr(first: u32, n: u32) -> Addr {
    Addr::V4(first.wrapping_add(n))
}

fn far(n: u32) -> Addr {
    addr(0x8000_0000, n)
}

fn link(alloc: Global, n: u32) -> Link {
    let from = n / LINKS_EACH;
    let to = from.wrapping_add(1 + n % LINKS_EACH) % NODES;
    Link {
        from: addr(1, from),
        to: addr(1, to),
        near: addr(0x4000_0000, n),
        far: far(n),
        igp: 1,
        te: 1,
        bytes_per_second: 1_000,
        colour: 0,
        srlgs: List::new(alloc),
    }
}

pub fn topology(alloc: Global) -> Result<Option<Topology>, NoMemory> {
    let mut nodes = List::new(alloc);
    for n in 0..NODES {
        nodes.push(addr(1, n))?;
    }
    let mut links = List::new(alloc);
    for n in 0..8_192u32 {
        links.push(link(alloc, n))?;
    }
    let parts = Parts {
        own: As(1),
        nodes,
        links,
        outs: List::new(alloc),
        entries: List::new(alloc),
    };
    match Topology::build(alloc, parts) {
        Ok(topology) => Ok(Some(topology)),
        Err(_refused) => Ok(None),
    }
}

/// Drops so many links and adds them again.
pub fn drops_and_adds(alloc: Global, count: u32) -> Result<Vec<Change>, NoMemory> {
    let mut changes = Vec::new(alloc);
    for n in 0..count {
        changes.push(Change::DropLink(far(n)))?;
    }
    for n in 0..count {
        changes.push(Change::AddLink(link(alloc, n)))?;
    }
    Ok(changes)
}

/// Drops so many links.
pub fn drops(alloc: Global, count: u32) -> Result<Vec<Change>, NoMemory> {
    let mut changes = Vec::new(alloc);
    for n in 0..count {
        changes.push(Change::DropLink(far(n)))?;
    }
    Ok(changes)
}
RT

cat >"$crate/src/main.rt" <<'RT'
//! Times changes.
#![tactic(auto)]

mod network;

use crate::network::{drops, drops_and_adds, topology};
use std::io;
use std::time::Instant;
use te_deltas::{Change, apply};
use te_links::Topology;

fn measure(rt: &HostRuntime, topology: &Topology, changes: &[Change]) -> io::Result<()> {
    let count = changes.len();
    for _round in 0..5 {
        let start = Instant::now(rt)?;
        let Ok(after) = apply(rt.alloc(), topology, changes) else {
            return println!(rt; "refused");
        };
        let took = start.elapsed(rt)?.as_micros();
        let links = after.link_count();
        println!(rt; "{count} changes: {links} links after {took} us")?;
    }
    Ok(())
}

fn main(rt: HostRuntime) -> io::Result<()> {
    for _round in 0..5 {
        let start = Instant::now(&rt)?;
        let Ok(Some(built)) = topology(rt.alloc()) else {
            return println!(rt; "no topology");
        };
        let took = start.elapsed(&rt)?.as_micros();
        let links = built.link_count();
        println!(rt; "building: {links} links after {took} us")?;
    }
    let Ok(Some(built)) = topology(rt.alloc()) else {
        return println!(rt; "no topology");
    };
    let Ok(one) = drops(rt.alloc(), 1) else {
        return println!(rt; "no memory");
    };
    measure(&rt, &built, &one)?;
    let Ok(all) = drops(rt.alloc(), 8_192) else {
        return println!(rt; "no memory");
    };
    measure(&rt, &built, &all)?;
    let Ok(half) = drops_and_adds(rt.alloc(), 4_096) else {
        return println!(rt; "no memory");
    };
    measure(&rt, &built, &half)
}
RT

cd "$crate"
rt run 2>"$copy/log" || {
    tail -40 "$copy/log" >&2
    exit 1
}
