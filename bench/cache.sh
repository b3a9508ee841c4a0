#!/bin/sh
# What an answer by the cache costs at the limits, in microseconds, beside a job solved without it: 1,024 nodes and 8,192 inner
# links; the first answer under a key, in an empty cache, and an answer under a key that the cache has; the least of 200 rounds.
# It makes a program in a copy of the repository, proves and builds it there, and runs it. The figures hold for the
# machine and the moment alone: no clause speaks of time.
# usage: bench/cache.sh
set -eu
if [ $# -ne 0 ]; then
    echo 'usage: bench/cache.sh' >&2
    exit 2
fi
top=$(cd "$(dirname "$0")/.." && pwd)
copy=$(mktemp -d)
trap 'rm -rf "$copy"' EXIT
mkdir -p "$copy/crates"
cp "$top/HANDLES" "$copy/"
for name in dom_base line_text te_links te_text path_constraints pcep_codes pcep_subobjects walk_laws path_search path_certificate vspt_tree border_costs cost_cache; do
    cp -r "$top/crates/$name" "$copy/crates/"
    grep "^$name[ :]" "$top/crates.txt" >>"$copy/crates.txt"
done
echo 'cache_bench: dom_base te_links border_costs cost_cache' >>"$copy/crates.txt"
crate=$copy/crates/cache_bench
mkdir -p "$crate/src" "$crate/proofs/asking/answer" "$crate/proofs/asking/fill" "$crate/proofs/asking/again"

cat >"$crate/src/network.rt" <<'RT'
//! A job at the limits.
use border_costs::{Ask, Down, Job, Target};
use dom_base::{Addr, As, Cost, Link, List, Metric, NoMemory, Query};
use std::alloc::Global;
use std::sync::Arc;
use te_links::{OutLink, Parts, Topology};

const NODES: u32 = 1_024;

const LINKS_EACH: u32 = 8;

const TAILS: u32 = 16;

// How many entries and out links a job has.
#[derive(Clone, Copy)]
pub struct Size {
    pub entries: u32,
    pub outs: u32,
}

fn addr(first: u32, n: u32) -> Addr {
    Addr::V4(first.wrapping_add(n))
}

fn link(alloc: Global, from: Addr, to: Addr, n: u32, te: u32) -> Link {
    Link {
        from,
        to,
        near: addr(0x4000_0000, n),
        far: addr(0x8000_0000, n),
        igp: 1,
        te,
        bytes_per_second: 1_000,
        colour: 0,
        srlgs: List::new(alloc),
    }
}

// A ring, and from each node seven links to others by a fixed rule. The metric grows with the
// distance, so that many labels are lowered several times.
fn links(alloc: Global) -> Result<Vec<Link>, NoMemory> {
    let mut links = Vec::new(alloc);
    let mut x: u32 = 1;
    for i in 0..NODES {
        for k in 0..LINKS_EACH {
            x = x.wrapping_mul(69_069).wrapping_add(1);
            let other = (x >> 16) % NODES;
            let next = i.wrapping_add(1) % NODES;
            let to = if k == 0 || other == i { next } else { other };
            let te = if k == 0 { 1 } else { 1 + (x >> 10) % 5_000 };
            let n = i.wrapping_mul(LINKS_EACH).wrapping_add(k);
            links.push(link(alloc, addr(1, i), addr(1, to), n, te))?;
        }
    }
    Ok(links)
}

fn outs(alloc: Global, count: u32) -> Result<Vec<OutLink>, NoMemory> {
    let mut outs = Vec::new(alloc);
    for n in 0..count {
        let from = addr(1, (n % TAILS).wrapping_mul(64));
        let link = link(
            alloc,
            from,
            addr(0x2000_0000, n),
            n.wrapping_add(0x0010_0000),
            1,
        );
        outs.push(OutLink { link, to_as: As(2) })?;
    }
    Ok(outs)
}

fn nodes(alloc: Global, count: u32) -> Result<Vec<Addr>, NoMemory> {
    let mut nodes = Vec::new(alloc);
    for i in 0..count {
        nodes.push(addr(1, i))?;
    }
    Ok(nodes)
}

fn down(alloc: Global, count: u32, cost: Cost) -> Result<Vec<Down>, NoMemory> {
    let mut down = Vec::new(alloc);
    for n in 0..count {
        let node = addr(0x2000_0000, n);
        down.push(Down { node, cost })?;
    }
    Ok(down)
}

fn topology(alloc: Global, size: Size) -> Result<Option<Topology>, NoMemory> {
    let parts = Parts {
        own: As(1),
        nodes: List::from_vec(nodes(alloc, NODES)?),
        links: List::from_vec(links(alloc)?),
        outs: List::from_vec(outs(alloc, size.outs)?),
        entries: List::new(alloc),
    };
    match Topology::build(alloc, parts) {
        Ok(topology) => Ok(Some(topology)),
        Err(_refused) => Ok(None),
    }
}

pub fn job(alloc: Global, size: Size, target: Target) -> Result<Option<Job>, NoMemory> {
    let Some(cost) = Cost::of(1) else {
        return Ok(None);
    };
    let Some(cap) = Cost::of(16_777_215) else {
        return Ok(None);
    };
    let Some(topology) = topology(alloc, size)? else {
        return Ok(None);
    };
    let query = Query {
        own: As(1),
        metric: Metric::Te,
        cap,
        bandwidth: 0,
        exclude_any: 0,
        include_any: 0,
        include_all: 0,
        exclusions: List::new(alloc),
    };
    let ask = Ask {
        at: As(1),
        number: 1,
        generation: 1,
        query,
        source: addr(1, 0),
        entries: List::from_vec(nodes(alloc, size.entries)?),
        target,
        down: List::from_vec(down(alloc, size.outs, cost)?),
    };
    let topology = Arc::new(alloc, topology)?;
    Ok(Some(Job { ask, topology }))
}
RT

cat >"$crate/src/asking.rt" <<'RT'
//! Asks that a cache answers.
ghost use Rattle.cost_cache.specs.Entries.{IsGoodForAll};

use border_costs::Ask;
use cost_cache::Cache;
use te_links::{Counted, Topology};

fn answer(cache: &mut Cache, ask: &Ask, topology: &Topology) -> bool
    requires { IsGoodForAll topology.now cache.old }
    ensures { IsGoodForAll topology.now cache.new }
{
    cache.solve(ask, &mut Counted::new(topology)).is_ok()
}

/// The ask under so many keys.
pub fn fill(cache: &mut Cache, ask: &mut Ask, topology: &Topology, keys: u32) -> bool
    requires { IsGoodForAll topology.now cache.old }
    ensures { IsGoodForAll topology.now cache.new }
{
    let mut good = true;
    for key in 0..keys {
        ask.generation = u64::from(key);
        good = answer(cache, ask, topology) && good;
    }
    good
}

/// The ask so many times.
pub fn again(cache: &mut Cache, ask: &Ask, topology: &Topology, rounds: u32) -> bool
    requires { IsGoodForAll topology.now cache.old }
    ensures { IsGoodForAll topology.now cache.new }
{
    let mut good = true;
    for _round in 0..rounds {
        good = answer(cache, ask, topology) && good;
    }
    good
}
RT

cat >"$crate/src/main.rt" <<'RT'
//! Times answers by a cache beside answers without one.
#![tactic(auto)]

mod asking;
mod network;

use crate::asking::{again, fill};
use crate::network::{Size, job};
use border_costs::{Target, solve_labelled};
use cost_cache::Cache;
use dom_base::{Addr, As};
use std::io;
use std::time::Instant;

const ROUNDS: u32 = 200;

fn measure(rt: &HostRuntime, size: Size, target: Target) -> io::Result<()> {
    let Ok(Some(mut job)) = job(rt.alloc(), size, target) else {
        return println!(rt; "no job");
    };
    let Size { entries, outs } = size;
    let mut best = u128::MAX;
    for _round in 0..ROUNDS {
        let start = Instant::now(rt)?;
        if let Ok(_labelled) = solve_labelled(rt.alloc(), &job) {
            best = best.min(start.elapsed(rt)?.as_nanos());
        }
    }
    let mut first = u128::MAX;
    let mut hit = u128::MAX;
    for _round in 0..ROUNDS {
        let Ok(mut cache) = Cache::new(rt.alloc(), 64) else {
            return println!(rt; "no memory");
        };
        let start = Instant::now(rt)?;
        if fill(&mut cache, &mut job.ask, &job.topology, 1) {
            first = first.min(start.elapsed(rt)?.as_nanos());
        }
        let start = Instant::now(rt)?;
        if again(&mut cache, &job.ask, &job.topology, 1) {
            hit = hit.min(start.elapsed(rt)?.as_nanos());
        }
    }
    println!(rt; "{entries} entries, {outs} out links: solve with all labels {} us; by the cache anew {} us, a hit {} us", best / 1000, first / 1000, hit / 1000)
}

fn main(rt: HostRuntime) -> io::Result<()> {
    let node = Target::Node(Addr::V4(1));
    measure(&rt, Size { entries: 1, outs: 0 }, node)?;
    measure(&rt, Size { entries: 64, outs: 0 }, node)?;
    let next = Target::Next(As(2));
    measure(&rt, Size { entries: 64, outs: 256 }, next)
}
RT

cat >"$crate/proofs/asking/answer/Answers.antt" <<'ANTT'
use Rattle.std.proofs.Common.{subst}
use Rattle.te_links.specs.Rows.{Rows}
use Rattle.cost_cache.specs.Keys.{key_of}
use Rattle.cost_cache.specs.Entries.{IsGood}
use Rattle.cost_cache.proofs.Keeping.{still_good}
use Rattle.cache_bench.proofs.asking.answer.Goals as goal

pub returns : goal.returns
returns c =
    let key = key_of c.args.ask.now in
    let here : IsGood key.at key.generation c.args.topology.now c.solve.new.self =
    subst (λ (h : Rows). IsGood key.at key.generation h c.solve.new.self) c.new.ensures.topology c.solve.ensures.good in
    still_good c.args.topology.now key c.args.cache.now c.solve.new.self c.requires here c.solve.ensures.elsewhere
ANTT

cat >"$crate/proofs/asking/fill/Invariants.antt" <<'ANTT'
use Rattle.cost_cache.specs.Entries.{IsGoodForAll}
use Rattle.cache_bench.proofs.asking.fill.Given as goal

abbrev pub invariant-loop-key : goal.invariant-loop-key
invariant-loop-key l = IsGoodForAll l.topology l.cache
ANTT

cat >"$crate/proofs/asking/again/Invariants.antt" <<'ANTT'
use Rattle.cost_cache.specs.Entries.{IsGoodForAll}
use Rattle.cache_bench.proofs.asking.again.Given as goal

abbrev pub invariant-loop-round : goal.invariant-loop-round
invariant-loop-round l = IsGoodForAll l.topology l.cache
ANTT

cd "$crate"
rt run 2>"$copy/log" || {
    tail -40 "$copy/log" >&2
    exit 1
}
