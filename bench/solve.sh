#!/bin/sh
# What a job costs at the limits, in microseconds: 1,024 nodes and 8,192 inner links, 64 entries and 256 out links at 16 nodes,
# whose labels come of one search from all exits; beside it jobs with one exit, and with the destination as the one seed, and beside each
# one search with its seeds. Of 500 rounds the least counts.
# It makes a program in a copy of the repository, proves and builds it there, and runs it. The figures hold for the
# machine and the moment alone: no clause speaks of time.
# usage: bench/solve.sh
set -eu
if [ $# -ne 0 ]; then
    echo 'usage: bench/solve.sh' >&2
    exit 2
fi
top=$(cd "$(dirname "$0")/.." && pwd)
copy=$(mktemp -d)
trap 'rm -rf "$copy"' EXIT
mkdir -p "$copy/crates"
cp "$top/HANDLES" "$copy/"
for name in dom_base line_text te_links te_text path_constraints pcep_codes pcep_subobjects walk_laws path_search path_certificate vspt_tree border_costs; do
    cp -r "$top/crates/$name" "$copy/crates/"
    grep "^$name[ :]" "$top/crates.txt" >>"$copy/crates.txt"
done
sed -n 's/^border_costs: /solve_bench: border_costs /p' "$top/crates.txt" >>"$copy/crates.txt"
crate=$copy/crates/solve_bench
mkdir -p "$crate/src"

cat >"$crate/src/network.rt" <<'RT'
use border_costs::{Ask, Down, Job, Target};
use dom_base::{Addr, As, Cost, Link, List, Metric, NoMemory, Query};
use std::alloc::Global;
use std::sync::Arc;
use te_links::{OutLink, Parts, Topology};

const NODES: u32 = 1_024;

const LINKS_EACH: u32 = 8;

const TAILS: u32 = 16;

// How many entries and out links a job has.
#[derive(Clone, Copy)]
pub struct Size {
    pub entries: u32,
    pub outs: u32,
}

fn addr(first: u32, n: u32) -> Addr {
    Addr::V4(first.wrapping_add(n))
}

fn link(alloc: Global, from: Addr, to: Addr, n: u32, te: u32) -> Link {
    Link {
        from,
        to,
        near: addr(0x4000_0000, n),
        far: addr(0x8000_0000, n),
        igp: 1,
        te,
        bytes_per_second: 1_000,
        colour: 0,
        srlgs: List::new(alloc),
    }
}

// A ring, and from each node seven links to others by a fixed rule. The metric grows with the
// distance, so that many labels are lowered several times.
fn links(alloc: Global) -> Result<Vec<Link>, NoMemory> {
    let mut links = Vec::new(alloc);
    let mut x: u32 = 1;
    for i in 0..NODES {
        for k in 0..LINKS_EACH {
            x = x.wrapping_mul(69_069).wrapping_add(1);
            let other = (x >> 16) % NODES;
            let next = i.wrapping_add(1) % NODES;
            let to = if k == 0 || other == i { next } else { other };
            let te = if k == 0 { 1 } else { 1 + (x >> 10) % 5_000 };
            let n = i.wrapping_mul(LINKS_EACH).wrapping_add(k);
            links.push(link(alloc, addr(1, i), addr(1, to), n, te))?;
        }
    }
    Ok(links)
}

fn outs(alloc: Global, count: u32) -> Result<Vec<OutLink>, NoMemory> {
    let mut outs = Vec::new(alloc);
    for n in 0..count {
        let from = addr(1, (n % TAILS).wrapping_mul(64));
        let link = link(
            alloc,
            from,
            addr(0x2000_0000, n),
            n.wrapping_add(0x0010_0000),
            1,
        );
        outs.push(OutLink { link, to_as: As(2) })?;
    }
    Ok(outs)
}

fn nodes(alloc: Global, count: u32) -> Result<Vec<Addr>, NoMemory> {
    let mut nodes = Vec::new(alloc);
    for i in 0..count {
        nodes.push(addr(1, i))?;
    }
    Ok(nodes)
}

fn down(alloc: Global, count: u32, cost: Cost) -> Result<Vec<Down>, NoMemory> {
    let mut down = Vec::new(alloc);
    for n in 0..count {
        let node = addr(0x2000_0000, n);
        down.push(Down { node, cost })?;
    }
    Ok(down)
}

fn topology(alloc: Global, size: Size) -> Result<Option<Topology>, NoMemory> {
    let parts = Parts {
        own: As(1),
        nodes: List::from_vec(nodes(alloc, NODES)?),
        links: List::from_vec(links(alloc)?),
        outs: List::from_vec(outs(alloc, size.outs)?),
        entries: List::new(alloc),
    };
    match Topology::build(alloc, parts) {
        Ok(topology) => Ok(Some(topology)),
        Err(_refused) => Ok(None),
    }
}

pub fn job(alloc: Global, size: Size, target: Target) -> Result<Option<Job>, NoMemory> {
    let Some(cost) = Cost::of(1) else {
        return Ok(None);
    };
    let Some(cap) = Cost::of(16_777_215) else {
        return Ok(None);
    };
    let Some(topology) = topology(alloc, size)? else {
        return Ok(None);
    };
    let query = Query {
        own: As(1),
        metric: Metric::Te,
        cap,
        bandwidth: 0,
        exclude_any: 0,
        include_any: 0,
        include_all: 0,
        exclusions: List::new(alloc),
    };
    let ask = Ask {
        at: As(1),
        number: 1,
        generation: 1,
        query,
        source: addr(1, 0),
        entries: List::from_vec(nodes(alloc, size.entries)?),
        target,
        down: List::from_vec(down(alloc, size.outs, cost)?),
    };
    let topology = Arc::new(alloc, topology)?;
    Ok(Some(Job { ask, topology }))
}
RT

cat >"$crate/src/main.rt" <<'RT'
#![tactic(auto)]

mod network;

use crate::network::{Size, job};
use border_costs::{Job, Target, seeds_of, solve};
use dom_base::{Addr, As};
use path_search::search;
use std::io;
use std::time::Instant;
use te_links::Counted;

const ROUNDS: u32 = 500;

// One search with the seeds of the job, in microseconds; none where memory lacks.
fn search_alone(rt: &HostRuntime, job: &Job) -> io::Result<Option<u128>> {
    let mut links = Counted::new(&job.topology);
    let Ok(seeds) = seeds_of(rt.alloc(), &job.ask, &links) else {
        return Ok(None);
    };
    let start = Instant::now(rt)?;
    let labels = search(rt.alloc(), &mut links, &job.ask.query, &seeds);
    let took = start.elapsed(rt)?.as_micros();
    Ok(if labels.is_ok() { Some(took) } else { None })
}

fn measure(rt: &HostRuntime, size: Size, target: Target) -> io::Result<()> {
    let Ok(Some(job)) = job(rt.alloc(), size, target) else {
        return println!(rt; "no job");
    };
    let Size { entries, outs } = size;
    let (mut alone, mut whole, mut rows) = (u128::MAX, u128::MAX, 0);
    for _round in 0..ROUNDS {
        let Some(took) = search_alone(rt, &job)? else {
            return println!(rt; "no memory");
        };
        alone = alone.min(took);
        let start = Instant::now(rt)?;
        let Ok(solved) = solve(rt.alloc(), &job) else {
            return println!(rt; "no memory");
        };
        whole = whole.min(start.elapsed(rt)?.as_micros());
        rows = solved.best().len();
    }
    println!(rt; "{entries} entries, {outs} out links: {rows} rows in {whole} us, one search {alone} us")
}

fn main(rt: HostRuntime) -> io::Result<()> {
    let node = Target::Node(Addr::V4(1));
    measure(&rt, Size { entries: 1, outs: 0 }, node)?;
    measure(&rt, Size { entries: 64, outs: 0 }, node)?;
    let next = Target::Next(As(2));
    measure(&rt, Size { entries: 64, outs: 1 }, next)?;
    measure(&rt, Size { entries: 64, outs: 256 }, next)
}
RT

cd "$crate"
rt run 2>"$copy/log" || {
    tail -40 "$copy/log" >&2
    exit 1
}
