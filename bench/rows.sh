#!/bin/sh
# What the rows of one entry cost at the limits, 1,024 nodes and 8,192 inner links, on the four topologies of search.sh: by a search
# that ends as soon as the entry has its label; with the labels of all nodes, beside the search of these alone; and by the cache, anew
# and by what it keeps. The mean over sixteen sources, each the least of 200 rounds, in microseconds.
# It makes a program in a copy of the repository, proves and builds it there, and runs it. The figures hold for the
# machine and the moment alone: no clause speaks of time.
# usage: bench/rows.sh
set -eu
if [ $# -ne 0 ]; then
    echo 'usage: bench/rows.sh' >&2
    exit 2
fi
top=$(cd "$(dirname "$0")/.." && pwd)
copy=$(mktemp -d)
trap 'rm -rf "$copy"' EXIT
mkdir -p "$copy/crates"
cp "$top/HANDLES" "$copy/"
for name in dom_base line_text te_links te_text path_constraints pcep_codes pcep_subobjects walk_laws path_search path_certificate vspt_tree border_costs cost_cache; do
    cp -r "$top/crates/$name" "$copy/crates/"
    grep "^$name[ :]" "$top/crates.txt" >>"$copy/crates.txt"
done
sed -n 's/^cost_cache: /rows_bench: cost_cache /p' "$top/crates.txt" >>"$copy/crates.txt"
crate=$copy/crates/rows_bench
mkdir -p "$crate/src" "$crate/proofs/asking/answer"

cat >"$crate/src/network.rt" <<'RT'
//! Four topologies at the limits.
use dom_base::{Addr, As, Link, List, NoMemory};
use std::alloc::Global;
use te_links::{Parts, Topology};

const NODES: u32 = 1_024;

const LINKS: u32 = 8_192;

/// What a topology is like.
#[derive(Clone, Copy)]
pub enum Shape {
    /// Links to nodes by a fixed rule, all metrics 1.
    Ties,
    /// The same, with metrics to 1,000.
    Metrics,
    /// A torus of 32 by 32 nodes, two links to each neighbour.
    Grid,
    /// A line, four links each way between neighbours.
    Line,
}

// A number drawn from another.
fn drawn(n: u32) -> u32 {
    let a = (n ^ 61) ^ (n >> 16);
    let b = a.wrapping_mul(9);
    let c = (b ^ (b >> 4)).wrapping_mul(0x27D4_EB2D);
    c ^ (c >> 15)
}

fn at(row: u32, column: u32) -> u32 {
    (row % 32) * 32 + column % 32
}

// The end of the link with this number from this node.
fn random_end(from: u32, n: u32) -> u32 {
    let next = from.wrapping_add(1) % NODES;
    let other = drawn(n) % NODES;
    if n % 8 == 0 || other == from {
        next
    } else {
        other
    }
}

fn grid_end(from: u32, k: u32) -> u32 {
    let row = from / 32;
    let column = from % 32;
    match k % 4 {
        0 => at(row.wrapping_add(1), column),
        1 => at(row.wrapping_add(31), column),
        2 => at(row, column.wrapping_add(1)),
        _ => at(row, column.wrapping_add(31)),
    }
}

// The ends and the metric of a link.
fn ends(shape: Shape, n: u32) -> (u32, u32, u32) {
    let from = n / 8;
    let some = 1 + drawn(n.wrapping_add(77)) % 1_000;
    match shape {
        Shape::Ties => (from, random_end(from, n), 1),
        Shape::Metrics => (from, random_end(from, n), some),
        Shape::Grid => (from, grid_end(from, n % 8), 1 + some % 10),
        Shape::Line => {
            let low = from % (NODES - 1);
            if n % 8 < 4 {
                (low, low + 1, some)
            } else {
                (low + 1, low, some)
            }
        }
    }
}

fn addr(first: u32, n: u32) -> Addr {
    Addr::V4(first.wrapping_add(n))
}

fn link(alloc: Global, shape: Shape, n: u32) -> Link {
    let (from, to, te) = ends(shape, n);
    Link {
        from: addr(1, from),
        to: addr(1, to),
        near: addr(0x4000_0000, n),
        far: addr(0x8000_0000, n),
        igp: 1,
        te,
        bytes_per_second: 1_000,
        colour: 0,
        srlgs: List::new(alloc),
    }
}

pub fn topology(alloc: Global, shape: Shape) -> Result<Option<Topology>, NoMemory> {
    let mut nodes = List::new(alloc);
    for n in 0..NODES {
        nodes.push(addr(1, n))?;
    }
    let mut links = List::new(alloc);
    for n in 0..LINKS {
        links.push(link(alloc, shape, n))?;
    }
    let parts = Parts {
        own: As(1),
        nodes,
        links,
        outs: List::new(alloc),
        entries: List::new(alloc),
    };
    match Topology::build(alloc, parts) {
        Ok(topology) => Ok(Some(topology)),
        Err(_refused) => Ok(None),
    }
}
RT

cat >"$crate/src/asking.rt" <<'RT'
//! An ask that a cache answers.
ghost use Rattle.cost_cache.specs.Entries.{IsGoodForAll};

use border_costs::Ask;
use cost_cache::Cache;
use te_links::{Counted, Topology};

/// Whether there was memory for the answer.
pub fn answer(cache: &mut Cache, ask: &Ask, topology: &Topology) -> bool
    requires { IsGoodForAll topology.now cache.old }
    ensures { IsGoodForAll topology.now cache.new }
{
    cache.solve(ask, &mut Counted::new(topology)).is_ok()
}
RT

cat >"$crate/src/main.rt" <<'RT'
//! Times rows with the labels of all nodes and without.
#![tactic(auto)]

mod asking;
mod network;

use crate::asking::answer;
use crate::network::{Shape, topology};
use border_costs::{Ask, Target, seeds_of, solve_labelled_rows, solve_rows};
use cost_cache::Cache;
use dom_base::{Addr, As, Cost, List, Metric, NoMemory, Query};
use path_search::search;
use std::alloc::Global;
use std::io;
use std::time::Instant;
use te_links::{Counted, Topology};

const ROUNDS: u32 = 200;

const SOURCES: u32 = 16;

// What is measured.
#[derive(Clone, Copy)]
enum Call {
    Search,
    Rows,
    Labelled,
    Anew,
    Hit,
}

// An ask from a node to the one in the middle.
fn ask(alloc: Global, source: Addr, cap: Cost) -> Result<Ask, NoMemory> {
    let query = Query {
        own: As(1),
        metric: Metric::Te,
        cap,
        bandwidth: 0,
        exclude_any: 0,
        include_any: 0,
        include_all: 0,
        exclusions: List::new(alloc),
    };
    let mut entries = List::new(alloc);
    entries.push(source)?;
    Ok(Ask {
        at: As(1),
        number: 1,
        generation: 1,
        query,
        source,
        entries,
        target: Target::Node(Addr::V4(513)),
        down: List::new(alloc),
    })
}

fn search_alone(alloc: Global, ask: &Ask, topology: &Topology) -> bool {
    let mut links = Counted::new(topology);
    let Ok(seeds) = seeds_of(alloc, ask, &links) else {
        return false;
    };
    search(alloc, &mut links, &ask.query, &seeds).is_ok()
}

// One call; none where there is no memory.
fn time(rt: &HostRuntime, call: Call, ask: &Ask, topology: &Topology) -> io::Result<Option<u128>> {
    let alloc = rt.alloc();
    let Ok(mut cache) = Cache::new(alloc, 8) else {
        return Ok(None);
    };
    let is_kept = match call {
        Call::Hit => answer(&mut cache, ask, topology),
        _other => true,
    };
    let start = Instant::now(rt)?;
    let done = match call {
        Call::Search => search_alone(alloc, ask, topology),
        Call::Rows => solve_rows(alloc, ask, &mut Counted::new(topology)).is_ok(),
        Call::Labelled => solve_labelled_rows(alloc, ask, &mut Counted::new(topology)).is_ok(),
        Call::Anew | Call::Hit => answer(&mut cache, ask, topology),
    };
    let took = start.elapsed(rt)?.as_nanos();
    Ok(if is_kept && done { Some(took) } else { None })
}

// The least of many rounds; none where there is no memory.
fn least(rt: &HostRuntime, call: Call, ask: &Ask, topology: &Topology) -> io::Result<Option<u128>> {
    let mut best = u128::MAX;
    for _round in 0..ROUNDS {
        let Some(took) = time(rt, call, ask, topology)? else {
            return Ok(None);
        };
        best = best.min(took);
    }
    Ok(Some(best))
}

// The mean over the sources, in tenths of a microsecond.
fn mean(rt: &HostRuntime, call: Call, topology: &Topology) -> io::Result<u128> {
    let Some(cap) = Cost::of(16_777_215) else {
        return Ok(0);
    };
    let mut sum: u128 = 0;
    for k in 0..SOURCES {
        let source = Addr::V4(1 + (k.wrapping_mul(709) % 1_024));
        let Ok(ask) = ask(rt.alloc(), source, cap) else {
            return Ok(0);
        };
        if let Some(best) = least(rt, call, &ask, topology)? {
            sum = sum.wrapping_add(best);
        }
    }
    Ok(sum / u128::from(SOURCES) / 100)
}

fn measure(rt: &HostRuntime, name: &str, shape: Shape) -> io::Result<()> {
    let Ok(Some(topology)) = topology(rt.alloc(), shape) else {
        return println!(rt; "no topology");
    };
    let rows = mean(rt, Call::Rows, &topology)?;
    let labelled = mean(rt, Call::Labelled, &topology)?;
    let all = mean(rt, Call::Search, &topology)?;
    println!(rt; "{name}: rows {}.{} us; with all labels {}.{}, one search {}.{}", rows / 10, rows % 10, labelled / 10, labelled % 10, all / 10, all % 10)?;
    let anew = mean(rt, Call::Anew, &topology)?;
    let hit = mean(rt, Call::Hit, &topology)?;
    println!(rt; "{name}: by the cache anew {}.{} us, a hit {}.{}", anew / 10, anew % 10, hit / 10, hit % 10)
}

fn main(rt: HostRuntime) -> io::Result<()> {
    measure(&rt, "ties", Shape::Ties)?;
    measure(&rt, "metrics", Shape::Metrics)?;
    measure(&rt, "grid", Shape::Grid)?;
    measure(&rt, "line", Shape::Line)
}
RT

cat >"$crate/proofs/asking/answer/Answers.antt" <<'ANTT'
use Rattle.std.proofs.Common.{subst}
use Rattle.te_links.specs.Rows.{Rows}
use Rattle.cost_cache.specs.Keys.{key_of}
use Rattle.cost_cache.specs.Entries.{IsGood}
use Rattle.cost_cache.proofs.Keeping.{still_good}
use Rattle.rows_bench.proofs.asking.answer.Goals as goal

pub returns : goal.returns
returns c =
    let key = key_of c.args.ask.now in
    let here : IsGood key.at key.generation c.args.topology.now c.solve.new.self =
    subst (λ (h : Rows). IsGood key.at key.generation h c.solve.new.self) c.new.ensures.topology c.solve.ensures.good in
    still_good c.args.topology.now key c.args.cache.now c.solve.new.self c.requires here c.solve.ensures.elsewhere
ANTT

cd "$crate"
rt run 2>"$copy/log" || {
    tail -40 "$copy/log" >&2
    exit 1
}
