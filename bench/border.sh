#!/bin/sh
# What the parent's part costs at the limits, in microseconds: `solve_border` over 15 domains of 64 entries, 16 tails each and the destination,
# and 256 links. In one graph the least walk goes over 240 links one after the other, in the other all rows and links cost the same.
# It makes a program in a copy of the repository, proves and builds it there, and runs it. The figures hold for the
# machine and the moment alone: no clause speaks of time.
# usage: bench/border.sh
set -eu
if [ $# -ne 0 ]; then
    echo 'usage: bench/border.sh' >&2
    exit 2
fi
top=$(cd "$(dirname "$0")/.." && pwd)
copy=$(mktemp -d)
trap 'rm -rf "$copy"' EXIT
mkdir -p "$copy/crates"
cp "$top/HANDLES" "$copy/"
for name in dom_base line_text te_links te_text te_generations path_constraints walk_laws path_search path_certificate pcep_codes pcep_subobjects pcep_objects pcep_messages pcep_framing pcep_session vspt_tree border_costs request_table path_keys disclosure plant_queues plant_text plant_model pce_common pce_parent; do
    cp -r "$top/crates/$name" "$copy/crates/"
    grep "^$name[ :]" "$top/crates.txt" >>"$copy/crates.txt"
done
echo 'border_bench: dom_base pcep_subobjects plant_model pce_common pce_parent' >>"$copy/crates.txt"
crate=$copy/crates/border_bench
mkdir -p "$crate/src" "$crate/proofs/graph/links"

cat >"$crate/src/graph.rt" <<'RT'
//! A border graph at the limits.
ghost use Rattle.std.specs.Prelude.{All, IfOk};
ghost use Rattle.pce_parent.specs.Solution.{IsWeighed};

use dom_base::{Addr, As, Cost, Link, List, Metric, NoMemory, ParentLink, Query};
use pcep_subobjects::strict_hop;
use plant_model::{BorderJob, ChildRow};
use std::alloc::Global;

const DOMAINS: u32 = 15;

const TURNS: u32 = 16;

const LINKS: u32 = 256;

const ENTRIES: u32 = 64;

const SOURCE: Addr = Addr::V4(0x4000_0000);

const TARGET: Addr = Addr::V4(0x5000_0000);

fn number(domain: u32) -> As {
    As((1 + domain % DOMAINS) as u16)
}

// Where link k of the chain leaves a domain, and where it enters the next.
fn tail(k: u32) -> Addr {
    Addr::V4(0x2000_0000_u32.wrapping_add(k))
}

fn head(k: u32) -> Addr {
    Addr::V4(0x3000_0000_u32.wrapping_add(k))
}

// From where the link before `next` enters to the tail of link m.
fn weight(chain: bool, next: u32, m: u32) -> u32 {
    if chain && m > next {
        m.wrapping_sub(next).wrapping_mul(4).wrapping_add(1)
    } else {
        1
    }
}

fn row(
    alloc: Global,
    domain: u32,
    entry: Addr,
    target: Addr,
    cost: u32,
) -> Result<Option<ChildRow>, NoMemory> {
    let Some(cost) = Cost::of(cost) else {
        return Ok(None);
    };
    let mut hops = List::new(alloc);
    hops.push(strict_hop(entry))?;
    Ok(Some(ChildRow {
        at: number(domain),
        entry,
        target,
        cost,
        hops,
    }))
}

// An entry of a domain, and the number of the link that follows in the chain.
fn entry(domain: u32, e: u32) -> (Addr, u32) {
    if e < TURNS && domain.wrapping_add(e) > 0 {
        let next = e.wrapping_mul(DOMAINS).wrapping_add(domain);
        (head(next.wrapping_sub(1)), next)
    } else if e == 16 && domain == 0 {
        (head(239), 240)
    } else {
        let n = domain.wrapping_mul(ENTRIES).wrapping_add(e);
        (Addr::V4(0x4000_0000_u32.wrapping_add(n)), 0)
    }
}

fn add(rows: &mut List<ChildRow>, row: Option<ChildRow>) -> Result<(), NoMemory> {
    match row {
        Some(row) => rows.push(row),
        None => Ok(()),
    }
}

fn rows_of_entry(
    alloc: Global,
    chain: bool,
    rows: &mut List<ChildRow>,
    domain: u32,
    e: u32,
) -> Result<(), NoMemory> {
    let (entry, next) = entry(domain, e);
    for turn in 0..TURNS {
        let m = turn.wrapping_mul(DOMAINS).wrapping_add(domain);
        add(rows, row(alloc, domain, entry, tail(m), weight(chain, next, m))?)?;
    }
    if domain == 0 {
        add(rows, row(alloc, domain, entry, TARGET, weight(chain, next, 240))?)?;
    }
    Ok(())
}

fn rows(alloc: Global, chain: bool) -> Result<List<ChildRow>, NoMemory> {
    let mut rows = List::new(alloc);
    for domain in 0..DOMAINS {
        for e in 0..ENTRIES {
            rows_of_entry(alloc, chain, &mut rows, domain, e)?;
        }
    }
    Ok(rows)
}

fn link(alloc: Global, n: u32) -> Result<ParentLink, NoMemory>
    ensures { IfOk result IsWeighed }
{
    let k = n % 240;
    Ok(ParentLink {
        from_as: number(k),
        to_as: number(k.wrapping_add(1)),
        link: Link {
            from: tail(k),
            to: head(k),
            near: Addr::V4(0x6000_0000_u32.wrapping_add(n)),
            far: Addr::V4(0x7000_0000_u32.wrapping_add(n)),
            igp: 1,
            te: 1,
            bytes_per_second: 1_000,
            colour: 0,
            srlgs: List::new(alloc),
        },
    })
}

fn links(alloc: Global) -> Result<List<ParentLink>, NoMemory>
    ensures { IfOk result (λ links. All IsWeighed links) }
{
    let mut links = List::new(alloc);
    for n in 0..LINKS {
        links.push(link(alloc, n)?)?;
    }
    Ok(links)
}

fn query(alloc: Global, cap: Cost) -> Query {
    Query {
        own: As(0),
        metric: Metric::Te,
        cap,
        bandwidth: 0,
        exclude_any: 0,
        include_any: 0,
        include_all: 0,
        exclusions: List::new(alloc),
    }
}

/// The job of a chain, or of equal costs.
pub fn job(alloc: Global, chain: bool, cap: Cost) -> Result<BorderJob, NoMemory>
    ensures { IfOk result (λ job. All IsWeighed job.links) }
{
    Ok(BorderJob {
        number: 1,
        start: number(0),
        source: SOURCE,
        target: TARGET,
        query: query(alloc, cap),
        rows: rows(alloc, chain)?,
        links: links(alloc)?,
    })
}
RT

cat >"$crate/proofs/graph/links/Invariants.antt" <<'ANTT'
use Rattle.std.proofs.Common.{All}
use Rattle.pce_parent.specs.Solution.{IsWeighed}
use Rattle.border_bench.proofs.graph.links.Given as goal

abbrev pub invariant-loop-n : goal.invariant-loop-n
invariant-loop-n l = All IsWeighed l.links
ANTT

cat >"$crate/src/main.rt" <<'RT'
//! Times the parent's part.
#![tactic(auto)]

mod graph;

use crate::graph::job;
use dom_base::Cost;
use pce_parent::solve_border;
use std::io;
use std::time::Instant;

const ROUNDS: u32 = 30;

fn measure(rt: &HostRuntime, chain: bool) -> io::Result<()> {
    let Some(cap) = Cost::of(16_777_215) else {
        return println!(rt; "no cap");
    };
    let Ok(job) = job(rt.alloc(), chain, cap) else {
        return println!(rt; "no memory");
    };
    let mut best = u128::MAX;
    let mut hops = 0;
    for _round in 0..ROUNDS {
        let start = Instant::now(rt)?;
        if let Ok(solved) = solve_border(rt.alloc(), &job) {
            best = best.min(start.elapsed(rt)?.as_nanos());
            if let Some((_cost, way)) = solved.answer() {
                hops = way.len();
            }
        }
    }
    let what = if chain { "a chain" } else { "equal costs" };
    println!(rt; "{what}: {} rows, a walk of {hops} hops in {} us", job.rows.len(), best / 1000)
}

fn main(rt: HostRuntime) -> io::Result<()> {
    measure(&rt, true)?;
    measure(&rt, false)
}
RT

cd "$crate"
rt run 2>"$copy/log" || {
    tail -40 "$copy/log" >&2
    exit 1
}
