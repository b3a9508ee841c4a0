#!/bin/sh
# What one element takes for a request, in microseconds, beside `solve` alone: 1,024 requests of a client are pending at once, over a
# topology of 1,024 nodes and 8,192 inner links. Each is read and taken, its job is solved, and its answer is planned, written and made.
# It makes a program in a copy of the repository, proves and builds it there, and runs it. The figures hold for the
# machine and the moment alone: no clause speaks of time.
# usage: bench/element.sh
set -eu
if [ $# -ne 0 ]; then
    echo 'usage: bench/element.sh' >&2
    exit 2
fi
top=$(cd "$(dirname "$0")/.." && pwd)
copy=$(mktemp -d)
trap 'rm -rf "$copy"' EXIT
mkdir -p "$copy/crates"
cp "$top/HANDLES" "$copy/"
for name in dom_base line_text te_links te_text te_generations path_constraints walk_laws path_search path_certificate pcep_codes pcep_subobjects pcep_objects pcep_messages pcep_framing pcep_session vspt_tree border_costs request_table path_keys disclosure plant_queues plant_text plant_model pce_common pce_element; do
    cp -r "$top/crates/$name" "$copy/crates/"
    grep "^$name[ :]" "$top/crates.txt" >>"$copy/crates.txt"
done
sed -n 's/^pce_element: /element_bench: pce_element plant_model /p' "$top/crates.txt" >>"$copy/crates.txt"
crate=$copy/crates/element_bench
mkdir -p "$crate/src" "$crate/proofs/serving/answer" "$crate/proofs/serving/take_all" "$crate/proofs/serving/answer_all"

cat >"$crate/src/network.rt" <<'RT'
//! A topology at the limits.
ghost use Rattle.std.specs.Prelude.{◌≡◌, IfOk, IfSome};

use dom_base::{Addr, As, Link, List, NoMemory};
use std::alloc::Global;
use te_links::{Parts, Topology};

pub const NODES: u32 = 1_024;

const LINKS_EACH: u32 = 8;

fn addr(first: u32, n: u32) -> Addr {
    Addr::V4(first.wrapping_add(n))
}

fn link(alloc: Global, from: Addr, to: Addr, n: u32, te: u32) -> Link {
    Link {
        from,
        to,
        near: addr(0x4000_0000, n),
        far: addr(0x8000_0000, n),
        igp: 1,
        te,
        bytes_per_second: 1_000,
        colour: 0,
        srlgs: List::new(alloc),
    }
}

// A ring, and from each node seven links to others by a fixed rule. The metric grows with the
// distance, so that many labels are lowered several times.
fn links(alloc: Global) -> Result<Vec<Link>, NoMemory> {
    let mut links = Vec::new(alloc);
    let mut x: u32 = 1;
    for i in 0..NODES {
        for k in 0..LINKS_EACH {
            x = x.wrapping_mul(69_069).wrapping_add(1);
            let other = (x >> 16) % NODES;
            let next = i.wrapping_add(1) % NODES;
            let to = if k == 0 || other == i { next } else { other };
            let te = if k == 0 { 1 } else { 1 + (x >> 10) % 5_000 };
            let n = i.wrapping_mul(LINKS_EACH).wrapping_add(k);
            links.push(link(alloc, addr(1, i), addr(1, to), n, te))?;
        }
    }
    Ok(links)
}

fn nodes(alloc: Global) -> Result<Vec<Addr>, NoMemory> {
    let mut nodes = Vec::new(alloc);
    for i in 0..NODES {
        nodes.push(addr(1, i))?;
    }
    Ok(nodes)
}

/// The topology of this domain.
pub fn topology(alloc: Global, own: As) -> Result<Option<Topology>, NoMemory>
    ensures { IfOk result (λ found. IfSome found (λ topology. topology.own ≡ own)) }
{
    let parts = Parts {
        own,
        nodes: List::from_vec(nodes(alloc)?),
        links: List::from_vec(links(alloc)?),
        outs: List::new(alloc),
        entries: List::new(alloc),
    };
    match Topology::build(alloc, parts) {
        Ok(topology) => Ok(Some(topology)),
        Err(_refused) => Ok(None),
    }
}
RT

cat >"$crate/src/serving.rt" <<'RT'
//! Requests that one element takes and answers.
ghost use Rattle.std.specs.Prelude.{◌≡◌, ◌≤◌, IfOk, IfSome, OnOk};
ghost use Rattle.pce_common.specs.Messages.{HasOnePart};

use crate::network::{NODES, topology};
use border_costs::solve;
use disclosure::Class;
use dom_base::{Addr, As, List, NoMemory, Peer, Tick};
use pce_element::{Element, Topologies};
use pcep_messages::{Message, read_message, write_message};
use plant_model::Outputs;
use std::alloc::Global;

/// How many requests are pending at once.
pub const REQUESTS: u32 = 1_024;

const CLIENT: Peer = Peer::Outside(1);

const NOW: Tick = Tick(0);

/// An element that has the topology.
pub fn new_element(alloc: Global) -> Result<Element<Topologies>, NoMemory>
    ensures { IfOk result (λ element. element.losing.element.keys.clock ≤ 0) }
{
    let own = As(1);
    let id = Addr::V4(0xc000_0201);
    let mut element = Element::new(alloc, own, id, 600, false, &[], List::new(alloc))?;
    let Some(topology) = topology(alloc, own)? else {
        return Err(NoMemory);
    };
    let Ok(_number) = element.load(topology) else {
        return Err(NoMemory);
    };
    element.up(CLIENT);
    Ok(element)
}

fn node(n: u32) -> [u8; 4] {
    (n % NODES).wrapping_add(1).to_be_bytes()
}

// A request under an id, between two nodes that go by the id.
fn request(alloc: Global, id: u32) -> Result<Vec<u8>, NoMemory> {
    let mut frame = Vec::new(alloc);
    frame.extend_from_slice(&[0x20, 3, 0, 28, 2, 0x12, 0, 12, 0, 0, 0, 0])?;
    frame.extend_from_slice(&id.to_be_bytes())?;
    frame.extend_from_slice(&[4, 0x12, 0, 12])?;
    frame.extend_from_slice(&node(id))?;
    frame.extend_from_slice(&node(id.wrapping_mul(523).wrapping_add(7)))?;
    Ok(frame)
}

fn one_part(message: Message) -> Option<Message>
    ensures { IfSome result HasOnePart }
{
    match message {
        Message::PcReq(asks) => {
            if asks.len() > 1 {
                return None;
            }
            Some(Message::PcReq(asks))
        }
        _ => None,
    }
}

fn read(alloc: Global, id: u32) -> Result<Message, NoMemory>
    ensures { IfOk result HasOnePart }
{
    let frame = request(alloc, id)?;
    let Ok(message) = read_message(alloc, frame.as_slice()) else {
        return Err(NoMemory);
    };
    let Some(message) = one_part(message) else {
        return Err(NoMemory);
    };
    Ok(message)
}

fn take(alloc: Global, element: &mut Element<Topologies>, id: u32) -> Result<(), NoMemory>
    ensures { OnOk result (element.new.losing.element.keys ≡ element.old.losing.element.keys) }
{
    let message = read(alloc, id)?;
    let plan = element.take(CLIENT, Class::Client { expand: true }, message, NOW)?;
    element.make(plan);
    Ok(())
}

/// Takes all requests.
pub fn take_all(alloc: Global, element: &mut Element<Topologies>) -> Result<(), NoMemory>
    requires { element.old.losing.element.keys.clock ≤ 0 }
    ensures { OnOk result (element.new.losing.element.keys.clock ≤ 0) }
{
    for id in 1..=REQUESTS {
        take(alloc, element, id)?;
    }
    Ok(())
}

// How many octets the messages have.
fn written(alloc: Global, outputs: &Outputs) -> Result<usize, NoMemory> {
    let mut octets = Vec::new(alloc);
    for output in outputs.as_slice() {
        if write_message(alloc, &output.message, &mut octets).is_err() {
            return Err(NoMemory);
        }
    }
    Ok(octets.len())
}

// Answers the request of a number, and tells how many octets the answer has.
fn answer(alloc: Global, element: &mut Element<Topologies>, number: u64) -> Result<usize, NoMemory>
    requires { element.old.losing.element.keys.clock ≤ 0 }
    ensures { OnOk result (element.new.losing.element.keys.clock ≤ 0) }
{
    let found = element.job(number)?;
    let Some(job) = found else {
        return Err(NoMemory);
    };
    let solved = solve(alloc, &job)?;
    let Ok(plan) = element.commit(solved, NOW) else {
        return Err(NoMemory);
    };
    let octets = written(alloc, plan.outputs())?;
    element.make(plan);
    Ok(octets)
}

/// Answers all requests, each the first that is ready, and tells how many octets the answers have.
pub fn answer_all(alloc: Global, element: &mut Element<Topologies>) -> Result<usize, NoMemory>
    requires { element.old.losing.element.keys.clock ≤ 0 }
    ensures { OnOk result (element.new.losing.element.keys.clock ≤ 0) }
{
    let mut octets = 0usize;
    for _request in 0..REQUESTS {
        let Some(number) = element.ready(0) else {
            return Err(NoMemory);
        };
        octets = octets.saturating_add(answer(alloc, element, number)?);
    }
    Ok(octets)
}
RT

cat >"$crate/src/main.rt" <<'RT'
//! Times requests of one element.
#![tactic(auto)]

ghost use Rattle.std.specs.Prelude.{◌≤◌, OnOk};

mod network;
mod serving;

use crate::serving::{REQUESTS, answer_all, new_element, take_all};
use border_costs::solve;
use pce_element::{Element, Topologies};
use std::io;
use std::time::Instant;

const ROUNDS: u32 = 5;

// How long the job of a number takes to be solved, in nanoseconds.
fn solve_one(rt: &HostRuntime, element: &Element<Topologies>, number: u64) -> io::Result<u128> {
    let Ok(Some(job)) = element.job(number) else {
        return Ok(0);
    };
    let start = Instant::now(rt)?;
    let solved = solve(rt.alloc(), &job);
    let took = start.elapsed(rt)?.as_nanos();
    Ok(if solved.is_ok() { took } else { 0 })
}

fn solve_each(rt: &HostRuntime, element: &Element<Topologies>) -> io::Result<u128> {
    let mut sum = 0u128;
    for number in 1..=u64::from(REQUESTS) {
        sum = sum.saturating_add(solve_one(rt, element, number)?);
    }
    Ok(sum)
}

fn each(nanoseconds: u128) -> u128 {
    nanoseconds / 1_000 / u128::from(REQUESTS)
}

fn time_taking(rt: &HostRuntime, element: &mut Element<Topologies>) -> io::Result<u128>
    requires { element.old.losing.element.keys.clock ≤ 0 }
    ensures { OnOk result (element.new.losing.element.keys.clock ≤ 0) }
{
    let start = Instant::now(rt)?;
    if take_all(rt.alloc(), element).is_err() {
        return Err(io::Error::from(io::ErrorKind::OutOfMemory));
    }
    Ok(start.elapsed(rt)?.as_nanos())
}

fn time_answering(rt: &HostRuntime, element: &mut Element<Topologies>) -> io::Result<u128>
    requires { element.old.losing.element.keys.clock ≤ 0 }
{
    let start = Instant::now(rt)?;
    match answer_all(rt.alloc(), element) {
        Ok(octets) => {
            let took = start.elapsed(rt)?.as_nanos();
            println!(rt; "{octets} octets answered")?;
            Ok(took)
        }
        Err(_) => Err(io::Error::from(io::ErrorKind::OutOfMemory)),
    }
}

fn report(rt: &HostRuntime, taken: u128, alone: u128, answered: u128) -> io::Result<()> {
    let taken = each(taken);
    let alone = each(alone);
    let answered = each(answered);
    println!(rt; "a request: taken in {taken} us, solved and answered in {answered} us, `solve` alone {alone} us")
}

fn serve(rt: &HostRuntime, element: &mut Element<Topologies>) -> io::Result<()>
    requires { element.old.losing.element.keys.clock ≤ 0 }
{
    let taken = time_taking(rt, element)?;
    let alone = solve_each(rt, element)?;
    let answered = time_answering(rt, element)?;
    report(rt, taken, alone, answered)
}

fn measure(rt: &HostRuntime) -> io::Result<()> {
    match new_element(rt.alloc()) {
        Ok(mut element) => serve(rt, &mut element),
        Err(_) => println!(rt; "no element"),
    }
}

fn main(rt: HostRuntime) -> io::Result<()> {
    for _round in 0..ROUNDS {
        measure(&rt)?;
    }
    Ok(())
}
RT

cat >"$crate/proofs/serving/answer/Answers.antt" <<'ANTT'
use Rattle.std.proofs.Common.{◌≡◌, ◌∙◌, Option, sym, ap, subst, option_map}
use Rattle.std.specs.Prelude.{IfSome}
use Rattle.border_costs.specs.declared.job.Job.{Job}
use Rattle.pce_element.specs.Jobs.{work_of}
use Rattle.pce_element.proofs.CommitLemmas.{own_of}
use Rattle.element_bench.proofs.serving.answer.Goals as goal

pub commit-requires-clause-own : goal.commit-requires-clause-own
commit-requires-clause-own c =
    own_of c.args.element.now c.args.number (work_of c.in-Some.job) c.in_ok-solved.solved (ap (option_map work_of) (sym c.in-Some.is) ∙ c.in_ok-found.ensures.job) c.in_ok-solved.ensures.ask c.in_ok-solved.ensures.topology
    (subst (λ (o : Option Job). IfSome o (λ (j : Job). j.ask.number ≡ c.args.number)) c.in-Some.is c.in_ok-found.ensures.number)
ANTT

for loop in take_all answer_all; do
    name=id
    [ "$loop" = take_all ] || name=request
    cat >"$crate/proofs/serving/$loop/Invariants.antt" <<ANTT
use Rattle.std.proofs.Common.{◌≤◌}
use Rattle.element_bench.proofs.serving.$loop.Given as goal

abbrev pub invariant-loop-$name : goal.invariant-loop-$name
invariant-loop-$name l = l.element.losing.element.keys.clock ≤ 0
ANTT
done

cd "$crate"
rt run 2>"$copy/log" || {
    tail -40 "$copy/log" >&2
    exit 1
}
