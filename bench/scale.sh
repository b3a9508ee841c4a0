#!/bin/sh
# How cost grows with the nodes of a domain and with the elements of a network, as pictures: a search, `solve`, a pair, a request in one
# domain and through four, a request through 1 to 16 elements, a tick, and memory. Topologies are drawn, with eight links from each node,
# from 16 nodes to the limits. Searches are timed by a program that is made, proved and built in a copy of the repository, 300 times in each round; what the network
# does by `play`, over scripts with the events and without them: the difference of the times that the processor was busy. Of the rounds the
# least counts. Beside them stands bench/plain/scale.c; where both find costs, these have to agree. It writes docs/scale/figures.txt, a row for each
# figure, and a picture for each kind. Needs Python, a C compiler and gnuplot. The figures hold for the machine and the moment alone.
# usage: bench/scale.sh [PROGRAM [ROUNDS [SEARCHES]]]   (the program that the gate proved and built, and 5; SEARCHES is such a program of
#        searches, in place of the one that is made)
set -eu
top=$(cd "$(dirname "$0")/.." && pwd)
program=${1:-$top/crates/pce_main/out/pce_main}
rounds=${2:-5}
[ -x "$program" ] || { echo "scale: no program $program; \`rt ci\` builds it" >&2; exit 2; }
copy=$(mktemp -d)
trap 'rm -rf "$copy"' EXIT
cc -O2 -o "$copy/plain" "$top/bench/plain/scale.c"

sources() {
    cat >"$crate/src/network.rt" <<'RT'
//! Drawn topologies with eight links from each node.
use border_costs::{Ask, Job, Target};
use dom_base::{Addr, As, Cost, Link, List, Metric, NoMemory, Query};
use std::alloc::Global;
use std::sync::Arc;
use te_links::{Parts, Topology};

const ENTRIES: u32 = 16;

// A number drawn from another.
fn drawn(n: u32) -> u32 {
    let a = (n ^ 61) ^ (n >> 16);
    let b = a.wrapping_mul(9);
    let c = (b ^ (b >> 4)).wrapping_mul(0x27D4_EB2D);
    c ^ (c >> 15)
}

/// The node at a place.
pub fn node(place: u32) -> Addr {
    addr(1, place)
}

fn addr(first: u32, n: u32) -> Addr {
    Addr::V4(first.wrapping_add(n))
}

// The number of nodes is a power of two, and `most` is one less.
fn link(alloc: Global, most: u32, n: u32) -> Link {
    let from = n / 8;
    let next = from.wrapping_add(1) & most;
    let other = drawn(n) & most;
    let to = if n % 8 == 0 || other == from {
        next
    } else {
        other
    };
    Link {
        from: node(from),
        to: node(to),
        near: addr(0x4000_0000, n),
        far: addr(0x8000_0000, n),
        igp: 1,
        te: 1 + drawn(n.wrapping_add(77)) % 1_000,
        bytes_per_second: 1_000,
        colour: 0,
        srlgs: List::new(alloc),
    }
}

fn nodes(alloc: Global, count: u32) -> Result<List<Addr>, NoMemory> {
    let mut nodes = List::new(alloc);
    for place in 0..count {
        nodes.push(node(place))?;
    }
    Ok(nodes)
}

fn topology(alloc: Global, count: u32) -> Result<Option<Topology>, NoMemory> {
    let most = count.wrapping_sub(1);
    let mut links = List::new(alloc);
    for n in 0..count.wrapping_mul(8) {
        links.push(link(alloc, most, n))?;
    }
    let parts = Parts {
        own: As(1),
        nodes: nodes(alloc, count)?,
        links,
        outs: List::new(alloc),
        entries: List::new(alloc),
    };
    match Topology::build(alloc, parts) {
        Ok(topology) => Ok(Some(topology)),
        Err(_refused) => Ok(None),
    }
}

/// What is asked over the topology of so many nodes: the costs from the first ones to the one in the middle.
pub fn job(alloc: Global, count: u32) -> Result<Option<Job>, NoMemory> {
    let (Some(cap), Some(topology)) = (Cost::of(16_777_215), topology(alloc, count)?) else {
        return Ok(None);
    };
    let query = Query {
        own: As(1),
        metric: Metric::Te,
        cap,
        bandwidth: 0,
        exclude_any: 0,
        include_any: 0,
        include_all: 0,
        exclusions: List::new(alloc),
    };
    let ask = Ask {
        at: As(1),
        number: 1,
        generation: 1,
        query,
        source: node(0),
        entries: nodes(alloc, ENTRIES)?,
        target: Target::Node(node(count / 2)),
        down: List::new(alloc),
    };
    let topology = Arc::new(alloc, topology)?;
    Ok(Some(Job { ask, topology }))
}
RT

    cat >"$crate/src/main.rt" <<'RT'
//! Times searches, rows and pairs by the number of nodes.
#![tactic(auto)]

mod network;

use crate::network::{job, node};
use border_costs::{Job, seeds_of, solve};
use diverse_pairs::{PairForm, path_cost, solve_pair};
use dom_base::{Addr, NoMemory};
use path_search::search;
use std::io;
use std::time::Instant;
use te_links::Counted;

const ROUNDS: u32 = 300;

// The least time of the rounds, and what was found in the last one.
#[derive(Clone, Copy)]
struct Figure {
    nanoseconds: u128,
    sum: u64,
}

impl Figure {
    fn none() -> Figure {
        Figure {
            nanoseconds: u128::MAX,
            sum: 0,
        }
    }

    fn note(&mut self, nanoseconds: u128, sum: u64) {
        self.nanoseconds = self.nanoseconds.min(nanoseconds);
        self.sum = sum;
    }
}

fn time_search(rt: &HostRuntime, job: &Job, figure: &mut Figure) -> io::Result<()> {
    let mut links = Counted::new(&job.topology);
    let Ok(seeds) = seeds_of(rt.alloc(), &job.ask, &links) else {
        return Ok(());
    };
    let start = Instant::now(rt)?;
    let found = search(rt.alloc(), &mut links, &job.ask.query, &seeds);
    let took = start.elapsed(rt)?.as_nanos();
    if found.is_ok() {
        figure.note(took, 0);
    }
    Ok(())
}

fn time_solve(rt: &HostRuntime, job: &Job, figure: &mut Figure) -> io::Result<()> {
    let start = Instant::now(rt)?;
    let solved = solve(rt.alloc(), job);
    let took = start.elapsed(rt)?.as_nanos();
    if let Ok(solved) = solved {
        let mut sum: u64 = 0;
        for row in solved.best() {
            sum = sum.wrapping_add(u64::from(row.cost.get()));
        }
        figure.note(took, sum);
    }
    Ok(())
}

fn cost_of(job: &Job, shown: &[Addr]) -> u64 {
    if shown.len() <= 1_024 {
        path_cost(&job.topology, &job.ask.query, shown)
    } else {
        0
    }
}

// The sum of the costs of a pair.
fn pair(rt: &HostRuntime, job: &Job, nodes: u32) -> Result<u64, NoMemory> {
    let (topology, query) = (&job.topology, &job.ask.query);
    let found = solve_pair(rt.alloc(), topology, query, job.ask.source, node(nodes / 2))?;
    Ok(match &found.form {
        PairForm::Paths { first, second, .. } => cost_of(job, first.as_slice()).wrapping_add(cost_of(job, second.as_slice())),
        PairForm::Cut(_) => 0,
    })
}

fn time_pair(rt: &HostRuntime, job: &Job, nodes: u32, figure: &mut Figure) -> io::Result<()> {
    let start = Instant::now(rt)?;
    let found = pair(rt, job, nodes);
    let took = start.elapsed(rt)?.as_nanos();
    if let Ok(sum) = found {
        figure.note(took, sum);
    }
    Ok(())
}

fn measure(rt: &HostRuntime, nodes: u32) -> io::Result<()> {
    let Ok(Some(job)) = job(rt.alloc(), nodes) else {
        return println!(rt; "no job");
    };
    let (mut searches, mut solves, mut pairs) = (Figure::none(), Figure::none(), Figure::none());
    for _round in 0..ROUNDS {
        time_search(rt, &job, &mut searches)?;
        time_solve(rt, &job, &mut solves)?;
        time_pair(rt, &job, nodes, &mut pairs)?;
    }
    println!(rt; "search {nodes} {} {}", searches.nanoseconds, searches.sum)?;
    println!(rt; "solve {nodes} {} {}", solves.nanoseconds, solves.sum)?;
    println!(rt; "pair {nodes} {} {}", pairs.nanoseconds, pairs.sum)
}

fn main(rt: HostRuntime) -> io::Result<()> {
    measure(&rt, 16)?;
    measure(&rt, 32)?;
    measure(&rt, 64)?;
    measure(&rt, 128)?;
    measure(&rt, 256)?;
    measure(&rt, 512)?;
    measure(&rt, 1_024)
}
RT
}

build() {
    mkdir -p "$copy/crates"
    cp "$top/HANDLES" "$copy/"
    for name in dom_base line_text path_constraints pcep_codes pcep_subobjects pcep_objects pcep_messages te_links te_text walk_laws path_search path_certificate diverse_pairs vspt_tree border_costs; do
        mkdir -p "$copy/crates/$name/out"
        for part in src specs proofs out/rlib; do
            [ ! -d "$top/crates/$name/$part" ] || cp -r "$top/crates/$name/$part" "$copy/crates/$name/$part"
        done
        grep "^$name[ :]" "$top/crates.txt" >>"$copy/crates.txt"
    done
    echo 'scale_bench: dom_base te_links path_search border_costs diverse_pairs' >>"$copy/crates.txt"
    crate=$copy/crates/scale_bench
    mkdir -p "$crate/src"
    sources
    (cd "$crate" && rt run >"$copy/figures" 2>"$copy/log") || {
        tail -40 "$copy/log" >&2
        exit 1
    }
    searches=$crate/out/scale_bench
}

if [ $# -ge 3 ]; then searches=$3; else build; fi
mkdir -p "$top/docs/scale"
exec python3 - "$(realpath "$program")" "$copy" "$searches" "$top/docs/scale" "$rounds" <<'PY'
import os
import resource
import subprocess
import sys

program, folder, searches, pictures, rounds = sys.argv[1], sys.argv[2], sys.argv[3], sys.argv[4], int(sys.argv[5])
plain = os.path.join(folder, "plain")
SIZES = [16, 32, 64, 128, 256, 512, 1024]
ROWS = [1, 2, 3, 4, 6, 8, 12, 16]
BORDER = 4  # links from one domain to the next
HELLO = "2001000c011000082000000120020004"  # an Open without timers, and a Keepalive
figures = []  # picture, curve, x, y


def drawn(n):
    a = (n ^ 61) ^ (n >> 16)
    b = a * 9 & 0xFFFFFFFF
    c = (b ^ (b >> 4)) * 0x27D4EB2D & 0xFFFFFFFF
    return c ^ (c >> 15)


def links_of(domain, nodes):
    """From, to and weight of the inner links of a domain."""
    for n in range(8 * nodes):
        start, other = n // 8, drawn(n + 10000 * domain) & nodes - 1
        yield start, (start + 1) % nodes if n % 8 == 0 or other == start else other, 1 + drawn(n + 77 + 10000 * domain) % 1000


def node(domain, place):
    return "10.%d.%d.%d" % (domain, (place + 1) >> 8, (place + 1) & 255)


def border(nodes, j):
    """Where the j-th link to the next domain begins, and where it ends there."""
    return j * nodes // BORDER, (2 * j + 1) * nodes // (2 * BORDER)


def write_domain(domain, nodes, last):
    rows = ["topology %d" % domain] + ["node " + node(domain, place) for place in range(nodes)]
    ends = lambda kind, n: "%d.%d.%d.%d %d.%d.%d.%d" % (64 + domain, kind, n >> 8, n & 255, 96 + domain, kind, n >> 8, n & 255)
    for n, (start, end, weight) in enumerate(links_of(domain, nodes)):
        rows.append("link %s %s %s %d %d 1000 00000000" % (node(domain, start), node(domain, end), ends(0, n), weight, weight))
    for j in range(BORDER if domain < last else 0):
        start, end = border(nodes, j)
        rows.append("out %s %s %s %d 1 1 1000 00000000" % (node(domain, start), node(domain + 1, end), ends(1, j), domain + 1))
    for j in range(BORDER if domain > 1 else 0):
        rows.append("entry %s %d" % (node(domain, border(nodes, j)[1]), domain - 1))
    with open(os.path.join(folder, "d%d.txt" % domain), "w") as out:
        out.write("\n".join(rows) + "\n")


def write_network(elements, nodes, peers=1):
    for domain in range(1, elements + 1 if nodes else 1):
        write_domain(domain, nodes, elements)
    text = "".join('[[element]]\nas = %d\nid = "192.0.2.%d"\n' % (at, at) for at in range(1, elements + 1))
    text += "".join("[[link]]\na = %d\nb = %d\n" % (at, at + 1) for at in range(1, elements))
    text += "".join('[[peer]]\nname = "c%d"\nas = %d\nclass = "client"\n' % (peer, peer % elements + 1) for peer in range(peers))
    with open(os.path.join(folder, "net.toml"), "w") as out:
        out.write(text)


def name_topologies(elements):
    """Names the topologies in the settings, as `path` wants them."""
    name = os.path.join(folder, "net.toml")
    with open(name) as file:
        text = file.read()
    for at in range(1, elements + 1):
        text = text.replace('id = "192.0.2.%d"\n' % at, 'id = "192.0.2.%d"\ntopology = "d%d.txt"\n' % (at, at))
    with open(name, "w") as out:
        out.write(text)


def write_joined(elements, nodes):
    """The joined topology for the plain program, with the target of the requests."""
    rows = [(start + (domain - 1) * nodes, end + (domain - 1) * nodes, weight) for domain in range(1, elements + 1) for start, end, weight in links_of(domain, nodes)]
    for domain in range(1, elements):
        rows += [(start + (domain - 1) * nodes, end + domain * nodes, 1) for start, end in (border(nodes, j) for j in range(BORDER))]
    name = os.path.join(folder, "joined")
    with open(name, "w") as out:
        out.write("%d %d %d\n" % (elements * nodes, len(rows), elements * nodes - 1))
        out.writelines("%d %d %d\n" % row for row in rows)
    return name


def output_of(words, lines=()):
    done = subprocess.run(words, input="".join(line + "\n" for line in lines).encode(), capture_output=True, cwd=folder)
    if done.returncode != 0:
        sys.exit("scale: status %d of %s: %s" % (done.returncode, " ".join(words), done.stderr.decode()))
    return done.stdout.decode()


def peak_of(words, lines=()):
    """The peak of a program's memory in megabytes."""
    done = subprocess.run([plain, "--peak"] + words, input="".join(line + "\n" for line in lines).encode(), capture_output=True, cwd=folder)
    if done.returncode != 0:
        sys.exit("scale: status %d of %s: %s" % (done.returncode, " ".join(words), done.stderr.decode()))
    return int(done.stderr.split()[-1]) / 1024


PLAY = [program, "play", "net.toml"]


def busy(lines):
    """The least processor time of the rounds, in seconds."""
    least = float("inf")
    for _ in range(rounds):
        before = resource.getrusage(resource.RUSAGE_CHILDREN)
        output_of(PLAY, lines)
        after = resource.getrusage(resource.RUSAGE_CHILDREN)
        least = min(least, after.ru_utime + after.ru_stime - before.ru_utime - before.ru_stime)
    return least


def beyond(first, then, count):
    """The microseconds of each of so many events, which the lines behind the first ones bring about."""
    return max(busy(first + then) - busy(first), 1e-9) / count * 1e6


def begin(elements, nodes, peers=1):
    lines = ["load %d d%d.txt" % (at, at) for at in range(1, elements + 1)] if nodes else []
    return lines + ["settle"] + [line for peer in range(peers) for line in ("open c%d 1" % peer, "feed c%d %s" % (peer, HELLO), "drain c%d 1" % peer)]


def hex_of(address):
    return "".join("%02x" % int(octet) for octet in address.split("."))


def request(number, elements, nodes):
    """From the first node of the first domain to the last one of the last, through each in turn."""
    way = "" if elements == 1 else "0a12%04x" % (4 + 4 * elements) + "".join("2004%04x" % at for at in range(1, elements + 1))
    body = "0212000c00000000%08x0412000c%s%s%s" % (number, hex_of(node(1, 0)), hex_of(node(elements, nodes - 1)), way)
    return "2003%04x%s" % (4 + len(body) // 2, body)


def note(picture, curve, x, y):
    figures.append((picture, curve, x, y))
    print(picture, curve, x, "%.3g" % y, flush=True)


def measure_searches():
    ours, beside = {}, {}
    for _ in range(rounds):
        for words, least in (([searches], ours), ([plain] + [str(nodes) for nodes in SIZES], beside)):
            for row in subprocess.check_output(words, text=True).splitlines():
                what, nodes, took, total = row.split()
                before = least.get((what, int(nodes)), (float("inf"),))
                least[what, int(nodes)] = min(before[0], int(took)), int(total)
    for what, nodes in ours:
        if what != "search" and ours[what, nodes][1] != beside[what, nodes][1]:
            sys.exit("scale: %s over %d nodes: the sums of the costs differ" % (what, nodes))
        note(what, "ours", nodes, ours[what, nodes][0] / 1000)
        note(what, "plain", nodes, beside[what, nodes][0] / 1000)


def measure_requests(picture, elements, nodes, x):
    write_network(elements, nodes)
    count = min(1000, max(30, 400000 // (elements * (20 + nodes // 4))))
    lines = [line for number in range(1, count + 1) for line in ("feed c0 " + request(number, elements, nodes), "finish", "drain c0 1")]
    took = beyond(begin(elements, nodes), lines, count)
    name_topologies(elements)
    path = output_of([program, "path", "net.toml", node(1, 0), node(elements, nodes - 1)] + [str(at) for at in range(1, elements + 1)])
    _, _, least, cost = output_of([plain, "--joined", write_joined(elements, nodes), "30"]).split()
    if path.split()[1] != cost:
        sys.exit("scale: %d elements of %d nodes: cost %s, beside %s" % (elements, nodes, path.split()[1], cost))
    note(picture, "ours", x, took)
    note(picture, "plain", x, int(least) / 1000)


def measure_ticks(elements, peers):
    write_network(elements, 0, peers)
    note("tick", "%d elements" % elements if elements > 1 else "1 element", peers, beyond(begin(elements, 0, peers), ["tick %d" % n for n in range(1, 5001)], 5000))


def measure_memory(elements, nodes):
    write_network(elements, nodes)
    note("memory", "%d elements" % elements if elements > 1 else "1 element", nodes, peak_of(PLAY, begin(elements, nodes)))
    if elements == 16:
        note("memory", "plain, 16 joined", nodes, peak_of([plain, "--joined", write_joined(elements, nodes), "1"]))


def draw(picture, title, x, y, linear=False):
    curves = list(dict.fromkeys(curve for where, curve, _, _ in figures if where == picture))
    with open(os.path.join(folder, "picture"), "w") as out:
        out.write('set terminal svg size 560,360 font "sans,12" background "white"\nset output "%s"\n' % os.path.join(pictures, picture + ".svg"))
        out.write('set title "%s"\nset xlabel "%s"\nset ylabel "%s"\nset key top left\nset grid\n' % (title, x, y))
        out.write("" if linear else "set logscale x 2\nset logscale y 10\n")
        for at, curve in enumerate(curves):
            out.write("$curve%d << EOD\n" % at)
            out.writelines("%d %g\n" % (a, b) for where, name, a, b in figures if (where, name) == (picture, curve))
            out.write("EOD\n")
        out.write("plot " + ", ".join('$curve%d title "%s" with linespoints lw 2 pt %d' % (at, curve, 5 + 2 * at) for at, curve in enumerate(curves)) + "\n")
    subprocess.run(["gnuplot", os.path.join(folder, "picture")], check=True)


measure_searches()
for nodes in SIZES:
    measure_requests("one", 1, nodes, nodes)
    measure_requests("four", 4, nodes, nodes)
for elements in ROWS:
    measure_requests("elements", elements, 64, elements)
for elements in (1, 4, 16):
    for peers in (1, 4, 16, 64, 256):
        measure_ticks(elements, peers)
    for nodes in SIZES:
        measure_memory(elements, nodes)
with open(os.path.join(pictures, "figures.txt"), "w") as out:
    out.writelines("%s, %s: %d %.4g\n" % row for row in figures)
draw("search", "A search", "nodes", "microseconds")
draw("solve", "The rows of 16 entries", "nodes", "microseconds")
draw("pair", "A pair of paths without a common link", "nodes", "microseconds")
draw("one", "A request in one domain, from octets to octets", "nodes", "microseconds")
draw("four", "A request through four domains", "nodes of each domain", "microseconds")
draw("elements", "A request through domains of 64 nodes", "domains", "microseconds", True)
draw("tick", "A tick", "outside peers", "microseconds")
draw("memory", "Memory with all topologies loaded", "nodes of each domain", "megabytes")
PY
