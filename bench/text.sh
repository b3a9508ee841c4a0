#!/bin/sh
# Times the text of a topology at the limits: 1,024 nodes and 8,192 links, the same at each run, beside a plain reader in C.
# It makes a program in a copy of the repository, proves and builds it there, and runs it. Of the rounds the least counts, in
# both programs. The figures hold for the machine and the moment alone: no clause speaks of time.
# usage: bench/text.sh [ROUNDS]   (rounds of each, 20 where left out)
set -eu
rounds=${1:-20}
case $rounds in
'' | 0* | *[!0-9]* | ?????*)
    echo 'usage: bench/text.sh [ROUNDS]' >&2
    exit 2
    ;;
esac
top=$(cd "$(dirname "$0")/.." && pwd)
copy=$(mktemp -d)
trap 'rm -rf "$copy"' EXIT
cc -O2 -o "$copy/plain" "$top/bench/plain/read.c"
mkdir -p "$copy/crates"
cp "$top/HANDLES" "$copy/"
for name in dom_base line_text te_links te_text; do
    cp -r "$top/crates/$name" "$copy/crates/"
    grep "^$name[ :]" "$top/crates.txt" >>"$copy/crates.txt"
done
echo 'text_bench: dom_base line_text te_links te_text' >>"$copy/crates.txt"
crate=$copy/crates/text_bench
mkdir -p "$crate/src"

# A ring of 1,024 nodes, and from each node seven links to others by a fixed rule.
awk 'BEGIN {
    print "topology 1"
    for (i = 0; i < 1024; i++) printf "node 10.0.%d.%d\n", int(i / 256), i % 256
    x = 1
    for (i = 0; i < 1024; i++) for (k = 0; k < 8; k++) {
        x = (x * 69069 + 1) % 4294967296
        j = k == 0 ? (i + 1) % 1024 : int(x / 65536) % 1024
        n = i * 8 + k
        printf "link 10.0.%d.%d 10.0.%d.%d 10.%d.%d.%d 10.%d.%d.%d 1 %d 1000 00000000 %d\n", int(i / 256), i % 256, int(j / 256), j % 256, 64 + int(n / 65536), int(n / 256) % 256, n % 256, 128 + int(n / 65536), int(n / 256) % 256, n % 256, 1 + int(x / 1024) % 5000, n
    }
}' >"$copy/limits.txt"

cat >"$crate/src/main.rt" <<RT
#![tactic(auto)]

use dom_base::{As, Link, List, NoMemory};
use std::alloc::Global;
use std::io;
use std::io::Read;
use std::time::Instant;
use te_links::{Parts, Topology};
use te_text::{read_topology, write_topology};

const ROUNDS: u32 = $rounds;

// The nodes and links of a topology, as parts.
fn parts_of(alloc: Global, topology: &Topology) -> Result<Parts, NoMemory> {
    let mut nodes = List::new(alloc);
    for i in 0..topology.node_count() {
        nodes.push(topology.node_at(i))?;
    }
    let mut links = List::new(alloc);
    for i in 0..topology.link_count() {
        let link = topology.link_at(i);
        links.push(Link {
            from: link.from,
            to: link.to,
            near: link.near,
            far: link.far,
            igp: link.igp,
            te: link.te,
            bytes_per_second: link.bytes_per_second,
            colour: link.colour,
            srlgs: List::new(alloc),
        })?;
    }
    Ok(Parts {
        own: As(1),
        nodes,
        links,
        outs: List::new(alloc),
        entries: List::new(alloc),
    })
}

#[tactic(auto, using(line_text::proofs::Counts::lines_at_most))]
fn read(alloc: Global, text: &[u8]) -> Option<Topology> {
    if text.len() > 0x20_0000 {
        return None;
    }
    match read_topology(alloc, text) {
        Ok(topology) => Some(topology),
        Err(_) => None,
    }
}

fn main(rt: HostRuntime) -> io::Result<()> {
    let mut text = Vec::new(rt.alloc());
    rt.stdin().read_to_end(&mut text)?;
    let Some(topology) = read(rt.alloc(), &text) else {
        return println!(rt; "no topology");
    };
    let mut reading = u128::MAX;
    let mut building = u128::MAX;
    let mut writing = u128::MAX;
    for _ in 0..ROUNDS {
        let start = Instant::now(&rt)?;
        let again = read(rt.alloc(), &text);
        let took = start.elapsed(&rt)?.as_micros();
        if again.is_some() {
            reading = reading.min(took);
        }
        if let Ok(parts) = parts_of(rt.alloc(), &topology) {
            let start = Instant::now(&rt)?;
            let _ = Topology::build(rt.alloc(), parts);
            building = building.min(start.elapsed(&rt)?.as_micros());
        }
        let start = Instant::now(&rt)?;
        let _ = write_topology(rt.alloc(), &topology);
        writing = writing.min(start.elapsed(&rt)?.as_micros());
    }
    let bytes = text.len();
    println!(rt; "{bytes} bytes: reading and building {reading} us, building of the same rows {building} us, writing {writing} us")
}
RT

(cd "$crate" && rt check >check.log 2>&1) || {
    grep -v "^statements\|^logic /" "$crate/check.log" >&2
    exit 1
}
(cd "$crate" && rt run >run.log 2>&1 <"$copy/limits.txt") || {
    cat "$crate/run.log" >&2
    exit 1
}
grep "bytes:" "$crate/run.log"
"$copy/plain" <"$copy/limits.txt" >"$copy/beside"
plain=$(sed 's/.*building \([0-9]*\) us/\1/' "$copy/beside")
sed 's/.*building \([0-9]*\) us, building.*/\1/' "$crate/run.log" | awk -v plain="$plain" '/^[0-9]+$/ { printf "beside the plain reader, %s us: %.2f times\n", plain, $1 / plain }'
