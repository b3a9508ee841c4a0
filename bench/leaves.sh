#!/bin/sh
# What a call of the parts of an element costs, in nanoseconds, as the number held grows: a request that is opened
# and the oldest that is closed, path keys that are issued, and messages that are put into a queue and taken out.
# It makes a program in a copy of the repository, proves and builds it there, and runs it. The figures hold for the
# machine and the moment alone: no clause speaks of time.
# usage: bench/leaves.sh
set -eu
if [ $# -ne 0 ]; then
    echo 'usage: bench/leaves.sh' >&2
    exit 2
fi
top=$(cd "$(dirname "$0")/.." && pwd)
copy=$(mktemp -d)
trap 'rm -rf "$copy"' EXIT
mkdir -p "$copy/crates"
cp "$top/HANDLES" "$copy/"
for name in dom_base request_table path_keys plant_queues; do
    cp -r "$top/crates/$name" "$copy/crates/"
    grep "^$name[ :]" "$top/crates.txt" >>"$copy/crates.txt"
done
echo 'leaves_bench: dom_base request_table path_keys plant_queues' >>"$copy/crates.txt"
crate=$copy/crates/leaves_bench
mkdir -p "$crate/src" "$crate/proofs/work/issue_some" "$crate/proofs/main"

cat >"$crate/src/work.rt" <<'RT'
ghost use Rattle.std.specs.Prelude.{◌≤◌};

use dom_base::{Peer, Tick};
use path_keys::PathKeys;
use plant_queues::Queue;
use request_table::Requests;

const CLIENT: Peer = Peer::Outside(1);

pub fn open_some(table: &mut Requests<u32>, count: u32) -> bool {
    for id in 0..count {
        if table.open(CLIENT, id, id).is_err() {
            return false;
        }
    }
    true
}

// Opens a request and closes the oldest, so many times.
pub fn open_and_close(table: &mut Requests<u32>, first: u32, count: u32) -> bool {
    for k in 0..count {
        let id = first.wrapping_add(k);
        if table.open(CLIENT, id, id).is_err() {
            return false;
        }
        if let Some(number) = table.nth(0) {
            let _ = table.close(number);
        }
    }
    true
}

pub fn issue_some(keys: &mut PathKeys<u32>, count: u32) -> bool
    requires { keys.old.kept.clock ≤ 0 }
    ensures { keys.new.kept.clock ≤ 0 }
{
    for k in 0..count {
        match keys.issue(Tick(0), k) {
            Ok(_) => {}
            Err(_) => return false,
        }
    }
    true
}

pub fn put_some(queue: &mut Queue, message: &[u8], count: u32) -> bool {
    for _ in 0..count {
        match queue.reserve(1, message.len()) {
            Ok(()) => {}
            Err(_) => return false,
        }
        queue.put(message);
    }
    true
}

// Puts a message and takes the first, so many times.
pub fn put_and_pop(queue: &mut Queue, message: &[u8], count: u32) -> bool {
    for _ in 0..count {
        match queue.reserve(1, message.len()) {
            Ok(()) => {}
            Err(_) => return false,
        }
        queue.put(message);
        queue.pop();
    }
    true
}
RT

cat >"$crate/src/main.rt" <<'RT'
#![tactic(auto)]

mod work;

use crate::work::{issue_some, open_and_close, open_some, put_and_pop, put_some};
use path_keys::PathKeys;
use plant_queues::Queue;
use request_table::Requests;
use std::io;
use std::time::Instant;

const CALLS: u32 = 1_024;
const KEYS: u32 = 1_024;
const MESSAGES: u32 = 100_000;

fn main(rt: HostRuntime) -> io::Result<()> {
    for held in [1u32, 16, 128, 1_023] {
        let Ok(mut table) = Requests::new(rt.alloc()) else {
            return println!(rt; "no memory");
        };
        let filled = open_some(&mut table, held);
        let start = Instant::now(&rt)?;
        let done = open_and_close(&mut table, held, CALLS);
        let each = start.elapsed(&rt)?.as_nanos() / u128::from(CALLS);
        println!(rt; "requests: {held} held: {each} ns to open one and close the oldest ({filled} {done})")?;
    }
    let Ok(mut keys) = PathKeys::new(rt.alloc(), 600) else {
        return println!(rt; "no memory");
    };
    for chunk in 0..8u32 {
        let start = Instant::now(&rt)?;
        let done = issue_some(&mut keys, KEYS);
        let each = start.elapsed(&rt)?.as_nanos() / u128::from(KEYS);
        let held = chunk.saturating_mul(KEYS);
        println!(rt; "keys: {held} held: {each} ns to issue one ({done})")?;
    }
    for held in [0u32, 100, 10_000, 100_000] {
        let mut queue = Queue::new(rt.alloc());
        let message = [7u8; 64];
        let filled = put_some(&mut queue, &message, held);
        let start = Instant::now(&rt)?;
        let done = put_and_pop(&mut queue, &message, MESSAGES);
        let each = start.elapsed(&rt)?.as_nanos() / u128::from(MESSAGES);
        println!(rt; "queue: {held} held: {each} ns to put one and take the first ({filled} {done})")?;
    }
    Ok(())
}
RT

cat >"$crate/proofs/work/issue_some/Invariants.antt" <<'ANTT'
use Rattle.std.proofs.Common.{◌≤◌}
use Rattle.leaves_bench.proofs.work.issue_some.Given as goal

abbrev pub invariant-loop-k : goal.invariant-loop-k
invariant-loop-k l = l.keys.kept.clock ≤ 0
ANTT
cat >"$crate/proofs/main/Invariants.antt" <<'ANTT'
use Rattle.std.proofs.Common.{◌≤◌}
use Rattle.leaves_bench.proofs.main.Given as goal

abbrev pub invariant-loop-chunk : goal.invariant-loop-chunk
invariant-loop-chunk l = l.keys.kept.clock ≤ 0
ANTT

cd "$crate"
rt run 2>"$copy/log" || {
    tail -40 "$copy/log" >&2
    exit 1
}
