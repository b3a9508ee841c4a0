#!/bin/sh
# Turns per second of a turnstile round the counter, with 1, 2, 4, 64 and 256 threads that take turns as fast as they can.
# It makes a program in a copy of the repository, proves and builds it there, and runs it. The figures hold for the
# machine and the moment alone: no clause speaks of time.
# usage: bench/turns.sh [TURNS]   (turns of all threads together, 1000000 where left out)
set -eu
turns=${1:-1000000}
case $turns in
'' | 0* | *[!0-9]* | ???????????*)
    echo 'usage: bench/turns.sh [TURNS]' >&2
    exit 2
    ;;
esac
top=$(cd "$(dirname "$0")/.." && pwd)
copy=$(mktemp -d)
trap 'rm -rf "$copy"' EXIT
mkdir -p "$copy/crates"
cp "$top/HANDLES" "$copy/"
for name in dom_base plant_lock; do
    cp -r "$top/crates/$name" "$copy/crates/"
    grep "^$name[ :]" "$top/crates.txt" >>"$copy/crates.txt"
done
echo 'turns_bench: plant_lock dom_base atomic_table' >>"$copy/crates.txt"
crate=$copy/crates/turns_bench
mkdir -p "$crate/src" "$crate/proofs/worker/Worker/add" "$crate/proofs/main"

cat >"$crate/src/worker.rt" <<'RT'
ghost use Rattle.std.specs.Prelude.{◌≡◌};
ghost use Rattle.std.specs.Arc.{arc_value};
ghost use Rattle.plant_lock.specs.Seats.{IsAt};

use plant_lock::counter::{Change, Counter};
use plant_lock::{TurnSeat, Turnstile};
use std::alloc::Global;
use std::sync::{Arc, Wait};
use std::time::Clock;

#[derive(Drop)]
pub struct Worker<R: Wait + Clock> {
    rt: R,
    stile: Arc<Turnstile<Counter>, Global>,
    seat: TurnSeat<Counter>,
    ghost here: { IsAt (arc_value stile) seat },
}

impl<R: Wait + Clock> Worker<R> {
    pub fn new(rt: R, stile: Arc<Turnstile<Counter>, Global>, seat: TurnSeat<Counter>) -> Self
        requires { IsAt (arc_value stile) seat }
    {
        Worker { rt, stile, seat }
    }

    fn add(&mut self) -> bool {
        self.stile
            .turn(&self.rt, &mut self.seat, Change::Add(1))
            .is_ok()
    }
}

pub fn work<R: Wait + Clock + Drop>(mut worker: Worker<R>, turns: u64) {
    for _ in 0..turns {
        if !worker.add() {
            return;
        }
    }
}
RT

cat >"$crate/src/main.rt" <<RT
#![tactic(auto)]

mod worker;

use crate::worker::{Worker, work};
use plant_lock::Turnstile;
use plant_lock::counter::Counter;
use std::io;
use std::sync::Arc;
use std::thread;
use std::time::Instant;

const TURNS: u64 = $turns;

fn main(rt: HostRuntime) -> io::Result<()> {
    for threads in [1u32, 2, 4, 64, 256] {
        let Ok((stile, mut seat)) = Turnstile::open(rt.alloc(), Counter::new(), 257) else {
            return println!(rt; "no memory");
        };
        let Ok(stile) = Arc::new(rt.alloc(), stile) else {
            return println!(rt; "no memory");
        };
        let each = TURNS / u64::from(threads);
        let mut children = Vec::new(rt.alloc());
        let start = Instant::now(&rt)?;
        'seats: for _ in 0..threads {
            let Ok(given) = stile.split(&mut seat) else {
                return println!(rt; "no seat");
            };
            let Ok(theirs) = Arc::try_clone(&stile) else {
                return println!(rt; "no memory");
            };
            let worker = Worker::new(rt, theirs, given);
            let Ok(child) = thread::spawn(&rt, move || work(worker, each)) else {
                return println!(rt; "no thread");
            };
            if children.push(child).is_err() {
                return println!(rt; "no memory");
            }
        }
        for child in children {
            child.join(&rt);
        }
        let micros = start.elapsed(&rt)?.as_micros().max(1);
        let per_second = u128::from(TURNS) * 1_000_000 / micros;
        println!(rt; "{threads} threads: {per_second} turns per second")?;
    }
    Ok(())
}
RT

cat >"$crate/proofs/Lib.antt" <<'ANTT'
pub mod Crossing
ANTT
cat >"$crate/proofs/Crossing.antt" <<'ANTT'
use denote.RattleType.{RattleType}
use denote.Param.Send.{IsSend, sendable}
use Rattle.std.proofs.Crossing.{Arc-send, crosses}
use Rattle.plant_lock.proofs.Crossing.{turn_seat_field_send, turnstile_send, turnstile_sync}
use Rattle.plant_lock.specs.contracts.counter.Counter as Counter
use Rattle.turns_bench.specs.contracts.worker.Worker as Worker

counter_send : IsSend Counter.the_row
counter_send = search (sendable, crosses) depth 20

pub worker_send : (R : RattleType) → IsSend R → IsSend (Worker.the_row R)
worker_send R r = search (turn_seat_field_send, turnstile_send, turnstile_sync, counter_send, Arc-send, sendable) depth 30
ANTT
cat >"$crate/proofs/worker/Worker/add/Answers.antt" <<'ANTT'
use Rattle.std.proofs.Common.{inl}
use Rattle.turns_bench.proofs.worker.Worker.add.Goals as goal

pub turn-requires-clause-act : goal.turn-requires-clause-act
turn-requires-clause-act g c = inl (λ s. tt)
ANTT
cat >"$crate/proofs/main/Invariants.antt" <<'ANTT'
use Rattle.std.specs.Arc.{arc_value}
use Rattle.plant_lock.specs.Seats.{IsAt}
use Rattle.turns_bench.proofs.main.Given as goal

abbrev pub invariant-seats : goal.invariant-seats
invariant-seats g l = IsAt (arc_value l.stile) l.seat
ANTT
cat >"$crate/proofs/main/Answers.antt" <<'ANTT'
use Rattle.std.proofs.Crossing.{crosses}
use denote.Param.Send.{sendable}
use Rattle.turns_bench.proofs.Crossing.{worker_send}
use Rattle.turns_bench.proofs.main.Goals as goal

pub spawn-requires-send-F : goal.spawn-requires-send-F
spawn-requires-send-F g c κs = search (sendable, crosses, worker_send) depth 40
ANTT

cd "$crate"
rt run 2>"$copy/log" || {
    tail -40 "$copy/log" >&2
    exit 1
}
