#!/bin/sh
# Reads a second of 1, 2, 4 and 8 threads that read one row as fast as they can, while a publisher shows 1,000 entries, one a millisecond: as
# watchers of a published table, and beside it behind the turnstile of the network, each reading in a turn of its own. A thread ends when it has
# read the last entry. It makes a program in a copy of the repository, over the libraries that the gate proved, and proves and builds it there.
# The figures hold for the machine and the moment alone: no clause speaks of time.
# usage: bench/watch.sh
set -eu
if [ $# -ne 0 ]; then
    echo 'usage: bench/watch.sh' >&2
    exit 2
fi
top=$(cd "$(dirname "$0")/.." && pwd)
copy=$(mktemp -d)
trap 'rm -rf "$copy"' EXIT
mkdir -p "$copy/crates"
cp "$top/HANDLES" "$copy/"
for name in dom_base plant_lock ted_watch; do
    mkdir -p "$copy/crates/$name/out"
    cp -r "$top/crates/$name/src" "$copy/crates/$name/"
    for part in specs proofs out/rlib; do
        [ ! -d "$top/crates/$name/$part" ] || cp -r "$top/crates/$name/$part" "$copy/crates/$name/$part"
    done
    grep "^$name[ :]" "$top/crates.txt" >>"$copy/crates.txt"
done
echo 'watch_bench: dom_base plant_lock ted_watch atomic_table left_right logbook' >>"$copy/crates.txt"
crate=$copy/crates/watch_bench
mkdir -p "$crate/src" "$crate/proofs/locked/Reader/look" "$crate/proofs/locked/Reader/show" "$crate/proofs/locked/measure" "$crate/proofs/published/show_all" "$crate/proofs/published/measure"

cat >"$crate/src/table.rt" <<'RT'
//! The table of watchers, as a value that takes turns.
use dom_base::As;
use plant_lock::Turned;
use ted_watch::Shown;

/// A row for each AS.
#[derive(Drop)]
pub struct Table {
    rows: [Option<Shown>; 16],
}

#[derive(Clone, Copy, Drop)]
pub enum Ask {
    Show(Shown),
    Read(As),
}

impl Table {
    pub fn new() -> Table {
        Table { rows: [None; 16] }
    }

    fn find(&self, at: As) -> Option<Shown> {
        for row in &self.rows {
            if let Some(shown) = *row
                && shown.at == at
            {
                return Some(shown);
            }
        }
        None
    }

    fn is_for(&self, place: usize, at: As) -> bool {
        match self.rows.get(place) {
            Some(Some(shown)) => shown.at == at,
            _ => true,
        }
    }

    // The row of its AS, or else the first that is free.
    fn put(&mut self, shown: Shown) {
        for place in 0..16usize {
            if self.is_for(place, shown.at) {
                self.rows[place] = Some(shown);
                return;
            }
        }
    }
}

impl Turned for Table {
    ghost use Rattle.std.specs.Prelude.{ℕ};

    type Act = Ask;

    type Answer = Option<Shown>;

    ghost State = { ℕ };

    ghost plain = { λ _. 0 };

    ghost admits = { λ _ _. Unit {0} };

    ghost allows = { λ _ _ _. Unit {0} };

    ghost after = { λ _ _ _. 0 };

    ghost warrants = { λ _ _ _. ⊥ };

    fn turn(&mut self, act: Ask) -> Option<Shown> {
        match act {
            Ask::Show(shown) => {
                self.put(shown);
                None
            }
            Ask::Read(at) => self.find(at),
        }
    }

    ghost lasts = { λ sum act answer entries next none. absurd none };
}
RT

cat >"$crate/src/locked.rt" <<'RT'
//! Reads behind the lock.
ghost use Rattle.std.specs.Prelude.{◌≡◌};
ghost use Rattle.std.specs.Arc.{arc_value};
ghost use Rattle.plant_lock.specs.Seats.{IsAt};

use crate::LAST;
use crate::entry;
use crate::table::{Ask, Table};
use dom_base::As;
use plant_lock::{TurnSeat, Turnstile};
use std::alloc::Global;
use std::io;
use std::sync::{Arc, Wait};
use std::thread::{self, Threads};
use std::time::{Clock, Duration, Instant};

#[derive(Drop)]
pub struct Reader<R: Wait + Clock> {
    rt: R,
    stile: Arc<Turnstile<Table>, Global>,
    seat: TurnSeat<Table>,
    ghost here: { IsAt (arc_value stile) seat },
}

impl<R: Wait + Clock> Reader<R> {
    fn new(rt: R, stile: Arc<Turnstile<Table>, Global>, seat: TurnSeat<Table>) -> Self
        requires { IsAt (arc_value stile) seat }
    {
        Reader { rt, stile, seat }
    }

    // Whether the last entry was read.
    fn look(&mut self) -> bool {
        match self.stile.turn(&self.rt, &mut self.seat, Ask::Read(As(1))) {
            Ok((_, Some(shown))) => shown.generation == LAST,
            Ok((_, None)) => false,
            Err(_) => true,
        }
    }

    fn show(&mut self, generation: u64) -> bool {
        self.stile
            .turn(&self.rt, &mut self.seat, Ask::Show(entry(1, generation)))
            .is_ok()
    }
}

fn read_all<R: Wait + Clock + Drop>(mut reader: Reader<R>) -> u64 {
    let mut reads = 0u64;
    for _ in 0..u64::MAX {
        reads = reads.wrapping_add(1);
        if reader.look() {
            return reads;
        }
    }
    reads
}

/// How many reads so many threads do in a second, in all.
pub fn measure<R: Threads + Wait + Clock + Copy + Send + Drop + 'static>(
    rt: R,
    alloc: Global,
    readers: u32,
) -> io::Result<u128> {
    let Ok((stile, mut seat)) = Turnstile::open(alloc, Table::new(), 16) else {
        return Ok(0);
    };
    let Ok(stile) = Arc::new(alloc, stile) else {
        return Ok(0);
    };
    let mut children = Vec::new(alloc);
    let start = Instant::now(&rt)?;
    'seats: for _ in 0..readers {
        let Ok(given) = stile.split(&mut seat) else {
            return Ok(0);
        };
        let Ok(theirs) = Arc::try_clone(&stile) else {
            return Ok(0);
        };
        let reader = Reader::new(rt, theirs, given);
        let Ok(child) = thread::spawn(&rt, move || read_all(reader)) else {
            return Ok(0);
        };
        if children.push(child).is_err() {
            return Ok(0);
        }
    }
    let mut publisher = Reader::new(rt, stile, seat);
    for generation in 1..=LAST {
        if !publisher.show(generation) {
            return Ok(0);
        }
        thread::sleep(&rt, Duration::from_millis(1));
    }
    let mut reads = 0u128;
    for child in children {
        reads = reads.saturating_add(u128::from(child.join(&rt)));
    }
    Ok(reads.saturating_mul(1_000_000) / start.elapsed(&rt)?.as_micros().max(1))
}
RT

cat >"$crate/src/published.rt" <<'RT'
//! Reads of watchers.
ghost use Rattle.std.specs.Prelude.{◌≡◌, ◌<◌, ◌≤◌, [], IfOk};
ghost use Rattle.ted_watch.specs.Watch.{published};

use crate::LAST;
use crate::entry;
use dom_base::{As, NoMemory};
use std::alloc::Global;
use std::io;
use std::sync::Wait;
use std::thread::{self, Threads};
use std::time::{Clock, Duration, Instant};
use ted_watch::{Publisher, Watcher, open_watch};

fn show_all<R: Wait + Drop, C: Clock>(rt: &C, publisher: &mut Publisher<R>) -> Result<(), NoMemory>
    requires { published publisher.old ≡ [] }
{
    for generation in 1..1001 {
        publisher.show(entry(1, generation))?;
        thread::sleep(rt, Duration::from_millis(1));
    }
    Ok(())
}

#[derive(Drop)]
struct Looker<R: Wait> {
    rt: R,
    watcher: Watcher,
}

fn read_all<R: Wait + Drop>(looker: Looker<R>) -> u64 {
    let Looker { rt, mut watcher } = looker;
    let mut reads = 0u64;
    for _ in rt.forever() {
        reads = reads.wrapping_add(1);
        if let Some(shown) = watcher.read(&rt, As(1))
            && shown.generation == LAST
        {
            return reads;
        }
    }
    unreachable!()
}

/// How many reads so many watchers do in a second, in all.
pub fn measure<R: Threads + Wait + Clock + Copy + Send + Drop + 'static>(
    rt: R,
    alloc: Global,
    watchers: u32,
) -> io::Result<u128>
    requires { (0 < watchers) × (watchers ≤ 16) }
{
    let Ok((mut publisher, made)) = open_watch(rt, alloc, watchers) else {
        return Ok(0);
    };
    let mut children = Vec::new(alloc);
    let start = Instant::now(&rt)?;
    'watchers: for watcher in made.into_vec() {
        let looker = Looker { rt, watcher };
        let Ok(child) = thread::spawn(&rt, move || read_all(looker)) else {
            return Ok(0);
        };
        if children.push(child).is_err() {
            return Ok(0);
        }
    }
    if show_all(&rt, &mut publisher).is_err() {
        return Ok(0);
    }
    let mut reads = 0u128;
    for child in children {
        reads = reads.saturating_add(u128::from(child.join(&rt)));
    }
    Ok(reads.saturating_mul(1_000_000) / start.elapsed(&rt)?.as_micros().max(1))
}
RT

cat >"$crate/src/main.rt" <<'RT'
//! Times reads of what is published.
#![tactic(auto)]

ghost use Rattle.std.specs.Prelude.{◌≡◌, ◌<◌, ◌≤◌};

mod locked;
mod published;
mod table;

use dom_base::As;
use std::alloc::Global;
use std::io;
use std::sync::Wait;
use std::thread::Threads;
use std::time::Clock;
use ted_watch::Shown;

const LAST: u64 = 1_000;

// A topology of three nodes and three links.
fn entry(at: u16, generation: u64) -> Shown
    ensures at { result.at.0 ≡ at }
    ensures generation { result.generation ≡ generation }
{
    Shown {
        at: As(at),
        generation,
        nodes: 3,
        links: 3,
    }
}

// Reads a second by watchers, and behind the lock.
fn both<R: Threads + Wait + Clock + Copy + Send + Drop + 'static>(
    rt: R,
    alloc: Global,
    watchers: u32,
) -> io::Result<(u128, u128)>
    requires { (0 < watchers) × (watchers ≤ 16) }
{
    let published = published::measure(rt, alloc, watchers)?;
    let locked = locked::measure(rt, alloc, watchers)?;
    Ok((published, locked))
}

fn tell(rt: &HostRuntime, watchers: u32, figures: (u128, u128)) -> io::Result<()> {
    let (published, locked) = figures;
    println!(rt; "{watchers} watchers: {published} reads a second, behind the lock {locked}")
}

fn main(rt: HostRuntime) -> io::Result<()> {
    tell(&rt, 1, both(rt, rt.alloc(), 1)?)?;
    tell(&rt, 2, both(rt, rt.alloc(), 2)?)?;
    tell(&rt, 4, both(rt, rt.alloc(), 4)?)?;
    tell(&rt, 8, both(rt, rt.alloc(), 8)?)
}
RT

cat >"$crate/proofs/Lib.antt" <<'ANTT'
pub mod Crossing
ANTT
cat >"$crate/proofs/Crossing.antt" <<'ANTT'
use denote.RattleType.{RattleType}
use denote.Param.Send.{IsSend, IsSync, sendable}
use Rattle.std.proofs.Crossing.{Arc-send, crosses}
use Rattle.atomic_table.proofs.shared.Seat.TheSendSync as seat
use Rattle.atomic_table.proofs.shared.Shared.TheSendSync as shared
use Rattle.atomic_table.proofs.send_lease.SendLease.TheSendSync as lease
use Rattle.left_right.proofs.part.Part.TheSendSync as part
use Rattle.logbook.proofs.tokens.Seen.TheSendSync as seen
use Rattle.plant_lock.proofs.Crossing.{turn_seat_field_send, turnstile_send, turnstile_sync}
use Rattle.ted_watch.specs.contracts.board.Board as Board
use Rattle.ted_watch.specs.contracts.watch.Watcher as Watcher
use Rattle.watch_bench.specs.contracts.table.Table as Table
use Rattle.watch_bench.specs.contracts.locked.Reader as Reader
use Rattle.watch_bench.specs.contracts.published.Looker as Looker

table_send : IsSend Table.the_row
table_send = search (sendable, crosses) depth 20

pub reader_send : (R : RattleType) → IsSend R → IsSend (Reader.the_row R)
reader_send R r = search (turn_seat_field_send, turnstile_send, turnstile_sync, table_send, Arc-send, sendable) depth 30

board_send : IsSend Board.the_row
board_send = search (seen.the_send, sendable, crosses) depth 60 fits 30000

board_sync : IsSync Board.the_row
board_sync = search (seen.the_sync, sendable, crosses) depth 60 fits 30000

watcher_send : IsSend (Watcher.the_field).row
watcher_send = search (board_send, board_sync, seen.the_send, part.the_send, part.the_sync, seat.the_send, shared.the_send, shared.the_sync, lease.the_send, lease.the_sync, sendable, crosses) depth 60 fits 30000

pub looker_send : (R : RattleType) → IsSend R → IsSend (Looker.the_row R)
looker_send R r = search (watcher_send, sendable) depth 30
ANTT
for name in look show; do
    cat >"$crate/proofs/locked/Reader/$name/Answers.antt" <<ANTT
use Rattle.std.proofs.Common.{inl}
use Rattle.watch_bench.proofs.locked.Reader.$name.Goals as goal

pub turn-requires-clause-act : goal.turn-requires-clause-act
turn-requires-clause-act g c = inl (λ s. tt)
ANTT
done
cat >"$crate/proofs/locked/measure/Invariants.antt" <<'ANTT'
use Rattle.std.specs.Arc.{arc_value}
use Rattle.plant_lock.specs.Seats.{IsAt}
use Rattle.watch_bench.proofs.locked.measure.Given as goal

abbrev pub invariant-seats : goal.invariant-seats
invariant-seats g l = IsAt (arc_value l.stile) l.seat
ANTT
cat >"$crate/proofs/locked/measure/Answers.antt" <<'ANTT'
use Rattle.std.proofs.Crossing.{crosses}
use denote.Param.Send.{sendable}
use Rattle.watch_bench.proofs.Crossing.{reader_send}
use Rattle.watch_bench.proofs.locked.measure.Goals as goal

pub spawn-requires-send-F : goal.spawn-requires-send-F
spawn-requires-send-F g c κs = search (sendable, crosses, reader_send) depth 40
ANTT
cat >"$crate/proofs/published/measure/Answers.antt" <<'ANTT'
use Rattle.std.proofs.Crossing.{crosses}
use denote.Param.Send.{sendable}
use Rattle.watch_bench.proofs.Crossing.{looker_send}
use Rattle.watch_bench.proofs.published.measure.Goals as goal

pub spawn-requires-send-F : goal.spawn-requires-send-F
spawn-requires-send-F g c κs = search (sendable, crosses, looker_send) depth 40
ANTT
# what is shown has rising generations: as in crates/worked_parts, whose test shows the same
for file in Invariants Answers; do
    sed 's/worked_parts\.proofs\.watching/watch_bench.proofs.published/; s/c\.topology\./c.entry./g' \
        "$top/crates/worked_parts/proofs/watching/show_all/$file.antt" >"$crate/proofs/published/show_all/$file.antt"
done

cd "$crate"
rt run 2>"$copy/log" || {
    tail -40 "$copy/log" >&2
    exit 1
}
