#!/bin/sh
# Replies of 10 kB, read and written, in messages per second on one processor. It makes a program in a copy of the
# repository, proves and builds it there, and runs it. The figures hold for the machine and the moment alone: no clause
# speaks of time.
# usage: bench/wire.sh [MESSAGES]   (messages read and as many written, 20000 where left out, at most 1000000000)
set -eu
messages=${1:-20000}
top=$(cd "$(dirname "$0")/.." && pwd)
copy=$(mktemp -d)
trap 'rm -rf "$copy"' EXIT
mkdir -p "$copy/crates"
cp "$top/HANDLES" "$copy/"
for name in dom_base pcep_codes pcep_subobjects path_constraints pcep_objects pcep_messages; do
    cp -r "$top/crates/$name" "$copy/crates/"
    grep "^$name[ :]" "$top/crates.txt" >>"$copy/crates.txt"
done
echo 'wire_bench: dom_base pcep_subobjects pcep_objects pcep_messages' >>"$copy/crates.txt"
crate=$copy/crates/wire_bench
mkdir -p "$crate/src"

cat >"$crate/src/main.rt" <<RT
#![tactic(auto)]

use dom_base::{Addr, List};
use pcep_messages::{Answer, Message, Path, Reply, read_message, write_message};
use pcep_subobjects::Hop;
use std::alloc::{AllocError, Global};
use std::io;
use std::time::Instant;

const MESSAGES: u64 = $messages;

// One path of 1,250 hops, which makes 10,032 octets.
fn reply(alloc: Global) -> Result<Message, AllocError> {
    let mut hops = Vec::new(alloc);
    for k in 0..1250u32 {
        hops.push(Hop::Prefix {
            loose: false,
            addr: Addr::V4(0x0A00_0000 + k),
            length: 32,
        })?;
    }
    let mut paths = Vec::new(alloc);
    paths.push(Path {
        hops: List::from_vec(hops),
        metric: Some((2, 0x4170_0000)),
    })?;
    let mut replies = Vec::new(alloc);
    replies.push(Reply {
        flags: 0,
        id: 1,
        answer: Answer::Paths(List::from_vec(paths)),
    })?;
    Ok(Message::PcRep(List::from_vec(replies)))
}

fn write_all(alloc: Global, message: &Message) -> Option<usize> {
    let mut len = 0;
    for _ in 0..MESSAGES {
        let mut text = Vec::new(alloc);
        write_message(alloc, message, &mut text).ok()?;
        len = text.len();
    }
    Some(len)
}

fn read_all(alloc: Global, text: &[u8]) -> bool {
    let mut good = true;
    for _ in 0..MESSAGES {
        good = good && read_message(alloc, text).is_ok();
    }
    good
}

fn main(rt: HostRuntime) -> io::Result<()> {
    let message = reply(rt.alloc())?;
    let start = Instant::now(&rt)?;
    let written = write_all(rt.alloc(), &message);
    let writing = start.elapsed(&rt)?;
    let mut text = Vec::new(rt.alloc());
    let _ = write_message(rt.alloc(), &message, &mut text);
    let start = Instant::now(&rt)?;
    let good = read_all(rt.alloc(), &text);
    let reading = start.elapsed(&rt)?;
    println!(rt; "octets {}", written.unwrap_or(0))?;
    println!(rt; "written {MESSAGES} {}", writing.as_micros())?;
    println!(rt; "read {} {}", if good { MESSAGES } else { 0 }, reading.as_micros())?;
    Ok(())
}
RT

cd "$crate"
rt run "${RT_BENCH_FLAGS:---jobs=2}" >"$copy/figures" 2>"$copy/log" || {
    tail -40 "$copy/log" >&2
    exit 1
}
awk '/^octets/ { print "a reply of " $2 " octets" }
    /^(read|written)/ { printf "%s: %d messages in %.2f s, %.0f in a second\n", $1, $2, $3 / 1e6, $2 * 1e6 / ($3 + 1) }' "$copy/figures"
