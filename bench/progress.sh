#!/bin/sh
# What a read and a publish cost in nanoseconds, over ten million of each on one thread, beside a bare atomic load and a
# bare fetch_max. The program that measures is made, proved and built in a folder of its own, which takes minutes.
root=$(cd "$(dirname "$0")/.." && pwd)
work=$(mktemp -d)
mkdir -p "$work/crates/progress_bench/src"
cp -r "$root/crates/xv_base" "$root/crates/xv_progress" "$work/crates/"
cat > "$work/crates.txt" <<'TEXT'
xv_base:
xv_progress: xv_base atomic_table
progress_bench: xv_base xv_progress
TEXT
cat > "$work/crates/progress_bench/src/main.rt" <<'TEXT'
#![tactic(auto)]

ghost use Rattle.std.specs.Prelude.{◌≡◌};
ghost use Rattle.xv_progress.specs.Numbers.{no_numbers};

use std::io;
use std::process::ExitCode;
use std::sync::atomic::{AtomicU64, Ordering};
use std::time::Instant;
use xv_progress::{Numbers, Progress, Publisher, Reader};

const ROUNDS: u64 = 10_000_000;

fn reads(progress: &Progress, reader: &mut Reader) -> u64
    requires { reader.old.belongs ≡ progress.now }
{
    let mut all = 0u64;
    for _ in 0..ROUNDS {
        all ^= progress.read(reader).journal;
    }
    all
}

fn publishes(progress: &Progress, publisher: &mut Publisher)
    requires { publisher.old ≡ record { belongs = progress.now; numbers = no_numbers } }
{
    for n in 0..ROUNDS {
        let m = n + 1;
        let numbers = Numbers { history: m, copied: m, applied: m, journal: 3 * m };
        progress.publish(publisher, numbers);
    }
}

fn loads(word: &AtomicU64) -> u64 {
    let mut all = 0u64;
    for _ in 0..ROUNDS {
        all ^= word.load(Ordering::SeqCst);
    }
    all
}

fn raises(word: &AtomicU64) {
    for n in 0..ROUNDS {
        word.fetch_max(n, Ordering::SeqCst);
    }
}

fn tell(rt: &HostRuntime, what: &str, start: Instant) -> io::Result<()> {
    let nanoseconds = start.elapsed(rt)?.as_nanos();
    let rounds = u128::from(ROUNDS);
    println!(rt; "{what}: {}.{} ns", nanoseconds / rounds, nanoseconds * 10 / rounds % 10)
}

fn measure(rt: &HostRuntime) -> io::Result<()> {
    let Ok((progress, mut publisher, mut reader)) = Progress::new(rt.alloc()) else {
        return println!(rt; "no memory");
    };
    let word = AtomicU64::new(0);
    let start = Instant::now(rt)?;
    let first = loads(&word);
    tell(rt, "load", start)?;
    let start = Instant::now(rt)?;
    raises(&word);
    tell(rt, "fetch_max", start)?;
    let start = Instant::now(rt)?;
    publishes(&progress, &mut publisher);
    tell(rt, "publish", start)?;
    let start = Instant::now(rt)?;
    let second = reads(&progress, &mut reader);
    tell(rt, "read", start)?;
    println!(rt; "{}", first ^ second)
}

fn main(rt: HostRuntime) -> ExitCode {
    match measure(&rt) {
        Ok(()) => ExitCode::SUCCESS,
        Err(_) => ExitCode::FAILURE,
    }
}
TEXT
mkdir -p "$work/crates/progress_bench/proofs/reads" "$work/crates/progress_bench/proofs/publishes"
cat > "$work/crates/progress_bench/proofs/reads/Invariants.antt" <<'TEXT'
use Rattle.std.proofs.Common.{◌≡◌}
use Rattle.progress_bench.proofs.reads.Given as goal

abbrev pub invariant-loop : goal.invariant-loop
invariant-loop l = l.reader.belongs ≡ l.progress
TEXT
cat > "$work/crates/progress_bench/proofs/publishes/Invariants.antt" <<'TEXT'
use Rattle.std.proofs.Common.{◌≡◌, ◌*◌}
use Rattle.progress_bench.proofs.publishes.Given as goal

abbrev pub invariant-loop-n : goal.invariant-loop-n
invariant-loop-n l =
    l.publisher ≡ record { belongs = l.progress; numbers = record { history = l.n; copied = l.n; applied = l.n; journal = 3 * l.n } }
TEXT
(cd "$work/crates/progress_bench" && rt run > "$work/log" 2>&1)
program=$work/crates/progress_bench/out/progress_bench
if [ -x "$program" ]; then
    # the least of five runs, since other work on the machine only adds
    for _ in 1 2 3 4 5; do
        "$program"
    done | awk -F': ' '/ns$/ { if (!($1 in least) || $2 + 0 < least[$1]) least[$1] = $2 + 0 }
        END { for (what in least) printf "%s: %.1f ns\n", what, least[what] }' | sort
else
    cat "$work/log"
fi
rm -rf "$work"
