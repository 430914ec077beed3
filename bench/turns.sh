#!/bin/sh
# Prints how many turns a second 1, 2 and 4 threads take at one lock, whose machine is a counter.
set -e
. "$(dirname "$0")/project.sh"
begin turns turn_lock
cat > src/main.rt <<'PROGRAM'
#![tactic(auto)]

ghost use Rattle.std.specs.Prelude.{◌≡◌};
ghost use Rattle.std.specs.Thread.{IsSync};

use std::alloc::Global;
use std::io;
use std::sync::Wait;
use std::thread::{Threads, join};
use std::time::Instant;
use turn_lock::{Machine, Seat, Turn};

const TURNS: u32 = 2_000_000;

/// One call, which adds 1 and answers the old value. The count goes round at 2^64.
#[derive(Drop)]
struct Counter {
    count: u64,
}

impl Machine for Counter {
    ghost use Rattle.std.specs.Prelude.{◌≡◌, ◌+◌, ◌%◌, ◌^◌};

    type State = u64;

    type Call = ();

    type Reply = u64;

    ghost state = { λ m. m.count };

    ghost start = { 0 };

    ghost steps = { λ before call reply after. (reply ≡ before) × (after ≡ (before + 1) % 2 ^ 64) };

    ghost can = { λ before call. Unit {0} };

    ghost may = { λ number mine call. Unit {0} };

    fn step(&mut self, _alloc: Global, _call: ()) -> u64 {
        let old = self.count;
        self.count = old.wrapping_add(1);
        old
    }

    ghost lawful = { λ history state number call run allowed. tt };
}

fn work<R: Wait>(rt: &R, alloc: Global, lock: &Turn<Counter>, mut seat: Seat<Counter>, turns: u32)
    requires { seat.table ≡ lock.now }
{
    for _ in 0..turns {
        lock.turn(rt, alloc, &mut seat, ());
    }
}

fn work_both<R: Threads + Wait + Sync>(
    rt: &R,
    alloc: Global,
    lock: &Turn<Counter>,
    one: Seat<Counter>,
    two: Seat<Counter>,
    turns: u32,
)
    requires one { one.table ≡ lock.now }
    requires two { two.table ≡ lock.now }
{
    join(
        rt,
        move || work(rt, alloc, lock, one, turns),
        move || work(rt, alloc, lock, two, turns),
    );
}

fn run<R: Threads + Wait + Sync>(rt: &R, alloc: Global, threads: u32) -> bool {
    let Ok((lock, mut one)) = Turn::start(alloc, Counter { count: 0 }) else {
        return false;
    };
    let lock = &lock;
    if threads == 1 {
        work(rt, alloc, lock, one, TURNS);
        return true;
    }
    let two = lock.split(rt, &mut one);
    if threads == 2 {
        work_both(rt, alloc, lock, one, two, TURNS / 2);
        return true;
    }
    let three = lock.split(rt, &mut one);
    let four = lock.split(rt, &mut one);
    join(
        rt,
        move ||
            requires { IsSync R.row × (one.table ≡ lock.now) × (two.table ≡ lock.now) }
        { work_both(rt, alloc, lock, one, two, TURNS / 4) },
        move ||
            requires { IsSync R.row × (three.table ≡ lock.now) × (four.table ≡ lock.now) }
        { work_both(rt, alloc, lock, three, four, TURNS / 4) },
    );
    true
}

fn main(rt: HostRuntime) -> io::Result<()> {
    println!(rt; "threads       ms  turns a second")?;
    for threads in [1, 2, 4] {
        let start = Instant::now(&rt)?;
        if !run(&rt, rt.alloc(), threads) {
            return println!(rt; "no memory");
        }
        let micros = start.elapsed(&rt)?.as_micros().max(1);
        let millis = micros / 1_000;
        let rate = u128::from(TURNS).saturating_mul(1_000_000) / micros;
        println!(rt; "{threads:>7} {millis:>8} {rate:>15}")?;
    }
    Ok(())
}
PROGRAM
mkdir -p proofs/work
cat > proofs/work/Invariants.antt <<'PROOF'
use Rattle.std.proofs.Common.{◌≡◌}
use Rattle.turns.proofs.work.Given as goal

abbrev pub invariant-loop : goal.invariant-loop
invariant-loop g l = l.seat.table ≡ l.initial.seat.table
PROOF
measure -A 4 '^threads'
