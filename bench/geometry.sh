#!/bin/sh
# Prints the time of a call of `crosses`, in picoseconds, over sides that don't cross a way and over
# sides that do.
set -e
. "$(dirname "$0")/project.sh"
begin timing scene_geom
cat > src/main.rt <<'PROGRAM'
#![tactic(auto)]

use scene_geom::{Pt, Side, crosses};
use std::io;
use std::time::Instant;

const SIDES: usize = 1024;
const ROUNDS: u32 = 20_000;

/// The next of a row of numbers without order.
fn next(seed: u32) -> u32 {
    seed.wrapping_mul(1_664_525).wrapping_add(1_013_904_223)
}

/// A point within 3,000 mm, so far up.
fn at(seed: u32, up: i64) -> Pt {
    let x = i64::from(seed / 65_536 % 3_000);
    Pt::new(x.clamp(0, 3_000), up.clamp(-3_000, 3_000))
}

/// Sides whose ends both lie on one hand of the way, or on both.
fn sides(across: bool) -> [Side; SIDES] {
    let origin = Pt::new(0, 0);
    let mut sides = [Side { from: origin, to: origin }; SIDES];
    let mut seed = 1;
    for side in sides.iter_mut() {
        let x = next(seed);
        let y = next(x);
        let z = next(y);
        seed = next(z);
        let from = i64::from(1 + y / 65_536 % 2_000);
        let to = i64::from(1 + seed / 65_536 % 2_000);
        *side = Side {
            from: at(x, from),
            to: at(z, if across { -to } else { to }),
        };
    }
    sides
}

/// How many of the sides cross, counted again and again.
fn crossings(sides: &[Side; SIDES], p: Pt, q: Pt) -> u64 {
    let mut count = 0u64;
    for _ in 0..ROUNDS {
        for side in sides {
            if crosses(*side, p, q).is_some() {
                count = count.wrapping_add(1);
            }
        }
    }
    count
}

fn time(rt: &(impl std::rt::Clock + Print), what: &str, across: bool) -> io::Result<()> {
    let sides = sides(across);
    let p = Pt::new(-1_000, 0);
    let q = Pt::new(1_000_000, 0);
    let start = Instant::now(rt)?;
    let count = crossings(&sides, p, q);
    let spent = start.elapsed(rt)?.as_nanos();
    let calls = u128::from(ROUNDS) * 1024;
    println!(rt; "{what}: {count} crossings in {calls} calls, {} ps a call", spent.saturating_mul(1_000) / calls)
}

fn main(rt: HostRuntime) -> io::Result<()> {
    time(&rt, "sides that don't cross", false)?;
    time(&rt, "sides that cross", true)
}
PROGRAM
measure '^sides'
