#!/bin/sh
# Prints the time of a call of `chain`, in nanoseconds, round the corners of 1, 4, 16 and 256 obstacles of four corners
# that stand without order on both hands of the line.
set -e
. "$(dirname "$0")/project.sh"
begin timing scene_geom scene_parts edge_chain
cat > src/main.rt <<'PROGRAM'
#![tactic(auto)]

use edge_chain::{Hand, chain};
use scene_geom::Pt;
use std::alloc::Global;
use std::io;
use std::time::Instant;

const CORNERS: usize = 1024;
const ROUNDS: u32 = 10_000;

/// The next of a row of numbers without order.
fn next(seed: u32) -> u32 {
    seed.wrapping_mul(1_664_525).wrapping_add(1_013_904_223)
}

/// A point so far along the line and to its left, in mm.
fn at(along: i64, left: i64) -> Pt {
    Pt::new(along.clamp(-200_000, 200_000), left.clamp(-200_000, 200_000))
}

fn corners() -> [Pt; CORNERS] {
    let mut corners = [at(0, 0); CORNERS];
    let mut seed = 1;
    for corner in corners.iter_mut() {
        let along = next(seed);
        seed = next(along);
        *corner = at(i64::from(along / 65_536), i64::from(seed / 65_536) - 32_768);
    }
    corners
}

/// How many points the chains have, found again and again.
fn turns(alloc: Global, corners: &[Pt]) -> u64 {
    let mut count = 0u64;
    for _ in 0..ROUNDS {
        if let Ok(found) = chain(alloc, corners, at(-1_000, 0), at(70_000, 0), Hand::Left) {
            count = count.wrapping_add(found.len() as u64);
        }
    }
    count
}

fn time(
    rt: &(impl std::rt::Clock + Print),
    alloc: Global,
    what: &str,
    corners: &[Pt],
    count: usize,
) -> io::Result<()> {
    let Some(corners) = corners.get(..count) else {
        return Ok(());
    };
    let start = Instant::now(rt)?;
    let count = turns(alloc, corners);
    let spent = start.elapsed(rt)?.as_nanos();
    println!(rt; "{what}: {count} turns in {ROUNDS} chains, {} ns a chain", spent / u128::from(ROUNDS))
}

fn main(rt: HostRuntime) -> io::Result<()> {
    let corners = corners();
    time(&rt, rt.alloc(), "1 obstacle", &corners, 4)?;
    time(&rt, rt.alloc(), "4 obstacles", &corners, 16)?;
    time(&rt, rt.alloc(), "16 obstacles", &corners, 64)?;
    time(&rt, rt.alloc(), "256 obstacles", &corners, 1024)
}
PROGRAM
measure 'obstacle'
