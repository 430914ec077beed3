#!/bin/sh
# Prints the time of a call of each operation on intervals, in nanoseconds. The first run proves the crates that the
# operations stand in, which takes some minutes.
set -e
. "$(dirname "$0")/project.sh"
begin timing fix_interval enclose_log enclose_exp
cat > src/main.rt <<'PROGRAM'
#![tactic(auto)]

ghost use Rattle.std.specs.Prelude.{◌≡◌, ◌<◌, ◌≤◌, ◌+◌, ◌^◌, pos, Some};

use enclose_exp::{exp_neg, ten};
use enclose_log::lg;
use fix_interval::{Iv, div, exact, mul, root};
use std::io;
use std::time::Instant;

const CALLS: u32 = 4_000_000;

/// The next of a row of numbers without order.
fn next(seed: u64) -> u64 {
    let seed = seed ^ seed.wrapping_shl(13);
    let seed = seed ^ (seed >> 7);
    seed ^ seed.wrapping_shl(17)
}

/// An interval of 1,000 units.
fn interval(low: u64) -> Iv
    requires positive { 1 ≤ low }
    requires small { low < 2 ^ 50 }
    ensures { result ≡ record { lo = Some (pos low); hi = Some (pos (low + 1000)) } }
{
    Iv::of_ends(Some(i128::from(low)), Some(i128::from(low + 1000)))
}

/// What is to be timed.
#[derive(Clone, Copy, Drop)]
enum Call {
    Nothing,
    Product,
    Quotient,
    SquareRoot,
    Logarithm,
    PowerOfTen,
    Decay,
}

/// Operands as the map has them: distances of up to 4 km, attenuations and levels in bels and in nepers.
fn result_of(what: Call, seed: u64) -> Iv {
    match what {
        Call::Nothing => interval((seed >> 20) + 1),
        Call::Product => mul(exact(20), interval((seed >> 20) + 1)),
        Call::Quotient => div(interval((seed >> 20) + 1), exact(10)),
        Call::SquareRoot => root(interval((seed >> 20) + 1)),
        Call::Logarithm => lg(interval((seed >> 20) + 1)),
        Call::PowerOfTen => ten(interval(seed % (8 << 32) + 1)),
        Call::Decay => exp_neg(interval(seed % (4 << 32) + 1)),
    }
}

/// A sum of all results, so that none is left out.
fn sum(what: Call) -> u128 {
    let mut seed = 88_172_645_463_325_252;
    let mut total = 0u128;
    for _ in 0..CALLS {
        seed = next(seed);
        let result = result_of(what, seed);
        total ^= result.lo().unsigned_abs() ^ result.hi().unsigned_abs();
    }
    total
}

fn time(rt: &(impl std::rt::Clock + Print), name: &str, what: Call) -> io::Result<()> {
    let start = Instant::now(rt)?;
    let total = sum(what);
    let spent = start.elapsed(rt)?.as_nanos();
    println!(rt; "{name}: {} ns a call (sum {total})", spent / u128::from(CALLS))
}

fn main(rt: HostRuntime) -> io::Result<()> {
    time(&rt, "operands alone", Call::Nothing)?;
    time(&rt, "mul", Call::Product)?;
    time(&rt, "div", Call::Quotient)?;
    time(&rt, "root", Call::SquareRoot)?;
    time(&rt, "lg", Call::Logarithm)?;
    time(&rt, "ten", Call::PowerOfTen)?;
    time(&rt, "exp_neg", Call::Decay)
}
PROGRAM
measure 'ns a call'
