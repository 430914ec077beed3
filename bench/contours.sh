#!/bin/sh
# Prints what a contour of a settled map of 4,096 receivers costs by the proved program, beside a look at it; and by a small
# proved program the loops of 64 by 64 cells: of a chessboard, without order, and all in the set.
set -e
. "$(dirname "$0")/timing.sh"

# settled COUNT LINE: a map that is settled, and then a line so many times.
settled() {
    sources 8
    receivers 4096
    echo '{"do":"settle"}'
    yes "$2" | head -n "$1"
}

settled 0 '' > "$work/map"
settled 20 '{"do":"look"}' > "$work/looks"
settled 20 '{"do":"contour","name":"r","level":6000,"columns":64,"rows":64}' > "$work/contours"
map=$(milliseconds "$work/map")
looks=$(milliseconds "$work/looks")
contours=$(milliseconds "$work/contours")
echo 'of 4,096 receivers: a look us  a contour us'
printf '%26d  %12d\n' $(((looks - map) * 50)) $(((contours - map) * 50))
rm -rf "$work"

. "$root/bench/project.sh"
begin timing cell_loops
cat > src/main.rt <<'PROGRAM'
#![tactic(auto)]
ghost use Rattle.std.specs.Prelude.{◌≡◌, ◌*◌, length, IfOk};

use cell_loops::{Cell, Cells, Family, loops};
use std::alloc::{AllocError, Global};
use std::io;
use std::time::Instant;

const SIDE: u32 = 64;
const COUNT: usize = 4096;
const ROUNDS: u32 = 1000;

/// Cells that are above where a test passes, by column and row.
fn cells(alloc: Global, kind: u32) -> Result<Cells, AllocError>
    ensures { IfOk result (λ cells. length cells ≡ 4096) }
{
    let mut cells = vec![in alloc; Cell::Below; COUNT]?;
    let mut seed = 1u32;
    let mut place = 0u32;
    for cell in cells.iter_mut() {
        seed = seed.wrapping_mul(1_664_525).wrapping_add(1_013_904_223);
        let is_above = match kind {
            0 => (place % SIDE).wrapping_add(place / SIDE) % 2 == 0,
            1 => seed > u32::MAX / 2,
            _ => true,
        };
        if is_above {
            *cell = Cell::Above;
        }
        place = place.wrapping_add(1);
    }
    Ok(Cells::from_vec(cells))
}

/// How many loops were found, again and again.
fn found(alloc: Global, cells: &Cells) -> u64
    requires { length cells.now ≡ 4096 }
{
    let mut count = 0u64;
    for _ in 0..ROUNDS {
        if let Ok(found) = loops(alloc, SIDE, SIDE, cells, Family::Inner) {
            count = count.wrapping_add(found.items().len() as u64);
        }
    }
    count
}

fn time(rt: &(impl std::rt::Clock + Print), alloc: Global, what: &str, kind: u32) -> io::Result<()> {
    let Ok(cells) = cells(alloc, kind) else {
        return Ok(());
    };
    let start = Instant::now(rt)?;
    let count = found(alloc, &cells);
    let spent = start.elapsed(rt)?.as_micros();
    println!(rt; "{what}: {} loops of 64 by 64 cells, {} us", count / u64::from(ROUNDS), spent / u128::from(ROUNDS))
}

fn main(rt: HostRuntime) -> io::Result<()> {
    time(&rt, rt.alloc(), "a chessboard", 0)?;
    time(&rt, rt.alloc(), "without order", 1)?;
    time(&rt, rt.alloc(), "all", 2)
}
PROGRAM
measure loops
