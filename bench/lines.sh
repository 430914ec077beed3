#!/bin/sh
# Prints how many lines of the input become commands in a second, word by word and for a mix of all words, and the same
# in megabytes. Reading from a file and editing a scene aren't in it. The first run proves the crates that the commands
# stand in, which takes some minutes.
set -e
. "$(dirname "$0")/project.sh"
begin timing scene_geom scene_parts scene_book command_lines
cat > src/main.rt <<'PROGRAM'
#![tactic(auto)]

use command_lines::command;
use std::alloc::Global;
use std::io;
use std::time::Instant;

const ROUNDS: u32 = 50_000;

/// A line of each word.
const LINES: [(&str, &str); 10] = [
    ("source", r#"{"do":"source","name":"saw","kind":"construction","x":30000,"y":10000,"h":1500,"lw":[null,8500,9000,9600,10200,10400,10300,9800],"dc":300}"#),
    ("barrier", r#"{"do":"barrier","name":"screen","points":[[-30000,50000],[10000,52000],[40000,50000]],"h":3500,"density":20,"rho":900}"#),
    ("building", r#"{"do":"building","name":"hall","points":[[-15000,15000],[25000,15000],[25000,35000],[-15000,35000]],"h":9000,"rho":800}"#),
    ("zone", r#"{"do":"zone","name":"meadow","points":[[-100000,-100000],[0,-100000],[0,0],[-100000,0]],"g":100}"#),
    ("receiver", r#"{"do":"receiver","name":"window","x":120000,"y":-40000,"h":4000}"#),
    ("grid", r#"{"do":"grid","name":"g","x":-375000,"y":-375000,"step":50000,"columns":16,"rows":16,"h":4000}"#),
    ("set", r#"{"do":"set","reach":2000000,"g":20,"air":"15/80","c0":200}"#),
    ("remove", r#"{"do":"remove","name":"g/12/7"}"#),
    ("settle", r#"{"do":"settle"}"#),
    ("look", r#"{"do":"look"}"#),
];

/// How many of these lines become commands, counted again and again.
fn commands(alloc: Global, lines: &[(&str, &str)]) -> u64 {
    let mut count = 0u64;
    for _ in 0..ROUNDS {
        for (_, line) in lines {
            if command(alloc, line.as_bytes()).is_ok() {
                count = count.wrapping_add(1);
            }
        }
    }
    count
}

/// The bytes of these lines with their line feeds.
fn bytes(lines: &[(&str, &str)]) -> u64 {
    let mut bytes = 0u64;
    for (_, line) in lines {
        bytes = bytes.wrapping_add(line.len() as u64).wrapping_add(1);
    }
    bytes
}

fn time(
    rt: &(impl std::rt::Clock + Print),
    alloc: Global,
    what: &str,
    lines: &[(&str, &str)],
) -> io::Result<()> {
    let start = Instant::now(rt)?;
    let count = commands(alloc, lines);
    let spent = start.elapsed(rt)?.as_micros().max(1);
    let bytes = u128::from(bytes(lines)).saturating_mul(u128::from(ROUNDS)) / spent;
    let lines = u128::from(count).saturating_mul(1_000_000) / spent;
    println!(rt; "{what}: {lines} lines a second, {bytes} MB a second")
}

fn main(rt: HostRuntime) -> io::Result<()> {
    let alloc = rt.alloc();
    for (word, line) in LINES {
        time(&rt, alloc, word, &[(word, line)])?;
    }
    time(&rt, alloc, "all words", &LINES)
}
PROGRAM
measure 'a second'
