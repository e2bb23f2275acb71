//! Times a joined step, in each airframe and mode: the Rattle (crates/bench, as a static library) beside two programs of Rust over
//! stable-flight's own text.

mod cards;
mod plain;
mod sides;

use reference::coverage::airframe_word;
use reference::machine::{AIRFRAMES, MODES};
use sides::{Flat, PLAIN, RATTLE, REFERENCE, Side};
use std::hint::black_box;
use std::process::ExitCode;
use std::time::Instant;

const SIDES: [(&str, Side); 3] = [("Rattle", RATTLE), ("Rust", PLAIN), ("reference", REFERENCE)];
const ROUNDS: u32 = 4000;

/// Runs a side with so many more frames on the stack, so that no side is favoured by where its locals happen to lie.
#[inline(never)]
fn at_depth(frames: u32, side: Side, flat: &Flat) -> u32 {
    let frame = black_box([0u8; 40]);
    if frames == 0 {
        side(flat)
    } else {
        at_depth(frames - 1, side, flat) ^ u32::from(frame[0])
    }
}

/// Nanoseconds for each step: the sides take turns, and of each the fastest round counts.
fn times(flat: &Flat, steps: usize, rounds: u32) -> [f64; 3] {
    let mut fastest = [f64::INFINITY; 3];
    for round in 0..rounds {
        for (i, (_, side)) in SIDES.iter().enumerate() {
            let start = Instant::now();
            black_box(at_depth(round % 64, *side, black_box(flat)));
            let nanoseconds = start.elapsed().as_nanos() as f64 / steps as f64;
            fastest[i] = fastest[i].min(nanoseconds);
        }
    }
    fastest
}

fn main() -> ExitCode {
    let argument = std::env::args().nth(1);
    let Ok(rounds) = argument.as_deref().map_or(Ok(ROUNDS), str::parse) else {
        eprintln!("usage: bench/run [ROUNDS]");
        return ExitCode::from(2);
    };
    println!("Nanoseconds for each joined step, the fastest of {rounds} rounds; and the Rattle's time over each Rust's.");
    println!("airframe    mode      Rattle    Rust  ratio  reference  ratio");
    for airframe in AIRFRAMES {
        for mode in MODES {
            let list = cards::list(airframe, mode);
            let flat = Flat::new(&list);
            let sums = SIDES.map(|(_, side)| side(&flat));
            if sums != [sums[0]; 3] {
                eprintln!("bench: the answers of {airframe:?} in {mode:?} differ: {sums:08X?}");
                return ExitCode::FAILURE;
            }
            let [rattle, rust, reference] = times(&flat, list.steps.len(), rounds);
            let (name, mode) = (airframe_word(airframe), format!("{mode:?}"));
            println!(
                "{name:<11} {mode:<9} {rattle:>6.1} {rust:>7.1} {:>6.2} {reference:>10.1} {:>6.2}",
                rattle / rust,
                rattle / reference
            );
        }
    }
    ExitCode::SUCCESS
}
