//! Compares the proved library with the independent implementation: samples of the rules, run lists of every length, many cases of every call, and small
//! inputs against brute force. On a difference it prints the call, the seed and the input, and ends with status 1. `compare CALL SEED` does one case
//! again.

use planner_compare::tally::{case, Comparison, Tally};
use planner_compare::{cases, samples, small};
use std::process::ExitCode;
use std::time::Instant;

const COMPARISONS: [Comparison; 17] = [
    Comparison { name: "read", cases: 150_000, one: cases::read },
    Comparison { name: "write", cases: 100_000, one: cases::write },
    Comparison { name: "shift", cases: 100_000, one: cases::shift },
    Comparison { name: "plan", cases: 200_000, one: cases::plan },
    Comparison { name: "judge", cases: 150_000, one: cases::judge },
    Comparison { name: "judge-long", cases: 400, one: cases::judge_long },
    Comparison { name: "busy", cases: 60_000, one: cases::busy },
    Comparison { name: "queries", cases: 60_000, one: cases::queries },
    Comparison { name: "brute", cases: 40_000, one: small::plan },
    Comparison { name: "brute-runs", cases: 20_000, one: small::queries },
    Comparison { name: "weighted-read", cases: 80_000, one: cases::weighted::read },
    Comparison { name: "weighted-write", cases: 60_000, one: cases::weighted::write },
    Comparison { name: "weighted-plan", cases: 120_000, one: cases::weighted::plan },
    Comparison { name: "weighted-judge", cases: 80_000, one: cases::weighted::judge },
    Comparison { name: "weighted-long", cases: 400, one: cases::weighted::judge_long },
    Comparison { name: "weighted-ones", cases: 40_000, one: cases::weighted::ones },
    Comparison { name: "brute-weighted", cases: 40_000, one: small::weighted_plan },
];

/// The samples, run lists of all lengths, and all cases of every call; prints a line for each.
fn all() -> Result<(), String> {
    let begun = Instant::now();
    println!("{:<14} {:>7} cases, no difference", "samples", samples::samples()?);
    println!("{:<14} {:>7} cases, no difference", "lengths", samples::lengths()?);
    let mut total = 0;
    for (place, comparison) in COMPARISONS.iter().enumerate() {
        let tally = Tally::of(&COMPARISONS, place, 0..comparison.cases)?;
        println!("{:<14} {:>7} cases, no difference ({})", comparison.name, tally.cases(), tally.words());
        total += tally.cases();
    }
    println!("{:<14} {total:>7} cases, no difference, in {:.1} s", "in all", begun.elapsed().as_secs_f64());
    Ok(())
}

/// All cases, or the one that is named on the command line.
fn main() -> ExitCode {
    let arguments: Vec<String> = std::env::args().skip(1).collect();
    let done = match arguments.as_slice() {
        [] => all(),
        [name, seed] => match (COMPARISONS.iter().position(|comparison| comparison.name == name), seed.parse()) {
            (Some(place), Ok(seed)) => {
                case(&COMPARISONS, place, seed).map(|came| println!("{name} of seed {seed}: no difference (number {})", came.number))
            }
            _ => Err("usage: compare [CALL SEED]".into()),
        },
        _ => Err("usage: compare [CALL SEED]".into()),
    };
    match done {
        Ok(()) => ExitCode::SUCCESS,
        Err(what) => {
            println!("{what}");
            ExitCode::FAILURE
        }
    }
}
