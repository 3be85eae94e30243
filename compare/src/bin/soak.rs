//! The soak: millions of random calls of all fourteen exported functions against the independent implementation. Every list that the proved library gets
//! lies between two closed pages, so that a call that reads or writes beyond one is stopped, and named with its seed. `soak [FIRST]` begins with another
//! seed than those of the comparison.

use planner_compare::tally::{at_hand, Comparison, Tally};
use planner_compare::{cases, inputs};
use std::collections::BTreeSet;
use std::ffi::{c_int, c_void};
use std::io::Write;
use std::process::ExitCode;
use std::time::Instant;

/// One comparison for each exported function; the check of a run list and the queries are four in one.
const COMPARISONS: [Comparison; 13] = [
    Comparison { name: "read", cases: 400_000, one: cases::read },
    Comparison { name: "write", cases: 300_000, one: cases::write },
    Comparison { name: "shift", cases: 300_000, one: cases::shift },
    Comparison { name: "plan", cases: 400_000, one: cases::plan },
    Comparison { name: "judge", cases: 300_000, one: cases::judge },
    Comparison { name: "judge-long", cases: 1_000, one: cases::judge_long },
    Comparison { name: "busy", cases: 200_000, one: cases::busy },
    Comparison { name: "queries", cases: 200_000, one: cases::queries },
    Comparison { name: "weighted-read", cases: 200_000, one: cases::weighted::read },
    Comparison { name: "weighted-write", cases: 200_000, one: cases::weighted::write },
    Comparison { name: "weighted-plan", cases: 300_000, one: cases::weighted::plan },
    Comparison { name: "weighted-judge", cases: 200_000, one: cases::weighted::judge },
    Comparison { name: "weighted-long", cases: 1_000, one: cases::weighted::judge_long },
];

/// The first seed where none is named: behind those of the comparison.
const FIRST: u64 = 1_000_000;

extern "C" {
    fn signal(number: c_int, handler: usize) -> usize;
    fn write(file: c_int, bytes: *const c_void, length: usize) -> isize;
    fn _exit(status: c_int) -> !;
}

/// A call was stopped at a closed page: says which, and ends.
extern "C" fn stopped(_: c_int) {
    let (place, seed) = at_hand();
    let mut line = [0; 160];
    let mut rest = &mut line[..];
    let _ = writeln!(rest, "STOPPED in {} of seed {seed}: a place beyond a list was read or written", COMPARISONS[place].name);
    let length = 160 - rest.len();
    // SAFETY: both calls may be made in a handler; the line is so long.
    unsafe {
        write(1, line.as_ptr().cast(), length);
        _exit(1)
    }
}

/// All cases from a first seed on; prints a line for each call. Every refusal number must occur.
fn soak(first: u64) -> Result<(), String> {
    let begun = Instant::now();
    let mut total = 0;
    let mut numbers = BTreeSet::new();
    for (place, comparison) in COMPARISONS.iter().enumerate() {
        let tally = Tally::of(&COMPARISONS, place, first..first + comparison.cases)?;
        println!("{:<14} {:>7} cases, no difference ({})", comparison.name, tally.cases(), tally.words());
        numbers.extend(tally.refusals());
        total += tally.cases();
    }
    if let Some(number) = (1..=inputs::LAST_REFUSAL).find(|number| !numbers.contains(number)) {
        return Err(format!("no case came to refusal {number}"));
    }
    let seconds = begun.elapsed().as_secs_f64();
    println!("{:<14} {total:>7} cases, no difference, refusals 1 to {} occurred, in {seconds:.1} s", "in all", inputs::LAST_REFUSAL);
    Ok(())
}

/// The soak from the seed on that is named on the command line.
fn main() -> ExitCode {
    const SEGMENT_FAULT: c_int = 11;
    const BUS_ERROR: c_int = 7;
    for number in [SEGMENT_FAULT, BUS_ERROR] {
        // SAFETY: the handler makes two calls that may be made in one.
        unsafe { signal(number, stopped as *const () as usize) };
    }
    let arguments: Vec<String> = std::env::args().skip(1).collect();
    let done = match arguments.as_slice() {
        [] => soak(FIRST),
        [first] => first.parse().map_err(|_| "usage: soak [FIRST]".into()).and_then(soak),
        _ => Err("usage: soak [FIRST]".into()),
    };
    match done {
        Ok(()) => ExitCode::SUCCESS,
        Err(what) => {
            println!("{what}");
            ExitCode::FAILURE
        }
    }
}
