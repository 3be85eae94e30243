//! Measures planning, the judge and the busy count by the library of this tree (after) against those of an earlier commit (before), in one run: times
//! in turn, with the ratio and its spread, and then the instructions of one call, counted by valgrind's callgrind. `compare/before` builds and starts
//! it. A library that takes run lists as three columns is lent columns, and one that takes records is lent records: both stand ready before the call.
//!
//! For callgrind it is started again, with two words, the symbol of a library's call and the name of a case: then it makes that one call.

use planner_compare::ffi::{self, BusyCount, Judged, Planned, Planning};
use planner_compare::inputs;
use planner_compare::measure::{in_turn, median, percentile};
use planner_compare::tables::{self, Finished, Lists, LAUNCH};
use std::cell::RefCell;
use std::env;
use std::fs;
use std::hint::black_box;
use std::process::Command;
use std::thread;

/// Pairs of batches for each case: an odd number, and one above a multiple of 100.
const PAIRS: usize = 401;

/// A library: what stands before the names of its calls in the program, and the calls that are measured.
struct Library {
    prefix: &'static str,
    plan: Planning,
    judge: fn(&Finished) -> Judged,
    busy: fn(&Finished, u32, u32) -> BusyCount,
}

const BEFORE: Library = Library { prefix: "before_", plan: ffi::plan_before, judge: judge_before, busy: busy_before };
const AFTER: Library = Library {
    prefix: "",
    plan: ffi::plan,
    judge: |finished| ffi::judge(&finished.file, LAUNCH, &finished.marks, &finished.runs),
    busy: |finished, a, b| ffi::busy(&finished.runs, a, b),
};

/// How the earlier library takes run lists, in words.
#[cfg(feature = "before-columns")]
const BEFORE_TAKES: &str = "three columns";
#[cfg(not(feature = "before-columns"))]
const BEFORE_TAKES: &str = "records";

/// Judging by the earlier library, which takes columns.
#[cfg(feature = "before-columns")]
fn judge_before(Finished { file, marks, columns, .. }: &Finished) -> Judged {
    ffi::judge_before(file, LAUNCH, marks, &columns.starts, &columns.ends, &columns.tasks)
}

/// Judging by the earlier library, which takes records.
#[cfg(not(feature = "before-columns"))]
fn judge_before(Finished { file, marks, runs, .. }: &Finished) -> Judged {
    ffi::judge_before(file, LAUNCH, marks, runs)
}

/// The busy count by the earlier library, which takes columns.
#[cfg(feature = "before-columns")]
fn busy_before(Finished { columns, .. }: &Finished, a: u32, b: u32) -> BusyCount {
    ffi::busy_before(&columns.starts, &columns.ends, &columns.tasks, a, b)
}

/// The busy count by the earlier library, which takes records.
#[cfg(not(feature = "before-columns"))]
fn busy_before(Finished { runs, .. }: &Finished, a: u32, b: u32) -> BusyCount {
    ffi::busy_before(runs, a, b)
}

/// A call, with what it is lent.
enum Call {
    /// Planning a file.
    Plan(Vec<u8>),
    /// Judging a finished plan.
    Judge(Finished),
    /// The busy count of a finished plan's runs, of the interval that has the middle half of them.
    Busy(Finished),
}

/// What a call gives: its reply, and the lists that it was lent for writing.
#[derive(Debug, PartialEq, Eq)]
enum Given {
    Plan(Planned, Box<Lists>),
    Judge(Judged),
    Busy(BusyCount),
}

impl Call {
    /// The name of the call in the C interface.
    fn name(&self) -> &'static str {
        match self {
            Call::Plan(_) => "planner_plan",
            Call::Judge(_) => "planner_judge",
            Call::Busy(_) => "planner_busy",
        }
    }

    /// The symbol of a library's call in the program.
    fn symbol(&self, library: &Library) -> String {
        format!("{}{}", library.prefix, self.name())
    }

    /// Makes the call once.
    fn once(&self, library: &Library) -> Given {
        match self {
            Call::Plan(file) => {
                let mut lists = Box::<Lists>::default();
                Given::Plan(lists.plan(library.plan, file), lists)
            }
            Call::Judge(finished) => Given::Judge((library.judge)(finished)),
            Call::Busy(finished) => {
                let (a, b) = finished.interval();
                Given::Busy((library.busy)(finished, a, b))
            }
        }
    }

    /// The times of the call by the earlier library and by this one. Both write to the same lists, so that where these lie favours none.
    fn times(&self) -> (Vec<f64>, Vec<f64>) {
        match self {
            Call::Plan(file) => {
                let lists = RefCell::new(Lists::default());
                let call = |library: &Library| {
                    black_box(lists.borrow_mut().plan(black_box(library.plan), black_box(file)));
                };
                in_turn(PAIRS, || call(&BEFORE), || call(&AFTER))
            }
            Call::Judge(finished) => {
                let call = |library: &Library| {
                    black_box(black_box(library.judge)(black_box(finished)));
                };
                in_turn(PAIRS, || call(&BEFORE), || call(&AFTER))
            }
            Call::Busy(finished) => {
                let (a, b) = finished.interval();
                let call = |library: &Library| {
                    black_box(black_box(library.busy)(black_box(finished), a, b));
                };
                in_turn(PAIRS, || call(&BEFORE), || call(&AFTER))
            }
        }
    }
}

/// A call with a name.
type Case = (&'static str, Call);

/// Planning of the tables of 64 tasks, and the judge and the busy count of finished plans.
fn cases() -> Vec<Case> {
    let plans = tables::full().map(|(name, table)| (name, Call::Plan(inputs::pack(&table))));
    let (few, many) = (tables::planned_runs(), tables::many_runs());
    let finished = [
        ("judge 64 tasks, 127 runs", Call::Judge(few.clone())),
        ("judge 1 task, 4,096 runs", Call::Judge(many.clone())),
        ("busy count of 127 runs", Call::Busy(few)),
        ("busy count of 4,096 runs", Call::Busy(many)),
    ];
    plans.into_iter().chain(finished).collect()
}

/// Planning of the sample files, whose instructions are counted too.
fn samples() -> Vec<Case> {
    let root = concat!(env!("CARGO_MANIFEST_DIR"), "/..");
    let read = |name| fs::read(format!("{root}/{name}")).unwrap_or_else(|fault| panic!("{name}: {fault}"));
    ["samples/ascent.table", "samples/legs.table"].map(|name| (name, Call::Plan(read(name)))).into()
}

/// The name of a case, and what a plan comes to, in words. Both libraries must give the same reply, and the same lists at every place; it accepts.
fn agreed((name, call): &Case) -> String {
    let (before, after) = (call.once(&BEFORE), call.once(&AFTER));
    assert_eq!(before, after, "{name}: what both libraries give differs");
    match after {
        Given::Plan(said, _) => format!("{name} ({})", tables::summary(&said)),
        Given::Judge(said) => {
            assert!(said.yes, "{name}: the judge says no");
            name.to_string()
        }
        Given::Busy(said) => {
            assert!(said.number == 0 && said.ticks > 0, "{name}: no busy ticks");
            name.to_string()
        }
    }
}

/// Measures a call and prints its line.
fn times(case: &Case) {
    let name = agreed(case);
    let (before, after) = case.1.times();
    let ratios: Vec<f64> = before.iter().zip(&after).map(|(before, after)| after / before).collect();
    let [low, middle, high] = [10, 50, 90].map(|percent| percentile(&ratios, percent));
    println!("{name:<68} {:>10.3} {:>10.3} {middle:>7.3} {low:>7.3} {high:>7.3}", median(&before), median(&after));
}

/// One call of a library, for callgrind to count. It is made in a thread, whose stack begins at a page: memcpy and memset take other steps at other
/// addresses, and where the first stack begins depends on the size of the environment.
fn one_call(symbol: &str, name: &str) {
    let (_, call) = cases().into_iter().chain(samples()).find(|(known, _)| *known == name).expect("the name of a case");
    let library = [BEFORE, AFTER].into_iter().find(|library| call.symbol(library) == symbol).expect("the symbol of a library's call");
    thread::spawn(move || black_box(call.once(&library))).join().expect("a reply");
}

/// From how many bytes on memset and memcpy of the GNU C library fill and copy by one instruction that repeats itself: never. Callgrind counts such
/// an instruction once for every byte, though it takes far less time than as many instructions.
const NO_REPEATS: &str = "glibc.cpu.x86_rep_stosb_threshold=1000000000:glibc.cpu.x86_rep_movsb_threshold=1000000000";

/// The instructions of one call of a library, counted by callgrind. LD_BIND_NOW keeps the search for memcpy and memset out of the count.
fn instructions(symbol: &str, name: &str) -> u64 {
    let run = Command::new("valgrind")
        .args(["--tool=callgrind", "--callgrind-out-file=/dev/null"])
        .arg(format!("--toggle-collect={symbol}"))
        .arg(env::current_exe().expect("this program's file"))
        .args([symbol, name])
        .env("LD_BIND_NOW", "1")
        .env("GLIBC_TUNABLES", NO_REPEATS)
        .output()
        .expect("valgrind");
    let said = String::from_utf8_lossy(&run.stderr);
    assert!(run.status.success(), "valgrind: {said}");
    let (_, collected) = said.lines().find_map(|line| line.split_once("Collected : ")).expect("callgrind's line 'Collected'");
    collected.trim().parse().expect("a number of instructions")
}

/// Counts the instructions of a call by both libraries, each twice, which must give the same, and prints the line.
fn counts(case: &Case) {
    let (name, call) = case;
    let [before, after] = [BEFORE, AFTER].map(|library| {
        let symbol = call.symbol(&library);
        let count = instructions(&symbol, name);
        assert_eq!(count, instructions(&symbol, name), "{name}: {symbol} counted twice");
        count
    });
    let saved = 100.0 * (1.0 - after as f64 / before as f64);
    println!("{:<68} {before:>10} {after:>10} {saved:>6.1}%", agreed(case));
}

/// Measures and prints the times.
fn all_times() {
    println!(
        "Processor time of one call in microseconds: medians of {PAIRS} batches of about 0.5 ms for each library, the two in turn, each first in"
    );
    println!("every other pair. The ratio is after / before of a pair: the median of all pairs, and the 10th and 90th percentile.");
    println!("Runs are judged and counted as {BEFORE_TAKES} before, and as records after.");
    println!();
    println!("{:<68} {:>10} {:>10} {:>7} {:>7} {:>7}", "planning 64 tasks, and finished plans", "before", "after", "ratio", "10th", "90th");
    cases().iter().for_each(times);
    samples().iter().for_each(|case| drop(agreed(case)));
}

/// Counts and prints the instructions, where valgrind is installed.
fn all_counts() {
    if Command::new("valgrind").arg("--version").output().is_err() {
        println!("Instructions: skipped, because valgrind is not installed.");
        return;
    }
    println!(
        "Instructions of one call, those of memcpy and memset in it included, counted by valgrind's callgrind, each twice with the same result."
    );
    println!();
    println!("{:<68} {:>10} {:>10} {:>7}", "planning 64 tasks, finished plans, and planning samples", "before", "after", "saved");
    cases().iter().chain(&samples()).for_each(counts);
}

/// Without words everything; with two, one call.
fn main() {
    let words: Vec<String> = env::args().skip(1).collect();
    match &words[..] {
        [] => {
            all_times();
            println!();
            all_counts();
        }
        [symbol, name] => one_call(symbol, name),
        _ => panic!("either no word, or the symbol of a library's call and the name of a case"),
    }
}
