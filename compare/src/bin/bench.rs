//! Measures the proved library and the reference side by side: the same inputs, in one run, both built for release. It prints medians in
//! microseconds, the ratio, how planning grows with the number of tasks, and the stack that each call of the proved library uses.

use planner_compare::ffi::{self, Judged};
use planner_compare::inputs;
use planner_compare::measure::{alone, in_turn, median};
use planner_compare::reference::weighted::{self, WeightedTable};
use planner_compare::reference::{self, Run, Table};
use planner_compare::stack;
use planner_compare::tables::{self, Columns, Finished, Lists, LAUNCH};
use std::hint::black_box;

/// The targets for the ratio: of planning of tables without weights, and of every other call.
const PLANNING: f64 = 0.8;
const OTHERS: f64 = 1.2;
/// Batches of each side, the two in turn.
const BATCHES: usize = 101;
/// The bytes of the longest file, that of 64 weighted tasks.
const MOST_BYTES: usize = 532;

/// The medians of both sides in microseconds.
fn both(proved: impl FnMut(), reference: impl FnMut()) -> (f64, f64) {
    let (a, b) = in_turn(BATCHES, proved, reference);
    (median(&a), median(&b))
}

/// Prints a line of the table: both medians, their ratio and the target for it.
fn line(name: &str, target: f64, (proved, reference): (f64, f64)) {
    let ratio = proved / reference;
    let word = if ratio <= target { "" } else { "  above" };
    println!("{name:<78} {proved:>10.3} {reference:>10.3} {ratio:>7.2} {target:>7.1}{word}");
}

/// Measures planning of a table and prints its line: the name, and what the plan comes to.
fn plan(name: &str, table: &Table) {
    let file = &inputs::pack(table);
    let said = Lists::default().plan(ffi::plan, file);
    let times = plan_times(file, ffi::plan, reference::plan);
    line(&format!("{name} ({})", tables::summary(&said)), PLANNING, times);
}

/// The same of a weighted table.
fn weighted_plan(name: &str, table: &WeightedTable) {
    let file = &inputs::weighted::pack(table);
    let mut lists = Lists::default();
    let said = lists.plan(ffi::weighted_plan, file);
    let times = plan_times(file, ffi::weighted_plan, weighted::plan);
    line(&format!("{name} ({})", tables::weighted_summary(table, &said, &lists.marks)), OTHERS, times);
}

/// The medians of both sides for planning of a file.
fn plan_times(file: &[u8], proved: ffi::Planning, reference: reference::Planning) -> (f64, f64) {
    let (mut a, mut b) = (Lists::default(), Lists::default());
    both(
        || {
            black_box(proved(black_box(file), LAUNCH, &mut a.marks, &mut a.starts, &mut a.ends, &mut a.tasks));
        },
        || {
            let _ = black_box(reference(black_box(file), LAUNCH, &mut b.marks, &mut b.starts, &mut b.ends, &mut b.tasks));
        },
    )
}

/// Planning of 64 tasks, of both kinds, and weighted.
fn plans() {
    for (name, table) in tables::full() {
        plan(&format!("plan 64, {name}"), &table);
    }
    for (name, table) in tables::weighted_full() {
        weighted_plan(&format!("plan 64, {name}"), &table);
    }
}

/// Measures reading of a file and prints its line.
fn read<P, R>(name: &str, file: &[u8], proved: impl Fn(&[u8]) -> P, reference: impl Fn(&[u8]) -> R) {
    let times = both(
        || {
            black_box(proved(black_box(file)));
        },
        || {
            black_box(reference(black_box(file)));
        },
    );
    line(name, OTHERS, times);
}

/// Measures writing of a table and prints its line.
fn write<T, P, R>(name: &str, table: &T, proved: impl Fn(&T, &mut [u8]) -> P, reference: impl Fn(&T, &mut [u8]) -> R) {
    let (mut a, mut b) = ([0xaa; MOST_BYTES], [0xaa; MOST_BYTES]);
    let times = both(
        || {
            black_box(proved(black_box(table), &mut a));
        },
        || {
            black_box(reference(black_box(table), &mut b));
        },
    );
    line(name, OTHERS, times);
}

/// The calls on table files.
fn files() {
    let full = tables::tight(64);
    let file = inputs::pack(&full);
    read("read 64 tasks, 500 bytes", &file, ffi::read, reference::read);
    read("read 3 tasks, 28 bytes", &inputs::pack(&tables::tight(3)), ffi::read, reference::read);
    write("write 64 tasks, 500 bytes", &full, ffi::write, reference::write);
    let (mut a, mut b) = ([0xaa; MOST_BYTES], [0xaa; MOST_BYTES]);
    let times = both(
        || {
            black_box(ffi::shift(black_box(&file), 5, &mut a));
        },
        || {
            let _ = black_box(reference::shift(black_box(&file), 5, &mut b));
        },
    );
    line("shift 64 tasks, 500 bytes", OTHERS, times);
    let full = tables::weighted_tight(64);
    read("read 64 weighted tasks, 532 bytes", &inputs::weighted::pack(&full), ffi::weighted_read, weighted::read);
    write("write 64 weighted tasks, 532 bytes", &full, ffi::weighted_write, weighted::write);
}

/// Measures judging of a finished plan that is accepted, and prints its line.
fn judge<R>(
    name: &str,
    Finished { file, marks, runs, .. }: &Finished,
    proved: impl Fn(&[u8], u32, &[u8], &[Run]) -> Judged,
    reference: impl Fn(&[u8], u32, &[u8], &[Run]) -> R,
) {
    assert!(proved(file, LAUNCH, marks, runs).yes);
    let times = both(
        || {
            black_box(proved(black_box(file), LAUNCH, marks, runs));
        },
        || {
            black_box(reference(black_box(file), LAUNCH, marks, runs));
        },
    );
    line(name, OTHERS, times);
}

/// Measures the busy count of a finished plan, and prints its line.
fn busy(name: &str, finished: &Finished) {
    let (a, b) = finished.interval();
    on_runs(
        name,
        &finished.runs,
        |runs| {
            black_box(ffi::busy(runs, a, b));
        },
        |runs| {
            let _ = black_box(reference::busy(runs, a, b));
        },
    );
}

/// Measures what is asked of a run list alone, and prints its line.
fn on_runs(name: &str, runs: &[Run], proved: impl Fn(&[Run]), reference: impl Fn(&[Run])) {
    line(name, OTHERS, both(|| proved(black_box(runs)), || reference(black_box(runs))));
}

/// The calls on finished plans.
fn finished() {
    let (few, many) = (tables::planned_runs(), tables::many_runs());
    judge("judge 64 tasks, 127 runs", &few, ffi::judge, reference::judge);
    judge("judge 1 task, 4,096 runs", &many, ffi::judge, reference::judge);
    judge("judge 64 weighted tasks, 127 runs", &tables::weighted_planned_runs(), ffi::weighted_judge, weighted::judge);
    busy("busy count of 127 runs", &few);
    busy("busy count of 4,096 runs", &many);
}

/// The check of 4,096 runs, and what touches an interval of them.
fn check_and_touching(Finished { runs, .. }: &Finished, (a, b): (u32, u32)) {
    on_runs(
        "check 4,096 runs",
        runs,
        |runs| {
            black_box(ffi::check_runs(runs));
        },
        |runs| {
            let _ = black_box(reference::check_runs(runs));
        },
    );
    on_runs(
        "runs touching an interval, of 4,096",
        runs,
        |runs| {
            black_box(ffi::runs_touching(runs, a, b));
        },
        |runs| {
            black_box(reference::runs_touching(runs, a, b));
        },
    );
}

/// The two queries for one run of 4,096.
fn one_run(Finished { runs, .. }: &Finished, tick: u32) {
    on_runs(
        "run at a tick, of 4,096",
        runs,
        |runs| {
            black_box(ffi::run_at(runs, tick));
        },
        |runs| {
            let _ = black_box(reference::run_at(runs, tick));
        },
    );
    on_runs(
        "first run from a tick on, of 4,096",
        runs,
        |runs| {
            black_box(ffi::run_from(runs, tick));
        },
        |runs| {
            let _ = black_box(reference::run_from(runs, tick));
        },
    );
}

/// The check and the queries of 4,096 runs, and a plain copy of as many records into three columns.
fn queries() {
    let finished = tables::many_runs();
    let (tick, (a, b)) = (finished.tick(), finished.interval());
    let runs = &finished.runs;
    assert!(ffi::run_at(runs, tick).found && ffi::run_from(runs, tick).found && ffi::runs_touching(runs, a, b).runs > 0);
    check_and_touching(&finished, (a, b));
    one_run(&finished, tick);
    let mut columns = Columns::places(runs.len());
    let copies = alone(BATCHES, || {
        columns.copy(black_box(runs));
        black_box(&columns);
    });
    println!("{:<78} {:>10} {:>10.3}", "for comparison: copying 4,096 records into three columns, in Rust", "", median(&copies));
}

/// How planning grows with the number of tasks, for both kinds and for weighted tables.
fn growth() {
    println!("Growth of planning, tight tables:");
    for n in [8, 16, 32, 64] {
        plan(&format!("plan {n}"), &tables::tight(n));
    }
    for n in [8, 16, 32, 64] {
        plan(&format!("plan {n} similar tasks"), &tables::similar_tight(n));
    }
    for n in [8, 16, 32, 64] {
        weighted_plan(&format!("plan {n} weighted tasks"), &tables::weighted_tight(n));
    }
}

/// The stack that each call of the proved library uses.
fn stacks() {
    println!(
        "Stack of each call of the proved library in bytes, measured on a painted area (64 tasks, 127 runs; of the calls that get a run list alone"
    );
    println!("4,096 runs):");
    let similar = inputs::pack(&tables::similar_tight(64));
    let Finished { file, marks, runs, .. } = tables::planned_runs();
    let weighted = tables::weighted_planned_runs();
    let dropped = inputs::weighted::pack(&tables::weighted_tight(64));
    let finished = tables::many_runs();
    let (many, tick, (a, b)) = (&finished.runs, finished.tick(), finished.interval());
    let mut lists = Lists::default();
    let mut out = [0xaa; MOST_BYTES];
    let uses = [
        ("planner_read", stack::read(&file)),
        ("planner_write", stack::write(&tables::most_runs(64), &mut out)),
        ("planner_shift", stack::shift(&file, 5, &mut out)),
        ("planner_plan", stack::plan(&file, LAUNCH, &mut lists)),
        ("planner_judge", stack::judge(&file, LAUNCH, &marks, &runs)),
        ("planner_busy", stack::busy(many, a, b)),
        ("planner_check_runs", stack::check_runs(many)),
        ("planner_run_at", stack::run_at(many, tick)),
        ("planner_run_from", stack::run_from(many, tick)),
        ("planner_runs_touching", stack::runs_touching(many, a, b)),
        ("planner_weighted_read", stack::weighted_read(&weighted.file)),
        ("planner_weighted_write", stack::weighted_write(&tables::weighted_tight(64), &mut out)),
        ("planner_weighted_plan", stack::weighted_plan(&weighted.file, LAUNCH, &mut lists)),
        ("planner_weighted_judge", stack::weighted_judge(&weighted.file, LAUNCH, &weighted.marks, &weighted.runs)),
        ("planner_plan of similar tasks", stack::plan(&similar, LAUNCH, &mut lists)),
        ("planner_weighted_plan, half dropped", stack::weighted_plan(&dropped, LAUNCH, &mut lists)),
        ("planner_judge of 4,096 runs", stack::judge(&finished.file, LAUNCH, &finished.marks, many)),
    ];
    for (name, measured) in uses {
        println!("{name:<36} {:>6} of its own, {:>5} for arguments that its caller passes in memory", measured.own, measured.arguments);
    }
}

/// Measures and prints everything.
fn main() {
    println!("Processor time of one call in microseconds: medians of {BATCHES} batches of about 0.5 ms for each side, the two in turn.");
    println!("Lent lists are filled once before the first call and not cleared between calls.");
    println!();
    println!("{:<78} {:>10} {:>10} {:>7} {:>7}", "", "proved", "reference", "ratio", "target");
    plans();
    files();
    finished();
    queries();
    println!();
    growth();
    println!();
    stacks();
}
