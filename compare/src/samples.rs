//! The samples of the rules, with the answers that the documents give, put to both sides; and run lists of every length. Those of weighted tables are
//! in `weighted`.

mod weighted;

use crate::difference::{hex, same};
use crate::ffi::{self, BusyCount, Checked, Found, Judged, Part, Planned, Written};
use crate::inputs;
use crate::reference::{self, Run, Table, MAX_LAUNCH, MAX_RUNS};
use crate::sides::{plan_with, Named, Plan, JUDGES, PLANNERS, RUN_LISTS};

/// Noon, in ticks of the day.
const NOON: u32 = 43_200_000;

/// What planning gives: its reply, marks and runs.
type Given = (Planned, Vec<u8>, Vec<(u32, u32, u32)>);

/// A plan with these counts, marks and runs.
fn planned(kept: u32, discarded: u32, marks: &[u8], runs: &[(u32, u32, u32)]) -> Given {
    (Planned { number: 0, place: 0, kept, discarded, runs: runs.len() }, marks.to_vec(), runs.to_vec())
}

/// A refusal of a file of n tasks, which leaves the marks as they were.
fn refused(number: u32, place: usize, n: usize) -> Given {
    (Planned { number, place, kept: 0, discarded: 0, runs: 0 }, vec![9; n], vec![])
}

/// Planning of files with names and what they give at launch 0, by both sides at many launch ticks.
fn planned_samples(plans: &[(&str, Vec<u8>, Given)], planners: &[Named<Plan>; 2]) -> Result<usize, String> {
    let launches = [0, 1, NOON, MAX_LAUNCH, MAX_LAUNCH + 1, u32::MAX];
    for (name, file, at_0) in plans {
        for launch in launches {
            // Each run lies later by the launch tick. 14 comes behind what reading refuses, here 6, 7 and 16, and before 8.
            let expected = if launch > MAX_LAUNCH && !matches!(at_0.0.number, 6 | 7 | 16) {
                refused(14, 0, at_0.1.len())
            } else {
                (at_0.0, at_0.1.clone(), at_0.2.iter().map(|&(start, end, task)| (start + launch, end + launch, task)).collect())
            };
            for (planner, plan) in planners {
                let what = format!("{name} at launch {launch}, {planner} and the rules");
                same(&what, &plan_with(plan, file, launch, at_0.1.len()), &expected, || hex(file))?;
            }
        }
    }
    Ok(planners.len() * plans.len() * launches.len())
}

/// The samples of the rules that a plan or a move shows: the releases of P1 to P3 and the deadline of P2, P4 to P12, empty windows, the limits on the
/// count, and launch ticks.
pub fn samples() -> Result<usize, String> {
    type Fields<'a> = &'a [(u32, u32, u32, u32)];
    let file = |p, q, tasks: Fields| {
        let mut table = Table { count: tasks.len() as u32, p, q, ..Table::ZERO };
        for (place, &(release, deadline, mandatory, optional)) in table.tasks.iter_mut().zip(tasks) {
            *place = reference::Task { release, deadline, mandatory, optional };
        }
        inputs::pack(&table)
    };
    let three: Fields = &[(0, 10, 2, 3), (2, 8, 1, 3), (4, 6, 1, 1)];
    let four = [0x02, 0x0c, 0x80, 0x02, 0x00, 0x00, 0x00, 0x01, 0x00, 0xc8, 0x01, 0x90];
    let plans = [
        // These similar tasks begin at their releases, and the nested one ends at its deadline.
        (
            "the releases of P3, P1 and P2",
            file(1001, 10, &[(0, 2, 1, 0), (1, 3, 1, 0), (72_000, 72_002, 1, 0)]),
            planned(0, 0, &[1, 1, 1], &[(101, 102, 0), (201, 202, 1), (7_207_301, 7_207_302, 2)]),
        ),
        ("the deadline of P2", file(1001, 10, &[(0, 72_000, 1, 0)]), planned(0, 0, &[1], &[(7_207_199, 7_207_200, 0)])),
        ("P4", four.to_vec(), planned(0, 1, &[0], &[(100, 200, 0)])),
        ("P4 packed", file(100, 1, &[(0, 2, 100, 50)]), planned(0, 1, &[0], &[(100, 200, 0)])),
        ("P5", file(100, 1, &[(0, 2, 200, 1)]), refused(8, 0, 1)),
        ("P6", file(100, 1, &[(0, 2, 201, 0)]), refused(8, 0, 1)),
        ("P7", file(100, 1, &[(0, 2, 0, 0)]), planned(0, 0, &[1], &[])),
        ("P8", file(1, 1, three), planned(1, 2, &[1, 0, 0], &[(3, 5, 0), (5, 6, 2), (6, 7, 0), (7, 8, 1), (8, 10, 0)])),
        ("P9", file(1, 1, &[(0, 5, 2, 3), (5, 9, 1, 2)]), planned(1, 1, &[0, 1], &[(1, 3, 0), (6, 9, 1)])),
        ("P10", file(1, 1, &[(0, 4, 0, 3), (0, 4, 0, 3)]), planned(1, 1, &[0, 1], &[(1, 4, 1)])),
        ("P11", file(5, 4, &[(1, 2, 1, 0)]), refused(8, 0, 1)),
        // Similar tables. Of two parts that don't both fit the one of the later task is kept, though it is longer.
        ("the last keeps", file(1, 1, &[(2, 7, 1, 3), (0, 5, 1, 2)]), planned(1, 1, &[1, 0], &[(1, 2, 1), (3, 7, 0)])),
        // Beside task 2's part one of the two others fits: that of task 1, the later, though with task 0's all would end earlier.
        ("not the least end", file(1, 1, &[(0, 5, 0, 1), (0, 6, 0, 4), (1, 8, 1, 2)]), planned(2, 1, &[0, 1, 1], &[(1, 5, 1), (5, 8, 2)])),
        // Task 0 runs first, and then task 2 ends too late.
        ("place of 8", file(1, 1, &[(0, 4, 3, 0), (2, 10, 1, 0), (1, 5, 2, 0)]), refused(8, 2, 3)),
        // Empty windows: of frames 1 to 2 the release is the deadline tick at period 1/1, and the tick after it at 5/4. A task of no work in one
        // hinders nobody, an optional part is discarded, a mandatory part refused.
        ("similar, empty at 2", file(1, 1, &[(1, 2, 0, 1), (2, 4, 1, 0)]), planned(0, 1, &[0, 1], &[(3, 4, 1)])),
        ("similar, 3 after 2", file(5, 4, &[(1, 2, 0, 0), (2, 4, 1, 0)]), planned(0, 0, &[1, 1], &[(4, 5, 1)])),
        ("similar, 3 after 2, a part", file(5, 4, &[(1, 2, 0, 1), (2, 4, 1, 0)]), planned(0, 1, &[0, 1], &[(4, 5, 1)])),
        ("similar, 3 after 2, work", file(5, 4, &[(2, 4, 1, 0), (1, 2, 1, 0)]), refused(8, 1, 2)),
        ("nested, empty at 2", file(1, 1, &[(0, 4, 2, 1), (1, 2, 0, 1)]), planned(1, 1, &[1, 0], &[(1, 4, 0)])),
        ("nested, 3 after 2", file(5, 4, &[(0, 4, 2, 1), (0, 2, 0, 0), (1, 2, 0, 0)]), planned(1, 0, &[1, 1, 1], &[(2, 5, 0)])),
        ("nested, 3 after 2, a part", file(5, 4, &[(0, 4, 2, 0), (1, 3, 0, 1), (1, 2, 0, 1)]), planned(0, 2, &[1, 0, 0], &[(3, 5, 0)])),
        ("nested, 3 after 2, work", file(5, 4, &[(0, 4, 2, 0), (1, 2, 1, 0)]), refused(8, 1, 2)),
        // Tasks 0 and 1 are similar and not nested, tasks 0 and 2 nested and not similar.
        ("place of 7", file(1, 1, &[(0, 5, 0, 0), (5, 9, 0, 0), (1, 4, 0, 0)]), refused(7, 2, 3)),
        ("place of 7, nested first", file(1, 1, &[(0, 5, 0, 0), (1, 4, 0, 0), (0, 5, 0, 0), (5, 9, 0, 0)]), refused(7, 3, 4)),
    ];
    let planned = planned_samples(&plans, &PLANNERS)?;
    let eight = file(1, 1, three);
    let judgements = judged_samples(&eight, &file(5, 4, &[(1, 2, 1, 0)]))?;
    let moved = Written { number: 10, place: 0, bytes: 0 };
    same("P12", &ffi::shift(&eight, -1, &mut [0; 28]), &moved, || hex(&eight))?;
    same("P12, reference", &Written::from(reference::shift(&eight, -1, &mut [0; 28])), &moved, || hex(&eight))?;
    let full = file(1, 1, &[(0, 1, 0, 0); 64]);
    same("64 tasks are read", &ffi::read(&full).number, &0, || hex(&full))?;
    let mut over = vec![0; 508];
    over[0] = 65 << 1;
    same("65 give 2", &(ffi::read(&over).number, ffi::read(&over).place), &(2, 0), || hex(&over))?;
    Ok(planned + judgements + 4 + queried_samples()? + weighted::samples()?)
}

/// The runs of P8's plan at launch 0.
const EIGHT: [(u32, u32, u32); 5] = [(3, 5, 0), (5, 6, 2), (6, 7, 0), (7, 8, 1), (8, 10, 0)];

/// P8 planned at noon and judged, runs near an empty window, and what comes behind 14 in planning and judging. The files of P8 and P11 are given.
fn judged_samples(eight: &[u8], eleven: &[u8]) -> Result<usize, String> {
    let marks = [1, 0, 0];
    let at_noon = EIGHT.map(|(start, end, task)| Run { start: NOON + start, end: NOON + end, task });
    let turned = [at_noon[1], at_noon[0], at_noon[2], at_noon[3], at_noon[4]];
    let many = vec![at_noon[0]; MAX_RUNS + 1];
    let yes = Judged { number: 0, place: 0, yes: true, kept: 1, discarded: 2 };
    let no = Judged { number: 0, place: 0, yes: false, kept: 0, discarded: 0 };
    let refused = |number, place| Judged { number, place, ..no };
    let (short, beyond) = (&eight[..27], MAX_LAUNCH + 1);
    let cases = [
        ("yes at noon", eight, NOON, &marks[..], &at_noon[..], yes),
        ("no a tick later", eight, NOON + 1, &marks[..], &at_noon[..], no),
        ("no a tick earlier", eight, NOON - 1, &marks[..], &at_noon[..], no),
        ("no at launch 0", eight, 0, &marks[..], &at_noon[..], no),
        ("no without the last run", eight, NOON, &marks[..], &at_noon[..4], no),
        ("no and not 15", eight, NOON, &marks[..], &turned[..], no),
        ("no for 4,096 runs", eight, NOON, &marks[..], &many[1..], no),
        ("14", eight, beyond, &marks[..], &at_noon[..], refused(14, 0)),
        ("1 before 14", short, beyond, &marks[..], &at_noon[..], refused(1, 27)),
        ("14 before 11", eight, beyond, &marks[..2], &at_noon[..], refused(14, 0)),
        ("14 before 13", eight, beyond, &marks[..], &many[..], refused(14, 0)),
        ("11 at noon, before 13", eight, NOON, &marks[..2], &many[..], refused(11, 3)),
        ("13 at noon", eight, NOON, &marks[..], &many[..], refused(13, 0)),
    ];
    for (name, file, launch, marks, runs, expected) in cases {
        for (name_of_judge, judge) in JUDGES {
            let said = judge(file, launch, marks, runs);
            same(&format!("judging, {name}, {name_of_judge} and the rules"), &said, &expected, || hex(file))?;
        }
    }
    // No run is inside P11's window, released at tick 3 and due at tick 2.
    let outside = [(1, 2), (2, 3), (3, 4)];
    for (start, end) in outside {
        for (name_of_judge, judge) in JUDGES {
            let said = judge(eleven, 0, &[1], &[Run { start, end, task: 0 }]);
            same(&format!("judging, P11 with a run from {start} to {end}, {name_of_judge} and the rules"), &said, &no, || hex(eleven))?;
        }
    }
    let refusals = [("1 before 14", short, beyond, 1, 27), ("14 before 9", eight, beyond, 14, 0), ("9 at noon", eight, NOON, 9, 0)];
    for (name, file, launch, number, place) in refusals {
        let expected = Planned { number, place, kept: 0, discarded: 0, runs: 0 };
        for (planner, plan) in PLANNERS {
            let said = plan(file, launch, &mut [9; 2], &mut [9; 5], &mut [9; 5], &mut [9; 5]);
            same(&format!("planning with 2 marks, {name}, {planner} and the rules"), &said, &expected, || hex(file))?;
        }
    }
    Ok(2 * (cases.len() + outside.len() + refusals.len()))
}

/// A run list by its starts, ends and tasks.
fn list(runs: &[(u32, u32, u32)]) -> Vec<Run> {
    runs.iter().map(|&run| Run::from(run)).collect()
}

/// Runs with gaps between them, the last of them at the greatest numbers.
const APART: [(u32, u32, u32); 3] = [(0, 1, 9), (4, 8, 9), (u32::MAX - 1, u32::MAX, u32::MAX)];

/// The check, the queries and the busy count of P8's runs, of runs at the greatest numbers, and of lists that are refused.
fn queried_samples() -> Result<usize, String> {
    let (eight, apart) = (list(&EIGHT), list(&APART));
    Ok(checked_samples()? + tick_samples(&eight, &apart)? + interval_samples(&eight, &apart)? + counted_samples()?)
}

/// The check of lists that are accepted or refused. The busy count of any interval and the queries refuse the same lists; the query for an interval then
/// answers nothing.
fn checked_samples() -> Result<usize, String> {
    let many = vec![Run::from((5, 5, 0)); MAX_RUNS + 1];
    let checks = [
        ("P8", list(&EIGHT), 0, 0),
        ("no run", vec![], 0, 0),
        ("runs apart", list(&APART), 0, 0),
        ("an empty run", list(&[(3, 5, 0), (5, 5, 0)]), 15, 1),
        ("an empty run at 0", list(&[(0, 0, 0), (0, 1, 0)]), 15, 0),
        ("a reversed run", list(&[(3, 5, 0), (7, 6, 0), (8, 9, 0)]), 15, 1),
        ("a run that begins a tick before the previous end", list(&[(1, 2, 0), (3, 5, 0), (4, 6, 1)]), 15, 2),
        ("a run inside the previous one", list(&[(1, 9, 0), (3, 5, 0)]), 15, 1),
        ("the same run twice", list(&[(1, 2, 0), (1, 2, 0)]), 15, 1),
        ("two faults", list(&[(1, 2, 0), (2, 2, 0), (1, 1, 0)]), 15, 1),
        ("4,096 empty runs", many[1..].to_vec(), 15, 0),
        ("4,097 empty runs", many.clone(), 13, 0),
    ];
    let mut cases = 0;
    for (what, runs, number, place) in &checks {
        let (number, place) = (*number, *place);
        for (name, library) in RUN_LISTS {
            let rules = |call: &str| format!("{call} of {what}, {name} and the rules");
            same(&rules("check"), &(library.check)(runs), &Checked { number, place }, || what.to_string())?;
            if number > 0 {
                let uncounted = BusyCount { number, place, ticks: 0 };
                same(&rules("busy count from 0 to 9"), &(library.busy)(runs, 0, 9), &uncounted, || what.to_string())?;
                same(&rules("busy count from 9 to 0"), &(library.busy)(runs, 9, 0), &uncounted, || what.to_string())?;
                let none = Found { number, place, found: false, run: Run::default() };
                same(&rules("run at 3"), &(library.at)(runs, 3), &none, || what.to_string())?;
                same(&rules("run from 0"), &(library.from)(runs, 0), &none, || what.to_string())?;
                same(&rules("touching 0 to 9"), &(library.touching)(runs, 0, 9), &Part { first: 0, runs: 0 }, || what.to_string())?;
                cases += 5;
            }
            cases += 1;
        }
    }
    Ok(cases)
}

/// The index of the run at a tick, and of the first run from it on.
fn tick_samples(eight: &[Run], apart: &[Run]) -> Result<usize, String> {
    let last = u32::MAX;
    let ticks = [
        ("P8", eight, 0, None, Some(0)),
        ("P8", eight, 2, None, Some(0)),
        ("P8", eight, 3, Some(0), Some(0)),
        ("P8", eight, 4, Some(0), Some(1)),
        ("P8", eight, 5, Some(1), Some(1)),
        ("P8", eight, 8, Some(4), Some(4)),
        ("P8", eight, 9, Some(4), None),
        ("P8", eight, 10, None, None),
        ("P8", eight, last, None, None),
        ("runs apart", apart, 0, Some(0), Some(0)),
        ("runs apart", apart, 1, None, Some(1)),
        ("runs apart", apart, 5, Some(1), Some(2)),
        ("runs apart", apart, last - 2, None, Some(2)),
        ("runs apart", apart, last - 1, Some(2), Some(2)),
        ("runs apart", apart, last, None, None),
    ];
    for (what, runs, tick, at, from) in ticks {
        let found = |index: Option<usize>| Found { number: 0, place: 0, found: index.is_some(), run: index.map_or(Run::default(), |k| runs[k]) };
        for (name, library) in RUN_LISTS {
            same(&format!("{what}, run at {tick}, {name} and the rules"), &(library.at)(runs, tick), &found(at), String::new)?;
            same(&format!("{what}, run from {tick}, {name} and the rules"), &(library.from)(runs, tick), &found(from), String::new)?;
        }
    }
    Ok(2 * RUN_LISTS.len() * ticks.len())
}

/// The first index and the number of the runs that touch an interval.
fn interval_samples(eight: &[Run], apart: &[Run]) -> Result<usize, String> {
    let last = u32::MAX;
    let intervals = [
        ("P8", eight, 0, last, 0, 5),
        ("P8", eight, 4, 7, 0, 3),
        ("P8", eight, 5, 8, 1, 3),
        ("P8", eight, 9, 10, 4, 1),
        ("P8", eight, 0, 3, 0, 0),
        ("P8", eight, 10, 20, 0, 0),
        ("P8", eight, 6, 6, 0, 0),
        ("P8", eight, 7, 5, 0, 0),
        ("runs apart", apart, 1, 4, 0, 0),
        ("runs apart", apart, 1, 5, 1, 1),
        ("runs apart", apart, 8, last - 1, 0, 0),
        ("runs apart", apart, 7, last, 1, 2),
        ("runs apart", apart, 6, 6, 0, 0),
        ("runs apart", apart, 7, 5, 0, 0),
        ("runs apart", apart, last - 1, last, 2, 1),
        ("runs apart", apart, last, 0, 0, 0),
    ];
    for (what, runs, a, b, first, count) in intervals {
        for (name, library) in RUN_LISTS {
            let rules = format!("{what}, touching {a} to {b}, {name} and the rules");
            same(&rules, &(library.touching)(runs, a, b), &Part { first, runs: count }, String::new)?;
        }
    }
    Ok(RUN_LISTS.len() * intervals.len())
}

/// The busy count of lists that are accepted.
fn counted_samples() -> Result<usize, String> {
    let last = u32::MAX;
    let counts = [
        ("P8", list(&EIGHT), 4, 9, 5),
        ("P8's runs and an interval that is none", list(&EIGHT), 9, 4, 0),
        ("P8's runs and an interval of no tick", list(&EIGHT), 4, 4, 0),
        ("P8's runs and an interval behind them", list(&EIGHT), 10, last, 0),
        ("no run", vec![], 0, 9, 0),
        ("runs apart", list(&APART), 0, last, 6),
        ("two runs that touch", list(&[(3, 5, 0), (5, 6, 1)]), 4, 6, 2),
        ("one run of all ticks", list(&[(0, last, 0)]), 0, last, u64::from(last)),
        ("4,096 runs that touch", (0..MAX_RUNS as u32).map(|k| Run::from((k, k + 1, 0))).collect(), 0, last, MAX_RUNS as u64),
    ];
    for (what, runs, a, b, ticks) in &counts {
        for (name, library) in RUN_LISTS {
            let said = (library.busy)(runs, *a, *b);
            same(&format!("busy count, {what}, {name} and the rules"), &said, &BusyCount { number: 0, place: 0, ticks: *ticks }, String::new)?;
        }
    }
    Ok(RUN_LISTS.len() * counts.len())
}

/// Lists of every length up to beyond the limit. Run i holds the ticks 3i + 1 and 3i + 2, so that every answer can be told from the tick alone.
pub fn lengths() -> Result<usize, String> {
    let run = |i: usize| Run { start: 3 * i as u32 + 1, end: 3 * i as u32 + 3, task: i as u32 };
    let runs: Vec<Run> = (0..MAX_RUNS + 100).map(run).collect();
    for length in 0..=runs.len() {
        let (number, place) = if length > MAX_RUNS { (13, 0) } else { (0, 0) };
        let found = |i: usize| match number {
            0 if i < length => Found { number, place, found: true, run: run(i) },
            _ => Found { number, place, found: false, run: Run::default() },
        };
        // A run near the middle, and the last.
        for i in [length / 2, length.saturating_sub(1)] {
            let gap = 3 * i as u32;
            let none = found(length);
            for (name, library) in RUN_LISTS {
                let what = |call: &str| format!("{call} of {length} runs in order, {name} and the rules");
                let list = &runs[..length];
                same(&what("check"), &(library.check)(list), &Checked { number, place }, String::new)?;
                for (tick, at, from) in [(gap, none, found(i)), (gap + 1, found(i), found(i)), (gap + 2, found(i), found(i + 1))] {
                    same(&what(&format!("run at {tick}")), &(library.at)(list, tick), &at, String::new)?;
                    same(&what(&format!("run from {tick}")), &(library.from)(list, tick), &from, String::new)?;
                }
                // From the last tick of run i to the first of the run after the next, both included: three runs, if there are so many.
                let touched = if number == 0 { length.saturating_sub(i).min(3) } else { 0 };
                let part = Part { first: if touched > 0 { i } else { 0 }, runs: touched };
                same(&what(&format!("touching from {}", gap + 2)), &(library.touching)(list, gap + 2, gap + 8), &part, String::new)?;
            }
        }
    }
    Ok(2 * (runs.len() + 1))
}
