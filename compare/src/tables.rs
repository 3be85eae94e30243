//! The tables of the benchmarks, the lists that their plans are written to, and finished plans.

use crate::ffi::{Planned, Planning};
use crate::inputs;
use crate::random::Random;
use crate::reference::weighted::{self, WeightedTable, MAX_WEIGHT};
use crate::reference::{self, Run, Table, Task, MAX_RUNS, MAX_TASKS};
use std::array;

/// The launch tick of every plan and judgement.
pub const LAUNCH: u32 = 0;

/// A table of these tasks with period 1001/10.
pub fn table(tasks: &[Task]) -> Table {
    let mut table = Table { count: tasks.len() as u32, p: 1001, q: 10, ..Table::ZERO };
    table.tasks[..tasks.len()].copy_from_slice(tasks);
    table
}

/// A table of n tasks at shuffled positions: their windows in frames and their lengths. A frame lasts about 100 ticks. A
/// window has no tick of its first frame.
fn shuffled(n: usize, window: impl Fn(u32) -> (u32, u32), lengths: impl Fn(u32) -> (u32, u32)) -> Table {
    let mut tasks: Vec<Task> = (0..n as u32)
        .map(|i| {
            let (release, deadline) = window(i);
            let (mandatory, optional) = lengths(i);
            Task { release, deadline, mandatory, optional }
        })
        .collect();
    let mut random = Random::new(1);
    for i in (1..n).rev() {
        tasks.swap(i, random.index(i + 1));
    }
    table(&tasks)
}

/// n nested windows, each a frame wider on both sides than the next inside it.
fn nest(n: usize, lengths: impl Fn(u32) -> (u32, u32)) -> Table {
    shuffled(n, |i| (6 + i, 7 + 2 * n as u32 - i), lengths)
}

/// n similar windows of four frames, each a frame later than the one before it.
fn sequence(n: usize, lengths: impl Fn(u32) -> (u32, u32)) -> Table {
    shuffled(n, |i| (6 + i, 10 + i), lengths)
}

/// Everything fits: 200 ticks more in each window, at most 180 of work.
pub fn loose(n: usize) -> Table {
    nest(n, |i| (20 + i * 7 % 41, 30 + i * 13 % 89))
}

/// Mandatory parts take half of the ticks, and half of the optional parts do not fit.
pub fn tight(n: usize) -> Table {
    nest(n, |i| (80 + i * 7 % 41, 144 + i * 37 % 211))
}

/// Each task runs on both sides of those inside it: 2n - 1 runs.
pub fn most_runs(n: usize) -> Table {
    nest(n, |i| (20 + i * 7 % 41, 110 + i * 13 % 29))
}

/// Each task leaves a gap below its run, and the outermost fills all of them.
pub fn most_gaps(n: usize) -> Table {
    nest(n, |i| if i == 0 { (160 * n as u32, 10) } else { (20, 10) })
}

/// Every optional part has 0 ticks, so there is nothing to choose.
pub fn mandatory_only(n: usize) -> Table {
    nest(n, |i| (20 + i * 7 % 41, 0))
}

/// Everything fits: at most 98 ticks of work in each frame.
pub fn similar_loose(n: usize) -> Table {
    sequence(n, |i| (20 + i * 7 % 41, 10 + i * 13 % 29))
}

/// Mandatory parts take half of the ticks, and of 64 optional parts half do not fit.
pub fn similar_tight(n: usize) -> Table {
    sequence(n, |i| (30 + i * 7 % 41, 82 + i * 37 % 97))
}

/// The tables of 64 tasks whose planning is measured, with their names.
pub fn full() -> [(&'static str, Table); 7] {
    [
        ("everything fits", loose(64)),
        ("half of the parts dropped", tight(64)),
        ("127 runs", most_runs(64)),
        ("one task into 63 gaps", most_gaps(64)),
        ("all optional parts of 0 ticks", mandatory_only(64)),
        ("similar, everything fits", similar_loose(64)),
        ("similar, half of the parts dropped", similar_tight(64)),
    ]
}

/// Mandatory parts take half of the ticks, and of optional parts that weigh 1 to 15 half of the weight does not fit.
fn heavy(n: usize) -> Table {
    nest(n, |i| (80 + i * 7 % 41, 218 + i * 37 % 211))
}

/// A table with weights from 1 to 15 in turn. Its positions are shuffled, so they are mixed.
fn mixed(table: Table) -> WeightedTable {
    WeightedTable { table, weights: array::from_fn(|k| 1 + k as u32 % MAX_WEIGHT) }
}

/// A table whose tasks all have this weight.
fn equal(table: Table, weight: u32) -> WeightedTable {
    WeightedTable { table, weights: [weight; MAX_TASKS] }
}

/// n tasks with weights from 1 to 15, of which about half is dropped.
pub fn weighted_tight(n: usize) -> WeightedTable {
    mixed(heavy(n))
}

/// The weighted tables of 64 tasks whose planning is measured, with their names.
pub fn weighted_full() -> [(&'static str, WeightedTable); 4] {
    [
        ("weights 1 to 15, everything fits", mixed(loose(64))),
        ("weights 1 to 15, half dropped", weighted_tight(64)),
        ("all weights 15, half dropped", equal(tight(64), MAX_WEIGHT)),
        ("all weights 1, half dropped", equal(tight(64), 1)),
    ]
}

/// Lists to lend, never cleared between calls.
#[derive(Clone, Debug, PartialEq, Eq)]
pub struct Lists {
    pub marks: Vec<u8>,
    pub starts: Vec<u32>,
    pub ends: Vec<u32>,
    pub tasks: Vec<u32>,
}

impl Default for Lists {
    /// Lists that are long enough for every table.
    fn default() -> Lists {
        Lists { marks: vec![0xaa; 64], starts: vec![0xaaaa; 127], ends: vec![0xaaaa; 127], tasks: vec![0xaaaa; 127] }
    }
}

impl Lists {
    /// Plans a file into these lists by a library.
    pub fn plan(&mut self, planning: Planning, file: &[u8]) -> Planned {
        planning(file, LAUNCH, &mut self.marks, &mut self.starts, &mut self.ends, &mut self.tasks)
    }
}

/// What a plan comes to, in words.
pub fn summary(said: &Planned) -> String {
    assert_eq!(said.number, 0);
    format!("kept {}, discarded {}, {} runs", said.kept, said.discarded, said.runs)
}

/// What a plan of a weighted table with these marks comes to, in words: the weight that it drops, and its runs.
pub fn weighted_summary(weighted: &WeightedTable, said: &Planned, marks: &[u8]) -> String {
    assert_eq!(said.number, 0);
    let parts = || (0..weighted.table.count as usize).filter(|&k| weighted.table.tasks[k].optional > 0);
    let all: u32 = parts().map(|k| weighted.weights[k]).sum();
    let dropped: u32 = parts().filter(|&k| marks[k] == 0).map(|k| weighted.weights[k]).sum();
    format!("weight {dropped} of {all} dropped, {} runs", said.runs)
}

/// A run list as three columns: the form that a library takes which doesn't take records.
#[derive(Clone, Debug, Default)]
pub struct Columns {
    pub starts: Vec<u32>,
    pub ends: Vec<u32>,
    pub tasks: Vec<u32>,
}

impl Columns {
    /// Columns with places for so many runs.
    pub fn places(runs: usize) -> Columns {
        Columns { starts: vec![0; runs], ends: vec![0; runs], tasks: vec![0; runs] }
    }

    /// Copies records to the first places, one column after the other, which takes less time than all three in one pass.
    pub fn copy(&mut self, runs: &[Run]) {
        self.starts.iter_mut().zip(runs).for_each(|(start, run)| *start = run.start);
        self.ends.iter_mut().zip(runs).for_each(|(end, run)| *end = run.end);
        self.tasks.iter_mut().zip(runs).for_each(|(task, run)| *task = run.task);
    }
}

/// A finished plan that the judge accepts: a file, its marks and its runs, these in both forms.
#[derive(Clone, Debug)]
pub struct Finished {
    pub file: Vec<u8>,
    pub marks: Vec<u8>,
    pub runs: Vec<Run>,
    pub columns: Columns,
}

impl Finished {
    /// A finished plan of a file's table.
    fn new(file: Vec<u8>, marks: Vec<u8>, runs: Vec<Run>) -> Finished {
        let mut columns = Columns::places(runs.len());
        columns.copy(&runs);
        Finished { file, marks, runs, columns }
    }

    /// A file of 64 tasks, planned by the reference, so that no call of a library is counted that is not to be measured.
    fn planned(file: Vec<u8>, plan: reference::Planning) -> Finished {
        let Lists { mut marks, mut starts, mut ends, mut tasks } = Lists::default();
        let said = plan(&file, LAUNCH, &mut marks, &mut starts, &mut ends, &mut tasks).expect("a plan");
        let runs = (0..said.runs).map(|i| Run { start: starts[i], end: ends[i], task: tasks[i] }).collect();
        Finished::new(file, marks, runs)
    }

    /// A tick that a run in the middle holds.
    pub fn tick(&self) -> u32 {
        self.runs[self.runs.len() / 2].start
    }

    /// An interval that has the middle half of the runs.
    pub fn interval(&self) -> (u32, u32) {
        let n = self.runs.len();
        (self.runs[n / 4].start, self.runs[3 * n / 4].end)
    }
}

/// 64 tasks in 127 runs, as planned.
pub fn planned_runs() -> Finished {
    Finished::planned(inputs::pack(&most_runs(64)), reference::plan)
}

/// The same table with weights, which has the same plan.
pub fn weighted_planned_runs() -> Finished {
    Finished::planned(inputs::weighted::pack(&mixed(most_runs(64))), weighted::plan)
}

/// One task in 4,096 runs of one tick, two ticks apart.
pub fn many_runs() -> Finished {
    let ticks = MAX_RUNS as u32;
    let table = table(&[Task { release: 0, deadline: 200, mandatory: ticks, optional: 0 }]);
    let first = table.clock(LAUNCH).release(0);
    let runs = (0..ticks).map(|i| Run { start: first + 3 * i, end: first + 3 * i + 1, task: 0 }).collect();
    Finished::new(inputs::pack(&table), vec![1], runs)
}
