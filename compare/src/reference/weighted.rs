//! Weighted tables (request 7): nested tables whose tasks each carry a weight. They are read, written, planned and judged here. What they have in
//! common with other tables is that of the module above.

use super::{
    bytes_needed, check_fields, check_frames, check_launch, first_exceeding, in_order, judge_table, nested, place_nested, put_header, put_task,
    read_header, refuse, take_task, BitWriter, Header, Job, Kind, Lists, Plan, Refusal, Run, Table, Task, Verdict, MAX_TASKS, NONE,
};

pub const MAX_WEIGHT: u32 = 15;

const WEIGHT_BITS: u32 = 4;
const TASK_BITS: usize = super::TASK_BITS + WEIGHT_BITS as usize;

/// A table, and the weight of the task at each position beside it.
#[repr(C)]
#[derive(Clone, Copy, Debug, PartialEq, Eq)]
pub struct WeightedTable {
    pub table: Table,
    pub weights: [u32; MAX_TASKS],
}

impl WeightedTable {
    /// The table that is 0 throughout.
    pub const ZERO: WeightedTable = WeightedTable { table: Table::ZERO, weights: [0; MAX_TASKS] };

    /// The weights up to the count.
    pub fn weights(&self) -> &[u32] {
        &self.weights[..self.table.count as usize]
    }
}

// ---- the table file

/// The bytes of a file of `count` tasks.
pub fn file_length(count: usize) -> usize {
    bytes_needed(count, TASK_BITS)
}

/// Refusal 16.
fn check_weights(weights: &[u32]) -> Result<(), Refusal> {
    match weights.iter().position(|weight| !(1..=MAX_WEIGHT).contains(weight)) {
        Some(k) => refuse(16, k),
        None => Ok(()),
    }
}

/// Refusal 7: the first task that is not nested with some earlier one.
fn check_nested(tasks: &[Task]) -> Result<(), Refusal> {
    match (0..tasks.len()).find(|&k| !tasks[..k].iter().all(|earlier| nested(earlier, &tasks[k]))) {
        Some(k) => refuse(7, k),
        None => Ok(()),
    }
}

/// Refusals 6, 16 and 7.
fn check_tasks(weighted: &WeightedTable) -> Result<(), Refusal> {
    check_frames(weighted.table.tasks())?;
    check_weights(weighted.weights())?;
    check_nested(weighted.table.tasks())
}

/// Reading.
pub fn read(file: &[u8]) -> Result<WeightedTable, Refusal> {
    let (Header { count, p, q }, mut bits) = read_header(file, TASK_BITS)?;
    let mut weighted = WeightedTable { table: Table { count, p, q, ..Table::ZERO }, ..WeightedTable::ZERO };
    for (task, weight) in weighted.table.tasks.iter_mut().zip(&mut weighted.weights).take(count as usize) {
        *task = take_task(&mut bits);
        *weight = bits.take(WEIGHT_BITS);
    }
    check_tasks(&weighted)?;
    Ok(weighted)
}

/// Writing; replies the number of bytes written.
pub fn write(weighted: &WeightedTable, out: &mut [u8]) -> Result<usize, Refusal> {
    let WeightedTable { table, .. } = weighted;
    check_fields(table)?;
    check_tasks(weighted)?;
    let needed = file_length(table.count as usize);
    let Some(file) = out.get_mut(..needed) else {
        return refuse(9, 0);
    };
    let mut bits = BitWriter::new(file);
    put_header(&mut bits, table);
    for (task, &weight) in table.tasks().iter().zip(weighted.weights()) {
        put_task(&mut bits, task);
        bits.put(WEIGHT_BITS, weight);
    }
    bits.finish();
    Ok(needed)
}

// ---- planning

/// Places before that of weight 0 in a row: no list weighs so little.
const BELOW: usize = MAX_WEIGHT as usize;

/// Which optional parts are kept, by nest order. The mandatory parts alone fit.
///
/// There is a row for each number i of jobs from 0 on: for each weight w it has the least total of kept optional ticks over the fitting lists of the
/// first i jobs whose kept parts weigh w. A smaller total fits wherever a greater one does, so it is enough to know the least. The greatest weight that
/// the last row has is kept. Then the rows are read from the last job back: a job is kept where the least total can have it.
fn choose(jobs: &[Job], weights: &[u32; MAX_TASKS]) -> [bool; MAX_TASKS] {
    let weight_of = |job: &Job| if job.optional > 0 { weights[job.position] as usize } else { 0 };
    let heaviest: usize = jobs.iter().map(weight_of).sum();
    let width = BELOW + heaviest + 1;
    let mut rows = vec![NONE; width * (jobs.len() + 1)];
    rows[BELOW] = 0;
    let (mut mandatory, mut so_far) = (0, 0);
    for (i, job) in jobs.iter().enumerate() {
        mandatory += job.mandatory;
        let room = job.ticks() - mandatory;
        let weight = weight_of(job);
        so_far += weight;
        let (done, next) = rows.split_at_mut(width * (i + 1));
        let row = &done[width * i..];
        let totals = row[BELOW - weight..].iter().zip(&row[BELOW..]).map(|(&lighter, &same)| same.min(lighter + job.optional));
        for (least, total) in next[BELOW..=BELOW + so_far].iter_mut().zip(totals) {
            *least = if total <= room { total } else { NONE };
        }
    }
    let last = &rows[width * jobs.len() + BELOW..];
    let mut weight = (0..=heaviest).rev().find(|&weight| last[weight] < NONE).unwrap_or(0);
    let mut kept = [true; MAX_TASKS];
    for (i, job) in jobs.iter().enumerate().rev() {
        if job.optional > 0 {
            let row = &rows[width * i..];
            let lighter = BELOW + weight - weight_of(job);
            kept[i] = row[lighter] + job.optional <= row[BELOW + weight];
            weight -= if kept[i] { weight_of(job) } else { 0 };
        }
    }
    kept
}

/// Planning at a launch tick: marks by position, runs by start.
pub fn plan(file: &[u8], launch: u32, marks: &mut [u8], starts: &mut [u32], ends: &mut [u32], tasks: &mut [u32]) -> Result<Plan, Refusal> {
    let WeightedTable { table, weights } = read(file)?;
    check_launch(launch)?;
    let (jobs, n) = in_order(&table, Kind::Nested, launch);
    let jobs = &jobs[..n];
    if let Some(job) = first_exceeding(jobs) {
        return refuse(8, job.position);
    }
    let lists = Lists { marks, starts, ends, tasks };
    lists.check(n)?;
    let kept = choose(jobs, &weights);
    let runs = place_nested(jobs, &kept);
    Ok(lists.fill(jobs, &kept, &runs))
}

// ---- judging

/// Judging at a launch tick.
pub fn judge(file: &[u8], launch: u32, marks: &[u8], runs: &[Run]) -> Result<Verdict, Refusal> {
    judge_table(&read(file)?.table, launch, marks, runs)
}
