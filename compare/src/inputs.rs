//! Tables, files and run lists made at random: valid ones, and ones that are damaged. Weighted ones are in `weighted`.

pub mod weighted;

use crate::random::Random;
use crate::reference::{self, Clock, Kind, Planning, Refusal, Run, Table, Task, LAST_FRAME, MAX_LAUNCH, MAX_PERIOD, MAX_RUNS, MAX_TASKS, MAX_TICKS};

/// The greatest number that a call refuses with.
pub const LAST_REFUSAL: u32 = 16;

/// How the lengths of a table's parts compare with the ticks that its windows have.
#[derive(Clone, Copy, Debug, PartialEq, Eq)]
pub enum Load {
    /// Everything fits.
    Loose,
    /// Mandatory parts fit; many optional parts don't.
    Tight,
    /// Short mandatory parts fit; most optional parts do so alone, and not beside one another.
    Crowded,
    /// Few lengths, many of them equal, many of them 0.
    Few,
    /// Lengths at and near the limit.
    Large,
    /// Any lengths, so that mandatory parts often don't fit.
    Any,
}

const LOADS: [Load; 8] = [Load::Loose, Load::Tight, Load::Tight, Load::Tight, Load::Few, Load::Few, Load::Large, Load::Any];

/// A number of tasks: all of 1 to 64, small ones more often.
pub fn task_count(random: &mut Random) -> usize {
    let most = random.pick(&[1, 2, 4, 8, 16, 32, 64, 64]);
    match random.up_to(9) {
        0 => most as usize,
        _ => random.between(1, most) as usize,
    }
}

/// A legal period.
pub fn period(random: &mut Random) -> (u32, u32) {
    match random.up_to(9) {
        0..=2 => (1, 1),
        3 => (1001, 10),
        4 => (MAX_PERIOD, random.pick(&[1, 2, MAX_PERIOD - 1, MAX_PERIOD])),
        5 => random.pick(&[(5, 4), (5, 4), (3, 2), (7, 3)]),
        6 => (random.between(1, 40), 1),
        _ => {
            let p = random.between(1, MAX_PERIOD);
            let q = random.between(1, p);
            (p, q)
        }
    }
}

/// A launch tick that is accepted: 0 often, small ones, the last one, and any.
pub fn accepted_launch(random: &mut Random) -> u32 {
    match random.up_to(7) {
        0..=2 => 0,
        3 => random.up_to(200),
        4 => MAX_LAUNCH - random.up_to(1),
        _ => random.up_to(MAX_LAUNCH),
    }
}

/// A launch tick, one in eight of them not accepted: just above the last one, the greatest number, or any between.
pub fn launch(random: &mut Random) -> u32 {
    if !random.once_in(8) {
        return accepted_launch(random);
    }
    match random.up_to(2) {
        0 => MAX_LAUNCH + 1,
        1 => u32::MAX,
        _ => random.between(MAX_LAUNCH + 1, u32::MAX),
    }
}

/// How the windows of a table lie to one another.
#[derive(Clone, Copy, Debug, PartialEq, Eq)]
pub enum Shape {
    /// One inside the other.
    Nested,
    /// One after the other: none begins or ends before the one in front of it.
    Similar,
    /// Both: all of them begin together, or all end together.
    Both,
}

const SHAPES: [Shape; 5] = [Shape::Nested, Shape::Nested, Shape::Similar, Shape::Similar, Shape::Both];

/// n windows, each inside the next, some equal. The innermost often has one frame and is empty.
fn chain(random: &mut Random, n: usize) -> Vec<(u32, u32)> {
    let step = random.pick(&[0, 1, 1, 2, 3, 10, 100, 1000]);
    let longest = random.pick(&[2, 3, 6, 50, 1000]);
    let inner = random.between(1, longest);
    let mut release = random.up_to(LAST_FRAME - inner);
    if random.once_in(2) {
        release = release.min(n as u32 * step + 5);
    }
    let mut deadline = release + inner;
    let mut chain = Vec::with_capacity(n);
    for _ in 0..n {
        chain.push((release, deadline));
        if random.up_to(9) > 1 {
            release -= random.up_to(step).min(release);
            deadline += random.up_to(step).min(LAST_FRAME - deadline);
        }
    }
    if random.once_in(20) {
        chain[n - 1] = (0, LAST_FRAME);
    }
    chain
}

/// n windows in similar order: some equal, some with one end in common, some that touch or lie apart, most of them overlapping. Some lists have
/// windows of one frame, which are empty.
fn sequence(random: &mut Random, n: usize) -> Vec<(u32, u32)> {
    let step = random.pick(&[1, 1, 2, 3, 10, 100, 1000]);
    let shortest = random.pick(&[1, 2, 2]);
    let longest = random.pick(&[2, 3, 4, 6, 50, 1000]);
    let mut release = if random.once_in(4) { random.up_to(LAST_FRAME - shortest) } else { random.up_to(5) };
    let mut deadline = (release + random.between(shortest, longest)).min(LAST_FRAME);
    let mut sequence = Vec::with_capacity(n);
    for _ in 0..n {
        sequence.push((release, deadline));
        match random.up_to(11) {
            0 => {}
            1 => deadline += random.up_to(step),
            2 => release = (release + random.up_to(step)).min(deadline - shortest),
            3 => {
                release = deadline + random.up_to(1) * random.up_to(step);
                deadline = release + random.between(shortest, longest);
            }
            _ => {
                release += random.up_to(step);
                deadline += random.up_to(step);
            }
        }
        release = release.min(LAST_FRAME - shortest);
        deadline = deadline.clamp(release + shortest, LAST_FRAME);
    }
    sequence
}

/// n windows of a shape: similar ones in similar order, the others from the innermost on.
fn windows(random: &mut Random, n: usize, shape: Shape) -> Vec<(u32, u32)> {
    match shape {
        Shape::Nested => chain(random, n),
        Shape::Similar => sequence(random, n),
        Shape::Both => {
            let mut windows = chain(random, n);
            let (first, last) = windows[n - 1];
            if random.once_in(2) {
                windows.iter_mut().for_each(|window| window.0 = first);
            } else {
                windows.iter_mut().for_each(|window| window.1 = last);
            }
            windows
        }
    }
}

/// The lengths of a task that has so many ticks for itself.
fn lengths(random: &mut Random, free: u32, few: u32, load: Load) -> (u32, u32) {
    let (mandatory, optional) = match load {
        Load::Loose => {
            let mandatory = random.up_to(free / 2);
            (mandatory, random.up_to(free - mandatory))
        }
        Load::Tight => {
            let part = random.pick(&[1, 2, 4]);
            let mandatory = random.up_to(free / part);
            (mandatory, random.up_to((free - mandatory / 2).saturating_mul(3).max(few)))
        }
        Load::Crowded => (random.up_to(free / 8), random.between(1, free.max(1))),
        Load::Few => (random.up_to(few).min(free), random.up_to(few)),
        Load::Large => {
            (if random.once_in(2) { random.up_to(free) } else { random.between(MAX_TICKS - 1, MAX_TICKS).min(free) }, MAX_TICKS - random.up_to(2))
        }
        Load::Any => (random.up_to(MAX_TICKS) >> random.up_to(14), random.up_to(MAX_TICKS) >> random.up_to(14)),
    };
    (mandatory.min(MAX_TICKS), optional.min(MAX_TICKS))
}

/// A legal table of n tasks with windows of a shape.
pub fn shaped_table(random: &mut Random, n: usize, (p, q): (u32, u32), shape: Shape, load: Load) -> Table {
    let windows = windows(random, n, shape);
    let mut positions: Vec<usize> = (0..n).collect();
    match random.up_to(3) {
        0 => {}
        1 => positions.reverse(),
        _ => {
            for i in (1..n).rev() {
                positions.swap(i, random.index(i + 1));
            }
        }
    }
    let mut table = Table { count: n as u32, p, q, ..Table::ZERO };
    let clock = Clock { p, q, launch: 0 };
    // What the tasks so far use: of nested windows so many ticks, of similar ones all ticks before this one.
    let mut used = 0;
    let few = random.between(1, 4);
    for (&(release, deadline), &position) in windows.iter().zip(&positions) {
        let (from, to) = (clock.release(release), clock.deadline(deadline));
        let ticks = to.saturating_sub(from);
        if shape == Shape::Similar {
            used = used.max(from);
        }
        let left = if shape == Shape::Similar { to.saturating_sub(used) } else { ticks.saturating_sub(used) };
        // What is left, shared with some of those to come.
        let free = left / random.pick(&[1, 2, 2, 4, 8]);
        let (mandatory, optional) = lengths(random, free, few, load);
        let mut task = Task { release, deadline, mandatory, optional };
        if random.once_in(8) {
            task.optional = 0;
        }
        if random.once_in(12) {
            task.mandatory = 0;
        }
        if random.once_in(200) {
            task.mandatory = (task.mandatory + random.between(1, ticks.max(1))).min(MAX_TICKS);
        }
        used += match load {
            Load::Loose => task.mandatory + task.optional,
            _ => task.mandatory,
        };
        table.tasks[position] = task;
    }
    table
}

/// A legal table of n tasks, whatever its period, shape and load.
fn table_of(random: &mut Random, n: usize) -> Table {
    let period = period(random);
    let shape = random.pick(&SHAPES);
    let load = random.pick(&LOADS);
    shaped_table(random, n, period, shape, load)
}

/// A legal table of any size.
pub fn table(random: &mut Random) -> Table {
    let n = task_count(random);
    table_of(random, n)
}

/// Makes the window of one task lie strictly around that of another, strictly inside it, or across its end: the first two are not similar, the last is
/// not nested.
pub fn set_against(random: &mut Random, table: &mut Table) {
    let n = (table.count as usize).min(MAX_TASKS);
    if n < 2 {
        return;
    }
    let (k, other) = (random.index(n), random.index(n));
    let Task { release, deadline, .. } = table.tasks[other];
    let by = random.between(1, 3);
    let (release, deadline) = match random.up_to(2) {
        0 => (release.saturating_sub(by), deadline.saturating_add(by).min(LAST_FRAME)),
        1 if deadline.saturating_sub(release) > 2 => (release + 1, deadline - 1),
        _ => (deadline.saturating_sub(1), deadline.saturating_add(by).min(LAST_FRAME)),
    };
    (table.tasks[k].release, table.tasks[k].deadline) = (release, deadline);
}

/// A table that mostly is of neither kind: a legal one of three tasks or more, with some windows set against others.
pub fn mixed_table(random: &mut Random) -> Table {
    let n = task_count(random).max(3);
    let mut table = table_of(random, n);
    for _ in 0..random.between(1, 3) {
        set_against(random, &mut table);
    }
    table
}

/// A table with one to three faults, some of which may do no harm.
pub fn faulty_table(random: &mut Random) -> Table {
    let mut table = table(random);
    for _ in 0..random.between(1, 3) {
        spoil(random, &mut table);
    }
    table
}

/// Gives a table a fault, which may do no harm.
fn spoil(random: &mut Random, table: &mut Table) {
    let n = (table.count as usize).min(MAX_TASKS);
    let k = random.index(n.max(1));
    match random.up_to(10) {
        0 => table.count = random.pick(&[0, 1, 63, 64, 65, 66, 127, 128, u32::MAX]),
        1 => table.p = random.pick(&[0, 1, 2, MAX_PERIOD, MAX_PERIOD + 1, 8191, u32::MAX]),
        2 => table.q = random.pick(&[0, 1, 2, MAX_PERIOD, MAX_PERIOD + 1, 8191, u32::MAX]),
        3 => table.q = random.any(),
        4 => table.tasks[k].release = random.any(),
        5 => table.tasks[k].deadline = random.any(),
        6 => table.tasks[k].mandatory = random.pick(&[MAX_TICKS, MAX_TICKS + 1, u32::MAX, 0]),
        7 => table.tasks[k].optional = random.pick(&[MAX_TICKS, MAX_TICKS + 1, u32::MAX, 0]),
        8 => {
            let by = random.between(1, 3);
            table.tasks[k].release = (table.tasks[k].release + by).min(LAST_FRAME);
            table.tasks[k].deadline = (table.tasks[k].deadline + by).min(LAST_FRAME);
        }
        9 => set_against(random, table),
        _ => {
            // Places beyond the count don't matter.
            for task in &mut table.tasks[n..] {
                *task = Task { release: random.any(), deadline: random.any(), mandatory: random.any(), optional: random.any() };
            }
        }
    }
}

/// The fields of a table packed into bytes with no check; wider fields lose their high bits. Padding is 0.
pub fn pack(table: &Table) -> Vec<u8> {
    pack_with(table, None)
}

/// The same with the weight of each task behind its other fields, where there are weights.
fn pack_with(table: &Table, weights: Option<&[u32; MAX_TASKS]>) -> Vec<u8> {
    let mut bits = Vec::new();
    let mut put = |width: u32, value: u32| bits.extend((0..width).rev().map(|i| value >> i & 1 == 1));
    put(7, table.count);
    put(12, table.p);
    put(12, table.q);
    for (k, task) in table.tasks.iter().enumerate().take(table.count as usize) {
        put(17, task.release);
        put(17, task.deadline);
        put(14, task.mandatory);
        put(14, task.optional);
        if let Some(weights) = weights {
            put(4, weights[k]);
        }
    }
    bits.chunks(8).map(|byte| byte.iter().enumerate().fold(0, |sum, (i, &bit)| sum | u8::from(bit) << (7 - i))).collect()
}

/// A sort of table files: how they are made, and how the reference reads and plans them.
struct Sort {
    /// A file of a legal table, of one that has faults, and of one whose windows mostly don't go together.
    legal: fn(&mut Random) -> Vec<u8>,
    faulty: fn(&mut Random) -> Vec<u8>,
    mixed: fn(&mut Random) -> Vec<u8>,
    /// The bytes of a file of so many tasks.
    length: fn(usize) -> usize,
    read: fn(&[u8]) -> Result<Table, Refusal>,
    plan: Planning,
}

const PLAIN: Sort = Sort {
    legal: |random| pack(&table(random)),
    faulty: |random| pack(&faulty_table(random)),
    mixed: |random| pack(&mixed_table(random)),
    length: reference::file_length,
    read: reference::read,
    plan: reference::plan,
};

/// A file: half of them legal, the others damaged in many ways.
pub fn file(random: &mut Random) -> Vec<u8> {
    file_of(random, &PLAIN)
}

/// A file of a sort, as above.
fn file_of(random: &mut Random, sort: &Sort) -> Vec<u8> {
    match random.up_to(19) {
        0..=9 => (sort.legal)(random),
        10 => {
            let length = random.up_to(20) as usize;
            random.bytes(length)
        }
        11 => {
            // Random bytes of just the length that their count needs.
            let n = random.between(1, 64);
            let mut file = random.bytes((sort.length)(n as usize));
            file[0] = (n << 1) as u8 | file[0] & 1;
            if random.up_to(3) > 0 {
                let last = file.len() - 1;
                file[last] &= 0x80;
            }
            file
        }
        12..=13 => (sort.faulty)(random),
        14 => (sort.mixed)(random),
        _ => {
            let mut file = (sort.legal)(random);
            for _ in 0..random.between(1, 2) {
                damage(random, &mut file);
            }
            file
        }
    }
}

/// Damages a file: its length, one of its bits or one of its bytes.
fn damage(random: &mut Random, file: &mut Vec<u8>) {
    let length = file.len();
    match random.up_to(7) {
        0 => file.truncate(random.up_to(length as u32) as usize),
        1 => file.truncate(length.saturating_sub(random.between(1, 4) as usize)),
        2 => {
            let more = random.between(1, 9) as usize;
            let byte = random.pick(&[0, 0xff, 0x5a]);
            file.resize(length + more, byte);
        }
        3 if length > 0 => {
            // One bit anywhere.
            let bit = random.index(8 * length);
            file[bit / 8] ^= 0x80 >> (bit % 8);
        }
        4 if length > 0 => {
            // One of the last bits, where the padding is.
            let bit = 8 * length - 1 - random.index(8);
            file[bit / 8] ^= 0x80 >> (bit % 8);
        }
        5 if length > 0 => file[0] = random.word() as u8,
        6 if length > 3 => {
            // One bit of the period.
            let bit = random.between(7, 30) as usize;
            file[bit / 8] ^= 0x80 >> (bit % 8);
        }
        _ if length > 0 => {
            let at = random.index(length);
            file[at] = random.word() as u8;
        }
        _ => file.push(0),
    }
}

/// The length of a lent list, around the length that is needed.
pub fn lent_length(random: &mut Random, needed: usize) -> usize {
    match random.up_to(15) {
        0 => 0,
        1 => needed.saturating_sub(1),
        2 => random.up_to(needed as u32) as usize,
        3..=8 => needed,
        9 => needed + 1,
        _ => needed + random.up_to(80) as usize,
    }
}

/// A running of a table at a launch tick that need not follow the placing rule, for a keep list made by dropping parts of the planner's own at random.
/// The list is given as marks. Nested tasks get the earliest free ticks, in nest order; similar ones run as late as they can, from the last in similar
/// order back.
fn other_running(random: &mut Random, table: &Table, launch: u32, marks: &mut [u8]) -> Vec<Run> {
    for mark in marks.iter_mut() {
        if random.once_in(4) {
            *mark = 0;
        }
    }
    let mut order: Vec<usize> = (0..table.count as usize).collect();
    if reference::check_windows(table.tasks()) == Ok(Kind::Similar) {
        order.sort_by_key(|&k| (table.tasks[k].release, table.tasks[k].deadline));
        return latest_runs(table, launch, marks, &order);
    }
    order.sort_by_key(|&k| table.tasks[k].deadline - table.tasks[k].release);
    earliest_runs(table, launch, marks, &order)
}

/// A task's work under some marks, and its window in ticks at a launch tick.
fn job(table: &Table, launch: u32, marks: &[u8], k: usize) -> (u32, u32, u32) {
    let task = table.tasks[k];
    let clock = table.clock(launch);
    let work = task.mandatory + if marks[k] == 1 { task.optional } else { 0 };
    (work, clock.release(task.release), clock.deadline(task.deadline))
}

/// Each task from the last of an order back runs in one stretch, as late as it can before those behind it.
fn latest_runs(table: &Table, launch: u32, marks: &[u8], order: &[usize]) -> Vec<Run> {
    let mut runs = Vec::new();
    let mut until = u32::MAX;
    for &k in order.iter().rev() {
        let (work, _, deadline) = job(table, launch, marks, k);
        if work > 0 {
            let end = until.min(deadline);
            until = end.saturating_sub(work);
            runs.push(Run { start: until, end, task: k as u32 });
        }
    }
    runs.reverse();
    runs
}

/// Each task of an order gets the earliest free ticks of its window.
fn earliest_runs(table: &Table, launch: u32, marks: &[u8], order: &[usize]) -> Vec<Run> {
    let mut runs: Vec<Run> = Vec::new();
    for &k in order {
        let (mut work, mut from, deadline) = job(table, launch, marks, k);
        let mut at = 0;
        while work > 0 && from < deadline {
            let to = runs.get(at).map_or(deadline, |run| run.start);
            let taken = work.min(to.saturating_sub(from));
            if taken > 0 {
                runs.insert(at, Run { start: from, end: from + taken, task: k as u32 });
                work -= taken;
                at += 1;
            }
            match runs.get(at) {
                Some(run) => from = run.end,
                None => break,
            }
            at += 1;
        }
    }
    runs
}

/// What the judge gets.
#[derive(Clone, Debug)]
pub struct Judgement {
    pub file: Vec<u8>,
    pub launch: u32,
    pub marks: Vec<u8>,
    pub runs: Vec<Run>,
}

/// The launch tick for the judge of what was made at a launch tick: mostly the same, else the one beside it, 0 or any.
fn judged_launch(random: &mut Random, made: u32) -> u32 {
    match random.up_to(23) {
        0 => made + 1,
        1 => made.saturating_sub(1),
        2 => 0,
        3..=5 => launch(random),
        _ => made,
    }
}

/// A file, a launch tick, a keep list and a run list for the judge: plans, other runnings, runs for tables that have no plan, and damaged ones, made
/// at the launch tick or at another one.
pub fn judgement(random: &mut Random) -> Judgement {
    judgement_of(random, &PLAIN)
}

/// The same with a file of a sort.
fn judgement_of(random: &mut Random, sort: &Sort) -> Judgement {
    let mut file = file_of(random, sort);
    let made = accepted_launch(random);
    let launch = judged_launch(random, made);
    let Ok(table) = (sort.read)(&file) else {
        let n = random.up_to(70) as usize;
        let runs = random.up_to(70) as usize;
        return Judgement { file, launch, marks: random.bytes(n), runs: random_runs(random, runs) };
    };
    let n = table.count as usize;
    let mut marks = vec![0; n];
    let (mut starts, mut ends, mut tasks) = (vec![0; 2 * n - 1], vec![0; 2 * n - 1], vec![0; 2 * n - 1]);
    let planned = (sort.plan)(&file, made, &mut marks, &mut starts, &mut ends, &mut tasks);
    let mut runs: Vec<Run> = match planned {
        Ok(plan) => (0..plan.runs).map(|i| Run { start: starts[i], end: ends[i], task: tasks[i] }).collect(),
        Err(_) if random.once_in(2) => latest_runs(&table, made, &marks, &(0..n).collect::<Vec<usize>>()),
        Err(_) => (0..random.up_to(9)).map(|_| Run { start: random.any(), end: random.any(), task: random.up_to(n as u32) }).collect(),
    };
    if planned.is_ok() && random.once_in(3) {
        runs = other_running(random, &table, made, &mut marks);
    }
    for (mark, task) in marks.iter_mut().zip(table.tasks()) {
        if task.optional == 0 && random.once_in(2) {
            *mark ^= 1;
        }
    }
    if random.once_in(3) {
        split(random, &mut runs);
    }
    if random.once_in(2) {
        for _ in 0..random.between(1, 2) {
            damage_runs(random, &mut runs, n as u32);
        }
    }
    if random.once_in(6) {
        let at = random.index(n);
        marks[at] = random.pick(&[0, 1, 1, 2, 3, 128, 255]);
    }
    if random.once_in(15) {
        let length = random.pick(&[0, n - 1, n + 1, 64, 65]);
        marks.resize(length, random.pick(&[0, 1, 2]));
    }
    if random.once_in(30) {
        // Around the limit: with more runs behind the others the judge says no, or 13.
        runs.resize(random.pick(&[MAX_RUNS - 1, MAX_RUNS, MAX_RUNS + 1, MAX_RUNS + 1, MAX_RUNS + 100]), Run { start: 7, end: 8, task: 0 });
    }
    if random.once_in(40) {
        damage(random, &mut file);
    }
    Judgement { file, launch, marks, runs }
}

/// Cuts runs in two; the two then touch.
fn split(random: &mut Random, runs: &mut Vec<Run>) {
    for _ in 0..random.between(1, 5) {
        if runs.is_empty() {
            return;
        }
        let at = random.index(runs.len());
        let Run { start, end, task } = runs[at];
        if end.saturating_sub(start) > 1 {
            let middle = random.between(start + 1, end - 1);
            runs[at].end = middle;
            runs.insert(at + 1, Run { start: middle, end, task });
        }
    }
}

/// Damages a run list of a table of n tasks in one place.
fn damage_runs(random: &mut Random, runs: &mut Vec<Run>, n: u32) {
    if runs.is_empty() {
        runs.push(Run { start: random.any(), end: random.any(), task: random.up_to(n) });
        return;
    }
    let at = random.index(runs.len());
    let other = random.index(runs.len());
    match random.up_to(11) {
        0 => runs[at].start = runs[at].start.wrapping_sub(1),
        1 => runs[at].start = runs[at].start.wrapping_add(1),
        2 => runs[at].end = runs[at].end.saturating_sub(1),
        3 => runs[at].end = runs[at].end.wrapping_add(1),
        4 => runs[at].task = random.pick(&[0, n - 1, n, n + 1, 64, u32::MAX]),
        5 => runs.swap(at, other),
        6 => {
            runs.remove(at);
        }
        7 => runs.insert(at, runs[other]),
        8 => runs[at].end = runs[at].start,
        9 => runs[at] = reversed(runs[at]),
        10 => {
            // Later or earlier.
            let by = random.pick(&[1, 2, 3, -1, -2, -3]);
            runs[at].start = runs[at].start.wrapping_add_signed(by);
            runs[at].end = runs[at].end.wrapping_add_signed(by);
        }
        _ => {
            let task = runs[at].task;
            runs[at].task = runs[other].task;
            runs[other].task = task;
        }
    }
}

/// The run with its start and its end exchanged.
fn reversed(run: Run) -> Run {
    Run { start: run.end, end: run.start, task: run.task }
}

/// A run list of any content.
fn random_runs(random: &mut Random, length: usize) -> Vec<Run> {
    let ordered = random.once_in(2);
    let mut from = 0u32;
    let mut run = || {
        let (start, end) = if ordered {
            let start = from.saturating_add(random.up_to(5));
            from = start.saturating_add(random.up_to(9));
            (start, from)
        } else {
            (random.any(), random.any())
        };
        Run { start, end, task: random.up_to(70) }
    };
    (0..length).map(|_| run()).collect()
}

/// How many runs a list for the busy count or the queries has: few mostly, and all numbers up to beyond the limit.
fn run_count(random: &mut Random) -> usize {
    match random.up_to(19) {
        0 => random.pick(&[MAX_RUNS - 1, MAX_RUNS, MAX_RUNS, MAX_RUNS + 1, MAX_RUNS + 1, MAX_RUNS + 2, 5000, 8192]),
        1 => random.up_to(MAX_RUNS as u32 + 100) as usize,
        2..=5 => random.up_to(8) as usize,
        _ => random.up_to(130) as usize,
    }
}

/// A run list as the check accepts it, of any length: every run has a tick, and none starts before the one listed before it ends. In some lists all
/// runs touch; some begin at tick 0, and some end at the greatest number there is. The task numbers are any.
fn ordered_runs(random: &mut Random, length: usize) -> Vec<Run> {
    // So wide that as many runs and gaps stay below the greatest number.
    let widest = u32::MAX / (2 * length as u32 + 1);
    let longest = random.pick(&[1, 2, 3, 9, 1000, widest]).min(widest);
    let gap = random.pick(&[0, 0, 1, 2, 9, 1000, widest]).min(widest);
    let mut from = 0;
    let mut run = || {
        let start = from + random.up_to(gap);
        from = start + random.between(1, longest);
        Run { start, end: from, task: if random.once_in(8) { random.any() } else { random.up_to(63) } }
    };
    let mut runs: Vec<Run> = (0..length).map(|_| run()).collect();
    // All of them later, as far as there are numbers.
    let room = u32::MAX - from;
    let later = match random.up_to(5) {
        0..=2 => 0,
        3 => room,
        4 => random.any().min(room),
        _ => random.up_to(room),
    };
    for run in &mut runs {
        run.start += later;
        run.end += later;
    }
    runs
}

/// Makes one run empty or reversed, or lets it overlap another. The list was in order and has a run.
fn disorder(random: &mut Random, runs: &mut [Run]) {
    let at = random.index(runs.len());
    let other = random.index(runs.len());
    match random.up_to(6) {
        0 => runs[at].end = runs[at].start,
        1 => runs[at] = reversed(runs[at]),
        // A tick before the previous end.
        2 if at > 0 => runs[at].start = runs[at - 1].end.saturating_sub(1),
        // A previous end that is a tick after the start.
        3 if at > 0 => runs[at - 1].end = runs[at].start.saturating_add(1),
        // Somewhere before the previous end.
        4 => runs[at].start = random.up_to(runs[at].start),
        5 => runs.swap(at, other),
        _ => (runs[at].start, runs[at].end) = (random.any(), random.any()),
    }
}

/// A run list for the busy count and the queries, of every length up to beyond the limit: more than half of them in order, the others with one or two
/// runs out of order, or of any content.
pub fn run_list(random: &mut Random) -> Vec<Run> {
    let length = run_count(random);
    if random.once_in(50) {
        // Every run holds all ticks that a run can hold.
        return vec![Run { start: 0, end: u32::MAX, task: random.any() }; length];
    }
    if random.once_in(8) {
        return random_runs(random, length);
    }
    let mut runs = ordered_runs(random, length);
    if random.once_in(3) && length > 0 {
        for _ in 0..random.between(1, 2) {
            disorder(random, &mut runs);
        }
    }
    runs
}

/// A tick to ask a run list for: at a start or an end or beside one, at the ends of the numbers, or any.
pub fn tick(random: &mut Random, runs: &[Run]) -> u32 {
    if runs.is_empty() || random.once_in(8) {
        return random.any();
    }
    let run = runs[random.index(runs.len())];
    match random.up_to(9) {
        0 => random.pick(&[0, 1, u32::MAX - 1, u32::MAX]),
        1 => random.pick(&[runs[0].start, runs[runs.len() - 1].end]),
        2 => random.up_to(runs[runs.len() - 1].end),
        3..=5 => run.start.wrapping_add_signed(random.pick(&[-1, 0, 0, 1])),
        6..=8 => run.end.wrapping_add_signed(random.pick(&[-1, 0, 0, 1])),
        _ => random.between(run.start.min(run.end), run.start.max(run.end)),
    }
}

/// An interval to ask a run list for: its two ends are ticks as above, mostly in order, some equal, some not in order.
pub fn interval(random: &mut Random, runs: &[Run]) -> (u32, u32) {
    let (a, b) = (tick(random, runs), tick(random, runs));
    match random.up_to(9) {
        0 => (a, a),
        1 => (a, a.wrapping_add(1)),
        2..=3 => (a, b),
        _ => (a.min(b), a.max(b)),
    }
}

/// A run list of few runs for looking at every tick: all starts and ends are among so many ticks from a first one on. Most lists are in order.
pub fn short_list(random: &mut Random, first: u32, ticks: u32) -> Vec<Run> {
    let length = random.up_to(7) as usize;
    let mut ends: Vec<u32> = (0..2 * length).map(|_| first + random.up_to(ticks - 1)).collect();
    if random.up_to(3) > 0 {
        ends.sort_unstable();
    }
    let mut runs: Vec<Run> = ends.chunks(2).map(|pair| Run { start: pair[0], end: pair[1], task: random.up_to(3) }).collect();
    if random.up_to(7) > 0 {
        runs.retain(|run| run.start < run.end);
    }
    runs
}
