//! The best plan of a small table, by trying every keep list, and the answers of a short run list, by looking at every tick. Nothing is shared with
//! the reference but the types of tables, task and run: ticks are counted here, a table's kind is looked up pair by pair for every cut, fitting is
//! added up as the rules say, work is placed tick by tick, and whether a keep list has any running is found by matching ticks to tasks, which knows
//! nothing of kinds, orders and deadlines that come first. Of the smallest weighted tables every way of giving ticks to tasks is tried. Of a run list
//! every tick is written down with the runs that hold it, and the answers are read from that.

use crate::reference::weighted::WeightedTable;
use crate::reference::{Run, Table, Task};
use std::ops::Range;

/// The last tick of a day.
const LAST_OF_DAY: u32 = 24 * 60 * 60 * 1000 - 1;

/// What the rules of the planner give for a table.
#[derive(Clone, Debug, PartialEq, Eq)]
pub struct Best {
    pub marks: Vec<u8>,
    pub kept: u32,
    pub discarded: u32,
    /// (start, end, task), by start.
    pub runs: Vec<(u32, u32, u32)>,
}

/// A plan, or the number and the place of the refusal: 7, 14 or 8.
pub type Answer = Result<Best, (u32, usize)>;

/// A task in ticks.
struct Job {
    position: usize,
    release: u32,
    deadline: u32,
    mandatory: u32,
    optional: u32,
}

impl Job {
    /// The mandatory ticks, and the optional ones where the mark is 1.
    fn work(&self, marks: &[u8]) -> u32 {
        self.mandatory + if marks[self.position] == 1 { self.optional } else { 0 }
    }
}

/// Every two tasks, taken in both ways, meet a condition.
fn every_two(tasks: &[Task], meet: fn(&Task, &Task) -> bool) -> bool {
    tasks.iter().all(|a| tasks.iter().all(|b| meet(a, b)))
}

/// Of any two windows one contains the other, in frames: neither begins and ends before the other does.
fn is_nested(tasks: &[Task]) -> bool {
    every_two(tasks, |a, b| !(a.release < b.release && a.deadline < b.deadline))
}

/// Of any two tasks the one released earlier has no later deadline, in frames.
fn is_similar(tasks: &[Task]) -> bool {
    every_two(tasks, |a, b| !(a.release < b.release && a.deadline > b.deadline))
}

/// The first position such that the tasks up to and with it are of neither kind.
fn first_of_neither(tasks: &[Task]) -> Option<usize> {
    (0..tasks.len()).find(|&k| !is_nested(&tasks[..=k]) && !is_similar(&tasks[..=k]))
}

/// The first position whose window is not nested with some earlier one.
fn first_crossing(tasks: &[Task]) -> Option<usize> {
    (0..tasks.len()).find(|&k| tasks[..k].iter().any(|&earlier| !is_nested(&[earlier, tasks[k]])))
}

/// The first task in nest order whose work and that of all before it come to more than the ticks of its window.
fn first_exceeding(jobs: &[Job], marks: &[u8]) -> Option<usize> {
    (0..jobs.len()).find(|&i| {
        let work: u32 = jobs[..=i].iter().map(|job| job.work(marks)).sum();
        work > jobs[i].deadline.saturating_sub(jobs[i].release)
    })
}

/// The task that has each tick, if one has it, from a first tick on. That is the first release: no window has an earlier tick.
struct Holders {
    first: u32,
    holders: Vec<Option<usize>>,
}

impl Holders {
    /// No ticks yet.
    fn none(jobs: &[Job]) -> Holders {
        Holders { first: jobs.iter().map(|job| job.release).min().unwrap_or(0), holders: Vec::new() }
    }

    /// The ticks up to the last deadline, all of them free.
    fn free(jobs: &[Job]) -> Holders {
        let Holders { first, .. } = Holders::none(jobs);
        let last = jobs.iter().map(|job| job.deadline).max().unwrap_or(0);
        Holders { first, holders: vec![None; last.saturating_sub(first) as usize] }
    }

    /// The tick behind the last one.
    fn next(&self) -> u32 {
        self.first + self.holders.len() as u32
    }

    /// The place of a tick.
    fn at(&mut self, tick: u32) -> &mut Option<usize> {
        &mut self.holders[(tick - self.first) as usize]
    }

    /// The ticks, each with the task that has it, if one has it.
    fn ticks(&self) -> impl Iterator<Item = (u32, Option<usize>)> + '_ {
        (self.first..).zip(self.holders.iter().copied())
    }
}

/// Who has each tick where every task in similar order runs as early as it can: a tick goes to the first task that has work left, if it is released.
/// The ticks go on until all work is done.
fn in_sequence(jobs: &[Job], marks: &[u8]) -> Holders {
    let mut missing: Vec<u32> = jobs.iter().map(|job| job.work(marks)).collect();
    let mut ticks = Holders::none(jobs);
    while let Some(i) = missing.iter().position(|&ticks| ticks > 0) {
        let released = jobs[i].release <= ticks.next();
        ticks.holders.push(released.then_some(i));
        missing[i] -= u32::from(released);
    }
    ticks
}

/// The first task in similar order that has a tick at or after its deadline.
fn first_late(jobs: &[Job], marks: &[u8]) -> Option<usize> {
    let ticks = in_sequence(jobs, marks);
    (0..jobs.len()).find(|&i| ticks.ticks().any(|(tick, holder)| tick >= jobs[i].deadline && holder == Some(i)))
}

/// Who has each tick where every task in nest order takes the latest free ticks of its window. The list fits.
fn in_nest(jobs: &[Job], marks: &[u8]) -> Holders {
    let mut ticks = Holders::free(jobs);
    for (i, job) in jobs.iter().enumerate() {
        let mut work = job.work(marks);
        for tick in (job.release..job.deadline).rev() {
            if work > 0 && ticks.at(tick).is_none() {
                *ticks.at(tick) = Some(i);
                work -= 1;
            }
        }
        assert_eq!(work, 0, "a list that fits has no place");
    }
    ticks
}

/// Some running gives each task its work. The ticks are matched to the tasks, one tick of work after another: where no tick of the window is free, the
/// task takes one from a task that can have another instead, over any number of tasks. Where that fails, the works can't all be matched.
fn has_running(jobs: &[Job], marks: &[u8]) -> bool {
    let mut ticks = Holders::free(jobs);
    jobs.iter().enumerate().all(|(i, job)| (0..job.work(marks)).all(|_| get_tick(jobs, &mut ticks, &mut vec![false; jobs.len()], i)))
}

/// Gives one tick more to a task, and moves others to other ticks where that is needed. Tasks that were asked before are not asked again. Where the answer
/// is no, nothing has moved.
fn get_tick(jobs: &[Job], ticks: &mut Holders, asked: &mut [bool], i: usize) -> bool {
    asked[i] = true;
    let window = jobs[i].release..jobs[i].deadline;
    if let Some(tick) = window.clone().find(|&tick| ticks.at(tick).is_none()) {
        *ticks.at(tick) = Some(i);
        return true;
    }
    for tick in window {
        if let Some(other) = *ticks.at(tick) {
            if !asked[other] && get_tick(jobs, ticks, asked, other) {
                *ticks.at(tick) = Some(i);
                return true;
            }
        }
    }
    false
}

/// The runs: the longest stretches of one task.
fn stretches(jobs: &[Job], ticks: &Holders) -> Vec<(u32, u32, u32)> {
    let mut runs: Vec<(u32, u32, u32)> = Vec::new();
    for (tick, holder) in ticks.ticks() {
        let Some(i) = holder else { continue };
        let task = jobs[i].position as u32;
        match runs.last_mut() {
            Some(run) if run.1 == tick && run.2 == task => run.1 = tick + 1,
            _ => runs.push((tick, tick + 1, task)),
        }
    }
    runs
}

/// The tasks in ticks at a launch tick, in the order of the table's kind: a stable sort keeps the lower position first among equals.
fn in_order(table: &Table, launch: u32, nested: bool) -> Vec<Job> {
    // The whole ticks of so many frames. A release waits for the frame to end, and where that is not on a tick, for the next one.
    let whole = |frames: u32| launch + frames * table.p / table.q;
    let waits = |frames: u32| u32::from(!(frames * table.p).is_multiple_of(table.q));
    let mut positions: Vec<usize> = (0..table.count as usize).collect();
    if nested {
        positions.sort_by_key(|&k| table.tasks[k].deadline - table.tasks[k].release);
    } else {
        positions.sort_by_key(|&k| table.tasks[k].deadline);
        positions.sort_by_key(|&k| table.tasks[k].release);
    }
    let job = |position: usize| {
        let task = table.tasks[position];
        let arrived = task.release + 1;
        Job { position, release: whole(arrived) + waits(arrived), deadline: whole(task.deadline), mandatory: task.mandatory, optional: task.optional }
    };
    positions.into_iter().map(job).collect()
}

/// What planning at a launch tick owes a table of which no window is bad. An error says where the rules contradict one another.
pub fn best(table: &Table, launch: u32) -> Result<Answer, String> {
    match first_of_neither(table.tasks()) {
        Some(k) => Ok(Err((7, k))),
        None => best_of_kind(table, is_nested(table.tasks()), &vec![1; table.count as usize], launch),
    }
}

/// The same of a weighted table of which no window and no weight is bad.
pub fn best_weighted(weighted: &WeightedTable, launch: u32) -> Result<Answer, String> {
    match first_crossing(weighted.table.tasks()) {
        Some(k) => Ok(Err((7, k))),
        None => best_of_kind(&weighted.table, true, &weighted.weights, launch),
    }
}

/// What planning owes a table of a kind whose parts have these weights, by position.
fn best_of_kind(table: &Table, nested: bool, weights: &[u32], launch: u32) -> Result<Answer, String> {
    if launch > LAST_OF_DAY {
        return Ok(Err((14, 0)));
    }
    let jobs = in_order(table, launch, nested);
    let first_unmet = if nested { first_exceeding } else { first_late };
    let n = jobs.len();

    let nothing = vec![0; n];
    let unmet = first_unmet(&jobs, &nothing);
    if unmet.is_none() != has_running(&jobs, &nothing) {
        return Err("refusal 8 and the runnings of the mandatory parts".into());
    }
    if let Some(i) = unmet {
        // The mandatory parts of the tasks before it can be met, those up to and with it can't.
        if !has_running(&jobs[..i], &nothing) || has_running(&jobs[..=i], &nothing) {
            return Err("the place of refusal 8 and the runnings of the mandatory parts up to it".into());
        }
        return Ok(Err((8, jobs[i].position)));
    }

    // A list is better if it discards less weight, then, where the windows are nested, if its kept total is less, then if it keeps at the last task in
    // order where they differ.
    type Rank = (u32, u32, Vec<bool>);
    let mut best: Option<(Rank, Vec<u8>)> = None;
    let mut least_of_runnings = u32::MAX;
    for set in 0..1u32 << n {
        let marks: Vec<u8> = (0..n).map(|k| (set >> k & 1) as u8).collect();
        if jobs.iter().any(|job| job.optional == 0 && marks[job.position] == 0) {
            continue;
        }
        let discarded: u32 = marks.iter().zip(weights).filter(|(&mark, _)| mark == 0).map(|(_, weight)| weight).sum();
        let running = has_running(&jobs, &marks);
        if running {
            least_of_runnings = least_of_runnings.min(discarded);
        }
        if first_unmet(&jobs, &marks).is_none() != running {
            return Err(format!("fitting and having a running, for the marks {marks:?}"));
        }
        if !running {
            continue;
        }
        let total: u32 = jobs.iter().filter(|job| marks[job.position] == 1).map(|job| job.optional).sum();
        let dropped_last_first = jobs.iter().rev().map(|job| marks[job.position] == 0).collect();
        let rank = (discarded, if nested { total } else { 0 }, dropped_last_first);
        if best.as_ref().is_none_or(|(least, _)| rank < *least) {
            best = Some((rank, marks));
        }
    }
    let Some(((least, _, _), marks)) = best else {
        return Err("no list fits though the mandatory parts do".into());
    };
    if least != least_of_runnings {
        return Err("the least weight that a list discards and that a running discards".into());
    }
    let discarded = marks.iter().filter(|&&mark| mark == 0).count() as u32;
    let kept = jobs.iter().filter(|job| job.optional > 0 && marks[job.position] == 1).count() as u32;
    let ticks = if nested { in_nest(&jobs, &marks) } else { in_sequence(&jobs, &marks) };
    Ok(Ok(Best { marks, kept, discarded, runs: stretches(&jobs, &ticks) }))
}

/// What all runnings of a table come to.
#[derive(Clone, Copy, Debug, PartialEq, Eq)]
pub enum Runnings {
    /// There are too many ways of giving ticks to tasks to try them all.
    TooMany,
    /// No way completes all mandatory parts.
    None,
    /// The least weight that one of them discards.
    Discard(u32),
}

/// How many ways of giving ticks to tasks are tried at most.
const MOST_WAYS: usize = 5_000;

/// The least weight that a running of a weighted table at a launch tick discards, by trying every way of giving each tick to a task or to none.
pub fn runnings(weighted: &WeightedTable, launch: u32) -> Runnings {
    let jobs = in_order(&weighted.table, launch, true);
    let ticks = Holders::free(&jobs);
    let takers = |tick: u32| jobs.iter().filter(|job| (job.release..job.deadline).contains(&tick)).count();
    let ways = ticks.ticks().fold(1, |ways: usize, (tick, _)| ways.saturating_mul(1 + takers(tick)));
    if ways > MOST_WAYS {
        return Runnings::TooMany;
    }
    match least_discarded(&jobs, &weighted.weights, ticks.first..ticks.next(), &mut vec![0; jobs.len()]) {
        Some(weight) => Runnings::Discard(weight),
        None => Runnings::None,
    }
}

/// The least weight that is discarded over all ways of giving these ticks, where the tasks got so many before them.
fn least_discarded(jobs: &[Job], weights: &[u32], mut ticks: Range<u32>, got: &mut [u32]) -> Option<u32> {
    let Some(tick) = ticks.next() else {
        return discarded(jobs, weights, got);
    };
    let mut least = least_discarded(jobs, weights, ticks.clone(), got);
    for (i, job) in jobs.iter().enumerate() {
        if (job.release..job.deadline).contains(&tick) {
            got[i] += 1;
            least = [least, least_discarded(jobs, weights, ticks.clone(), got)].into_iter().flatten().min();
            got[i] -= 1;
        }
    }
    least
}

/// The weight of the parts that a running discards which gives the tasks so many ticks; none where it is no running.
fn discarded(jobs: &[Job], weights: &[u32], got: &[u32]) -> Option<u32> {
    let of_job = |(job, &got): (&Job, &u32)| match got {
        _ if got == job.mandatory + job.optional => Some(0),
        _ if got == job.mandatory => Some(weights[job.position]),
        _ => None,
    };
    jobs.iter().zip(got).map(of_job).sum()
}

/// The ticks of a small range, each with the indices of the runs that hold it. No run has a tick outside of the range.
pub struct Board<'a> {
    runs: &'a [Run],
    first: u32,
    holders: Vec<Vec<usize>>,
}

impl<'a> Board<'a> {
    /// The board of a run list with so many ticks from a first one on. Ticks are counted in 64 bits, so that a range may reach the greatest number.
    pub fn new(runs: &'a [Run], first: u32, ticks: usize) -> Board<'a> {
        let holders = (0..ticks as u64)
            .map(|i| {
                let tick = u64::from(first) + i;
                (0..runs.len()).filter(|&k| (u64::from(runs[k].start)..u64::from(runs[k].end)).contains(&tick)).collect()
            })
            .collect();
        Board { runs, first, holders }
    }

    /// The ticks of the board.
    pub fn ticks(&self) -> impl Iterator<Item = u32> + '_ {
        (0..self.holders.len()).map(|i| self.first + i as u32)
    }

    /// The places on the board of the ticks from a to b.
    fn places(&self, a: u32, b: u32) -> impl Iterator<Item = usize> + '_ {
        (0..self.holders.len()).filter(move |&i| (a..b).contains(&(self.first + i as u32)))
    }

    /// The places on the board of the ticks that a run holds.
    fn held(&self, k: usize) -> Vec<usize> {
        (0..self.holders.len()).filter(|&i| self.holders[i].contains(&k)).collect()
    }

    /// The first run that holds no tick, or holds one that is not after all ticks of the run listed before it.
    pub fn first_fault(&self) -> Option<usize> {
        (0..self.runs.len()).find(|&k| {
            let own = self.held(k);
            let before = if k > 0 { self.held(k - 1) } else { vec![] };
            own.is_empty() || own.iter().any(|tick| before.iter().any(|earlier| tick <= earlier))
        })
    }

    /// The run that holds a tick, of a list without a fault.
    pub fn run_at(&self, tick: u32) -> Option<Run> {
        let at = self.ticks().position(|known| known == tick)?;
        assert!(self.holders[at].len() <= 1, "a tick has one run at most");
        self.holders[at].first().map(|&k| self.runs[k])
    }

    /// The first run that starts at a tick or after it, of a list without a fault: from there on the first run that holds a tick and not the one
    /// before that tick. No run holds a tick before the board.
    pub fn run_from(&self, tick: u32) -> Option<Run> {
        let starting = |i: usize| self.holders[i].iter().find(|k| i == 0 || !self.holders[i - 1].contains(k));
        let at = (0..self.holders.len()).find(|&i| self.first + i as u32 >= tick && starting(i).is_some())?;
        starting(at).map(|&k| self.runs[k])
    }

    /// The first index and the number of the runs that hold some tick from a to b, of a list without a fault; both are 0 where there is none. The
    /// indices go up by one.
    pub fn touching(&self, a: u32, b: u32) -> (usize, usize) {
        let mut found: Vec<usize> = self.places(a, b).flat_map(|i| self.holders[i].iter().copied()).collect();
        found.dedup();
        assert!(found.windows(2).all(|pair| pair[0] + 1 == pair[1]), "the runs are one stretch of the list");
        (found.first().copied().unwrap_or(0), found.len())
    }

    /// The busy count from a to b, of a list without a fault: how many ticks some run holds.
    pub fn busy(&self, a: u32, b: u32) -> u64 {
        self.places(a, b).filter(|&i| !self.holders[i].is_empty()).count() as u64
    }
}
