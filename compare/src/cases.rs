//! Cases of every call, valid and damaged, long and short: the proved library against the reference, whole replies and the whole content of every lent
//! list. Every list that the proved library gets lies between closed pages. Those of weighted tables are in `weighted`.

pub mod weighted;

use crate::difference::{hex, same, Lent};
use crate::ffi::{self, BusyCount, Checked, Found, Judged, Part, Planned, TableRead, Written};
use crate::guarded::Guarded;
use crate::inputs::{self, lent_length, Judgement};
use crate::random::Random;
use crate::reference::{self, Kind, Run, Table, Task, LAST_FRAME, MAX_LAUNCH};
use crate::sides::{Judge, Named, Plan, JUDGES, PLANNERS};
use crate::tally::{Came, Outcome};

/// A list of bytes of any content.
fn bytes(random: &mut Random, length: usize) -> Lent<u8> {
    let content = random.bytes(length);
    Lent::new(random, content)
}

/// Numbers of any content.
fn words(random: &mut Random, length: usize) -> Vec<u32> {
    (0..length).map(|_| random.word() as u32).collect()
}

/// The records of the first so many places of three columns.
fn of_columns(runs: usize, [starts, ends, tasks]: [&[u32]; 3]) -> Vec<Run> {
    (0..runs).map(|i| Run { start: starts[i], end: ends[i], task: tasks[i] }).collect()
}

/// Reading.
pub fn read(random: &mut Random) -> Outcome {
    let file = inputs::file(random);
    let proved = ffi::read(Guarded::input(random, &file).list());
    let expected = TableRead::from(reference::read(&file));
    same("reply", &proved, &expected, || hex(&file))?;
    Ok(Came::to(proved.number, "accepted"))
}

/// Writing, and reading what was written.
pub fn write(random: &mut Random) -> Outcome {
    let table = match random.up_to(7) {
        0..=3 => inputs::table(random),
        4 => inputs::mixed_table(random),
        _ => inputs::faulty_table(random),
    };
    let needed = reference::file_length((table.count as usize).min(64));
    let input = || format!("{table:?}");
    let (said, written) = write_both(random, needed, |out| ffi::write(&table, out), |out| reference::write(&table, out).into(), input)?;
    if said.number == 0 {
        same("table read again", &ffi::read(written.list()), &TableRead::from(Ok(up_to_count(&table))), input)?;
    }
    Ok(Came::to(said.number, "accepted"))
}

/// Writing by both sides to a list whose length is around the one that is needed: the reply, and the bytes that were written.
fn write_both(
    random: &mut Random,
    needed: usize,
    proved: impl FnOnce(&mut [u8]) -> Written,
    reference: impl FnOnce(&mut [u8]) -> Written,
    input: impl Fn() -> String,
) -> Result<(Written, Guarded<u8>), String> {
    let length = lent_length(random, needed);
    let mut out = bytes(random, length);
    let said = proved(out.proved.list_mut());
    same("reply", &said, &reference(&mut out.expected), &input)?;
    out.same("bytes", input)?;
    Ok((said, Guarded::input(random, &out.expected[..said.bytes])))
}

/// A table that was written and is read again: the same, and 0 at the places beyond the count.
fn up_to_count(table: &Table) -> Table {
    let mut same = Table { count: table.count, p: table.p, q: table.q, ..Table::ZERO };
    same.tasks[..table.count as usize].copy_from_slice(table.tasks());
    same
}

/// A shift near the ends of the range that the table of a file can move in, inside it, or far beyond it.
fn frames(random: &mut Random, file: &[u8]) -> i32 {
    let (lowest, highest) = reference::read(file).map_or((0, 0), |table| {
        let lowest = table.tasks().iter().map(|task| task.release).min().unwrap_or(0);
        let highest = table.tasks().iter().map(|task| task.deadline).max().unwrap_or(0);
        (-(lowest as i32), (LAST_FRAME - highest) as i32)
    });
    match random.up_to(9) {
        0 => random.pick(&[0, 1, -1, i32::MIN, i32::MIN + 1, i32::MAX, i32::MAX - 1, 131_071, -131_071, 131_072, -131_072]),
        1 => random.word() as i32,
        2 => (random.word() as i32) >> random.up_to(31),
        3 => lowest + random.up_to(4) as i32 - 2,
        4 => highest + random.up_to(4) as i32 - 2,
        _ => lowest + random.up_to((highest - lowest) as u32) as i32,
    }
}

/// Moving.
pub fn shift(random: &mut Random) -> Outcome {
    let file = inputs::file(random);
    let frames = frames(random, &file);
    let length = lent_length(random, file.len());
    let mut out = bytes(random, length);
    let proved = ffi::shift(Guarded::input(random, &file).list(), frames, out.proved.list_mut());
    let expected = Written::from(reference::shift(&file, frames, &mut out.expected));
    let input = || format!("by {frames}, {}", hex(&file));
    same("reply", &proved, &expected, input)?;
    out.same("bytes", input)?;
    Ok(Came::to(proved.number, "accepted"))
}

/// The lists that a plan is written to.
struct Lists {
    marks: Lent<u8>,
    columns: [Lent<u32>; 3],
}

impl Lists {
    /// Lists of this content.
    fn new(random: &mut Random, marks: &[u8], columns: &[Vec<u32>; 3]) -> Lists {
        Lists { marks: Lent::new(random, marks.to_vec()), columns: columns.clone().map(|column| Lent::new(random, column)) }
    }

    /// The plan of the proved library.
    fn proved(&mut self, plan: Plan, file: &[u8], launch: u32) -> Planned {
        let [starts, ends, tasks] = &mut self.columns;
        plan(file, launch, self.marks.proved.list_mut(), starts.proved.list_mut(), ends.proved.list_mut(), tasks.proved.list_mut())
    }

    /// The plan of the reference.
    fn expected(&mut self, plan: Plan, file: &[u8], launch: u32) -> Planned {
        let [starts, ends, tasks] = &mut self.columns;
        plan(file, launch, &mut self.marks.expected, &mut starts.expected, &mut ends.expected, &mut tasks.expected)
    }

    /// An error where the lists differ.
    fn same(&self, when: &str, input: impl Fn() -> String) -> Result<(), String> {
        self.marks.same(&format!("marks{when}"), &input)?;
        for (name, column) in ["starts", "ends", "tasks"].iter().zip(&self.columns) {
            column.same(&format!("{name}{when}"), &input)?;
        }
        Ok(())
    }
}

/// Marks and columns of any content to lend for the plan of n tasks: just long enough, or of lengths around that.
fn to_lend(random: &mut Random, n: usize) -> (Vec<u8>, [Vec<u32>; 3]) {
    let exact = random.up_to(3) > 0;
    let mut length = |needed: usize| if exact { needed } else { lent_length(random, needed) };
    let lengths = [length(n), length(2 * n - 1), length(2 * n - 1), length(2 * n - 1)];
    let marks = random.bytes(lengths[0]);
    let columns = [lengths[1], lengths[2], lengths[3]].map(|length| words(random, length));
    (marks, columns)
}

/// Planning.
pub fn plan(random: &mut Random) -> Outcome {
    let file = if random.up_to(3) > 0 { inputs::pack(&inputs::table(random)) } else { inputs::file(random) };
    let said = plan_both(random, &file, &PLANNERS, &JUDGES)?;
    Ok(plan_came(&file, said))
}

/// Planning of a file at a launch tick by both sides, judging what it gives, and planning at launch 0: the reply.
fn plan_both(random: &mut Random, file: &[u8], planners: &[Named<Plan>; 2], judges: &[Named<Judge>; 2]) -> Result<Planned, String> {
    let ([(_, library), (_, reference)], (_, judge)) = (*planners, judges[0]);
    let launch = inputs::launch(random);
    let n = (file.first().map_or(1, |byte| byte >> 1) as usize).clamp(1, 64);
    let (marks, columns) = to_lend(random, n);
    let mut lists = Lists::new(random, &marks, &columns);
    let held = Guarded::input(random, file);
    let proved = lists.proved(library, held.list(), launch);
    let expected = lists.expected(reference, file, launch);
    let input = || format!("launch {launch}, {}", hex(file));
    same("reply", &proved, &expected, input)?;
    lists.same("", input)?;
    if proved.number == 0 {
        let runs = of_columns(proved.runs, [0, 1, 2].map(|k: usize| lists.columns[k].proved.list()));
        let runs = Guarded::input(random, &runs);
        let said = judge(held.list(), launch, &lists.marks.proved.list()[..n], runs.list());
        let owed = Judged { number: 0, place: 0, yes: true, kept: proved.kept, discarded: proved.discarded };
        same("judge of the plan", &said, &owed, input)?;
        same("check of the plan's runs", &ffi::check_runs(runs.list()), &Checked { number: 0, place: 0 }, input)?;
    }
    if (1..=MAX_LAUNCH).contains(&launch) {
        // With launch 0 the reply, the marks and the tasks are the same, and each run lies earlier by the launch tick.
        let mut at_0 = Lists::new(random, &marks, &columns);
        let proved_0 = at_0.proved(library, held.list(), 0);
        same("reply at the launch tick and at 0", &proved, &proved_0, input)?;
        at_0.marks.expected = lists.marks.expected;
        for ((k, at_0), column) in at_0.columns.iter_mut().enumerate().zip(&lists.columns) {
            at_0.expected.clone_from(&column.expected);
            if k < 2 {
                at_0.expected[..proved_0.runs].iter_mut().for_each(|tick| *tick -= launch);
            }
        }
        at_0.same(" at 0 and at the launch tick", input)?;
    }
    Ok(proved)
}

/// What planning of a file came to.
pub fn plan_came(file: &[u8], said: Planned) -> Came {
    let Ok(table) = reference::read(file) else {
        return Came::to(said.number, "");
    };
    let similar = reference::check_windows(table.tasks()) == Ok(Kind::Similar);
    let to = match (similar, said.discarded > 0) {
        (false, false) => "nested, all kept",
        (false, true) => "nested, some discarded",
        (true, false) => "similar, all kept",
        (true, true) => "similar, some discarded",
    };
    let empty = table.tasks().iter().any(|task| table.clock(0).ticks(task) == 0);
    Came { apart: empty.then_some("an empty window"), ..Came::to(said.number, to) }
}

/// Judging at the launch tick that the runs were made at, or at another one.
pub fn judge(random: &mut Random) -> Outcome {
    let judgement = inputs::judgement(random);
    judge_both(random, &judgement, &JUDGES)
}

/// Judging around the limit of runs.
pub fn judge_long(random: &mut Random) -> Outcome {
    let (table, launch, runs) = many_runs(random);
    judge_both(random, &Judgement { file: inputs::pack(&table), launch, marks: vec![1], runs }, &JUDGES)
}

/// One task whose ticks are all runs of their own, about as many as the judge accepts, at a launch tick.
fn many_runs(random: &mut Random) -> (Table, u32, Vec<Run>) {
    let length = random.between(4090, 4100);
    let mut table = Table { count: 1, p: 1, q: 1, ..Table::ZERO };
    table.tasks[0] = Task { release: 0, deadline: 2 * length + 1, mandatory: length, optional: 0 };
    let launch = inputs::launch(random);
    let mut runs: Vec<Run> = (0..length)
        .map(|i| {
            let start = launch.min(MAX_LAUNCH) + 1 + 2 * i + random.up_to(1);
            Run { start, end: start + 1, task: 0 }
        })
        .collect();
    if random.once_in(3) {
        let at = random.index(length as usize);
        runs[at].end += random.up_to(2);
    }
    (table, launch, runs)
}

/// Judging by both sides.
fn judge_both(random: &mut Random, Judgement { file, launch, marks, runs }: &Judgement, judges: &[Named<Judge>; 2]) -> Outcome {
    let [(_, library), (_, reference)] = *judges;
    let (held, list, lent) = (Guarded::input(random, file), Guarded::input(random, marks), Guarded::input(random, runs));
    let proved = library(held.list(), *launch, list.list(), lent.list());
    let expected = reference(file, *launch, marks, runs);
    same("reply", &proved, &expected, || format!("launch {launch}, marks {marks:?}, {runs:?}, {}", hex(file)))?;
    Ok(Came::to(proved.number, if proved.yes { "yes" } else { "no" }))
}

/// The busy count.
pub fn busy(random: &mut Random) -> Outcome {
    let runs = inputs::run_list(random);
    let (a, b) = inputs::interval(random, &runs);
    let proved = ffi::busy(Guarded::input(random, &runs).list(), a, b);
    let expected = BusyCount::from(reference::busy(&runs, a, b));
    same("reply", &proved, &expected, || format!("from {a} to {b}, {runs:?}"))?;
    Ok(Came::to(proved.number, "accepted"))
}

/// The check of a run list and the three queries.
pub fn queries(random: &mut Random) -> Outcome {
    let runs = inputs::run_list(random);
    let (at, from) = (inputs::tick(random, &runs), inputs::tick(random, &runs));
    let (a, b) = inputs::interval(random, &runs);
    let lent = Guarded::input(random, &runs);
    let list = lent.list();
    let checked = ffi::check_runs(list);
    same("check", &checked, &Checked::from(reference::check_runs(&runs)), || format!("{runs:?}"))?;
    let found = ffi::run_at(list, at);
    same("run at a tick", &found, &Found::from(reference::run_at(&runs, at)), || format!("at {at}, {runs:?}"))?;
    let next = ffi::run_from(list, from);
    same("first run from a tick on", &next, &Found::from(reference::run_from(&runs, from)), || format!("from {from}, {runs:?}"))?;
    let part = ffi::runs_touching(list, a, b);
    same("runs touching an interval", &part, &Part::from(reference::runs_touching(&runs, a, b)), || format!("from {a} to {b}, {runs:?}"))?;
    // An empty stretch has no first run, and one that is not empty is inside the list.
    if part.runs == 0 && part.first != 0 || part.first + part.runs > runs.len() {
        return Err(format!("runs touching an interval\n  proved library: {part:?}\n  from {a} to {b}, {runs:?}"));
    }
    let to = if found.found { "a run at the tick" } else { "no run at the tick" };
    let none = checked.number == 0 && part.runs == 0;
    Ok(Came { apart: none.then_some("an interval that no run touches"), ..Came::to(checked.number, to) })
}
