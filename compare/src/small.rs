//! Small inputs, for which brute force tells what is right: both sides against it.

use crate::brute::{self, Answer, Board, Runnings};
use crate::cases::{plan_came, weighted};
use crate::difference::{hex, same};
use crate::ffi::{BusyCount, Checked, Found, Part, Planned};
use crate::inputs::{self, Load, Shape};
use crate::random::Random;
use crate::reference::{Run, Table};
use crate::sides::{plan_with, Named, Plan, PLANNERS, RUN_LISTS, WEIGHTED_PLANNERS};
use crate::tally::{Came, Outcome};

/// A small table of so many tasks at most, with few ticks: of one of the shapes, or of neither kind.
fn small_table(random: &mut Random, most: u32, shapes: &[Shape]) -> Table {
    loop {
        let n = random.between(1, most) as usize;
        let q = random.between(1, 4);
        let p = random.between(q, 3 * q);
        let shape = random.pick(shapes);
        let load = random.pick(&[Load::Tight, Load::Few, Load::Few, Load::Any]);
        let mut table = inputs::shaped_table(random, n, (p, q), shape, load);
        if random.once_in(8) {
            inputs::set_against(random, &mut table);
        }
        let lowest = table.tasks().iter().map(|task| task.release).min().unwrap_or(0);
        let to = random.up_to(4);
        for task in &mut table.tasks[..n] {
            task.release -= lowest - to.min(lowest);
            task.deadline -= lowest - to.min(lowest);
            if load == Load::Any {
                task.mandatory %= 6;
                task.optional %= 6;
            }
        }
        let clock = table.clock(0);
        let last = table.tasks().iter().map(|task| clock.deadline(task.deadline)).max().unwrap_or(0);
        if table.tasks().iter().all(|task| clock.ticks(task) <= 60) && last <= 200 {
            return table;
        }
    }
}

/// The planner, the reference and brute force over all keep lists.
pub fn plan(random: &mut Random) -> Outcome {
    plan_by(random, &PLANNERS)
}

/// Planners and brute force over all keep lists.
fn plan_by(random: &mut Random, planners: &[Named<Plan>]) -> Outcome {
    let table = small_table(random, 8, &[Shape::Nested, Shape::Similar, Shape::Similar, Shape::Both]);
    let launch = inputs::launch(random);
    let file = inputs::pack(&table);
    let (said, _) = plan_as(planners, &file, launch, table.count as usize, brute::best(&table, launch))?;
    Ok(plan_came(&file, said))
}

/// The planner, the reference and brute force over all keep lists of a weighted table, and over all runnings of the smallest.
pub fn weighted_plan(random: &mut Random) -> Outcome {
    weighted_plan_by(random, &WEIGHTED_PLANNERS)
}

/// Planners and brute force over all keep lists of a weighted table, and over all runnings of the smallest.
fn weighted_plan_by(random: &mut Random, planners: &[Named<Plan>]) -> Outcome {
    let most = random.pick(&[3, 8]);
    let table = small_table(random, most, &[Shape::Nested, Shape::Nested, Shape::Nested, Shape::Both]);
    let weighted = inputs::weighted::with_weights(random, table);
    let launch = inputs::launch(random);
    let file = inputs::weighted::pack(&weighted);
    let (said, marks) = plan_as(planners, &file, launch, table.count as usize, brute::best_weighted(&weighted, launch))?;
    let came = weighted::plan_came(said);
    if said.number != 0 && said.number != 8 {
        return Ok(came);
    }
    let found = brute::runnings(&weighted, launch);
    if found == Runnings::TooMany {
        return Ok(came);
    }
    // The weight that the planner discards is taken from its keep list. A part of 0 ticks weighs nothing.
    let is_discarded = |&k: &usize| table.tasks[k].optional > 0 && marks[k] == 0;
    let discarded = (0..marks.len()).filter(is_discarded).map(|k| weighted.weights[k]).sum();
    let owed = if said.number == 0 { Runnings::Discard(discarded) } else { Runnings::None };
    same("plan (above) and all runnings (below)", &owed, &found, || format!("launch {launch}, {}", hex(&file)))?;
    Ok(Came { apart: Some("all runnings tried"), ..came })
}

/// Planning by planners, all of them as brute force says: the reply and the marks.
fn plan_as(planners: &[Named<Plan>], file: &[u8], launch: u32, n: usize, best: Result<Answer, String>) -> Result<(Planned, Vec<u8>), String> {
    let input = || format!("launch {launch}, {}", hex(file));
    let best = best.map_err(|what| format!("brute force: the rules differ about {what}\n  {}", input()))?;
    let (marks, runs, expected) = match best {
        Ok(best) => {
            let said = Planned { number: 0, place: 0, kept: best.kept, discarded: best.discarded, runs: best.runs.len() };
            (best.marks, best.runs, said)
        }
        Err((number, place)) => (vec![9; n], vec![], Planned { number, place, kept: 0, discarded: 0, runs: 0 }),
    };
    for (name, plan) in planners {
        let (said, got_marks, got_runs) = plan_with(plan, file, launch, n);
        if (said, &got_marks, &got_runs) != (expected, &marks, &runs) {
            return Err(format!(
                "{name} and brute force\n  {name}: {said:?} {got_marks:?} {got_runs:?}\n  brute force: {expected:?} {marks:?} {runs:?}\n  {}",
                input()
            ));
        }
    }
    Ok((expected, marks))
}

/// The ticks that short run lists lie in.
const FEW_TICKS: u32 = 20;

/// The queries, the busy count and brute force over all ticks and all intervals of a small range.
pub fn queries(random: &mut Random) -> Outcome {
    let first = match random.up_to(3) {
        0..=1 => 0,
        2 => u32::MAX - (FEW_TICKS - 1),
        _ => random.up_to(u32::MAX - FEW_TICKS),
    };
    let runs = inputs::short_list(random, first, FEW_TICKS);
    let board = Board::new(&runs, first, FEW_TICKS as usize);
    let fault = board.first_fault();
    // On a refusal every part of a reply but these two is 0. The board is asked where there is none.
    let (number, place) = fault.map_or((0, 0), |k| (15, k));
    let found = |answer: &dyn Fn() -> Option<Run>| {
        let run = if fault.is_none() { answer() } else { None };
        Found { number, place, found: run.is_some(), run: run.unwrap_or_default() }
    };
    for (name, library) in RUN_LISTS {
        let what = |call: &str| format!("{call}, {name} and brute force");
        same(&what("check"), &(library.check)(&runs), &Checked { number, place }, || format!("{runs:?}"))?;
        for tick in board.ticks() {
            let input = || format!("tick {tick}, {runs:?}");
            same(&what("run at a tick"), &(library.at)(&runs, tick), &found(&|| board.run_at(tick)), input)?;
            same(&what("first run from a tick on"), &(library.from)(&runs, tick), &found(&|| board.run_from(tick)), input)?;
        }
        for (a, b) in board.ticks().flat_map(|a| board.ticks().map(move |b| (a, b))) {
            let input = || format!("from {a} to {b}, {runs:?}");
            let (first, count) = if fault.is_none() { board.touching(a, b) } else { (0, 0) };
            same(&what("runs touching an interval"), &(library.touching)(&runs, a, b), &Part { first, runs: count }, input)?;
            let busy = BusyCount { number, place, ticks: if fault.is_none() { board.busy(a, b) } else { 0 } };
            same(&what("busy count"), &(library.busy)(&runs, a, b), &busy, input)?;
        }
    }
    Ok(Came::to(number, "accepted"))
}

#[cfg(test)]
mod tests {
    use super::*;
    use crate::sides::{REFERENCE_PLANNER, WEIGHTED_REFERENCE_PLANNER};
    use crate::tally::{Comparison, Tally};

    // The reference and brute force alone: these need no library.

    /// Tables without weights.
    #[test]
    fn plans_of_reference() {
        all("brute", |random| plan_by(random, &[REFERENCE_PLANNER]));
    }

    /// Weighted tables.
    #[test]
    fn weighted_plans_of_reference() {
        all("brute-weighted", |random| weighted_plan_by(random, &[WEIGHTED_REFERENCE_PLANNER]));
    }

    /// Many cases without a difference.
    fn all(name: &'static str, one: fn(&mut Random) -> Outcome) {
        let cases = 4_000;
        let tally = Tally::of(&[Comparison { name, cases, one }], 0, 0..cases).expect("no difference");
        println!("{name}: {}", tally.words());
    }
}
