//! Cases of the calls on weighted tables.

use super::{judge_both, many_runs, plan_both, to_lend, up_to_count, write_both, Lists};
use crate::difference::{hex, same};
use crate::ffi::{self, Planned, WeightedTableRead};
use crate::guarded::Guarded;
use crate::inputs::weighted as inputs;
use crate::inputs::{launch, pack, Judgement};
use crate::random::Random;
use crate::reference::weighted::{self, WeightedTable};
use crate::reference::MAX_TASKS;
use crate::sides::{plan_with, Named, Plan, PLANNERS, REFERENCE_PLANNER, WEIGHTED_JUDGES, WEIGHTED_PLANNERS, WEIGHTED_REFERENCE_PLANNER};
use crate::tally::{Came, Outcome};

/// Reading.
pub fn read(random: &mut Random) -> Outcome {
    let file = inputs::file(random);
    let proved = ffi::weighted_read(Guarded::input(random, &file).list());
    same("reply", &proved, &WeightedTableRead::from(weighted::read(&file)), || hex(&file))?;
    Ok(Came::to(proved.number, "accepted"))
}

/// Writing, and reading what was written.
pub fn write(random: &mut Random) -> Outcome {
    let weighted = match random.up_to(7) {
        0..=2 => inputs::table(random),
        3 => inputs::mixed_table(random),
        _ => inputs::faulty_table(random),
    };
    let count = weighted.table.count as usize;
    let needed = weighted::file_length(count.min(MAX_TASKS));
    let input = || format!("{weighted:?}");
    let (said, written) = write_both(random, needed, |out| ffi::weighted_write(&weighted, out), |out| weighted::write(&weighted, out).into(), input)?;
    if said.number == 0 {
        let mut expected = WeightedTable { table: up_to_count(&weighted.table), ..WeightedTable::ZERO };
        expected.weights[..count].copy_from_slice(weighted.weights());
        same("table read again", &ffi::weighted_read(written.list()), &WeightedTableRead::from(Ok(expected)), input)?;
    }
    Ok(Came::to(said.number, "accepted"))
}

/// Planning.
pub fn plan(random: &mut Random) -> Outcome {
    let file = if random.up_to(3) > 0 { inputs::pack(&inputs::table(random)) } else { inputs::file(random) };
    let said = plan_both(random, &file, &WEIGHTED_PLANNERS, &WEIGHTED_JUDGES)?;
    Ok(Came { apart: weights_decide(&file, said).then_some("a plan that weights decide"), ..plan_came(said) })
}

/// What planning came to.
pub fn plan_came(said: Planned) -> Came {
    Came::to(said.number, if said.discarded > 0 { "some discarded" } else { "all kept" })
}

/// The table of a file was planned, and has another plan without its weights.
fn weights_decide(file: &[u8], said: Planned) -> bool {
    if said.number > 0 || said.discarded == 0 {
        return false;
    }
    let table = weighted::read(file).expect("a file that was planned").table;
    let n = table.count as usize;
    plan_with(REFERENCE_PLANNER.1, &pack(&table), 0, n) != plan_with(WEIGHTED_REFERENCE_PLANNER.1, file, 0, n)
}

/// Judging at the launch tick that the runs were made at, or at another one.
pub fn judge(random: &mut Random) -> Outcome {
    let judgement = inputs::judgement(random);
    judge_both(random, &judgement, &WEIGHTED_JUDGES)
}

/// Judging around the limit of runs.
pub fn judge_long(random: &mut Random) -> Outcome {
    let (table, launch, runs) = many_runs(random);
    let file = inputs::pack(&inputs::with_weights(random, table));
    judge_both(random, &Judgement { file, launch, marks: vec![1], runs }, &WEIGHTED_JUDGES)
}

/// With all weights 1 the plan equals the unweighted one, by the proved library and by the reference.
pub fn ones(random: &mut Random) -> Outcome {
    let sides = [0, 1].map(|side: usize| (PLANNERS[side], WEIGHTED_PLANNERS[side].1));
    ones_by(random, &sides)
}

/// With all weights 1 the plan equals the unweighted one: planners of tables without weights, each beside the one of weighted tables.
fn ones_by(random: &mut Random, sides: &[(Named<Plan>, Plan)]) -> Outcome {
    let table = inputs::nested_table(random);
    let (plain_file, weighted_file) = (pack(&table), inputs::pack(&WeightedTable { table, weights: [1; MAX_TASKS] }));
    let launch = launch(random);
    let (marks, columns) = to_lend(random, table.count as usize);
    let mut came = None;
    for ((name, plain), weighted) in sides {
        let mut lists = Lists::new(random, &marks, &columns);
        let said = lists.proved(weighted, Guarded::input(random, &weighted_file).list(), launch);
        let expected = lists.expected(plain, &plain_file, launch);
        let input = || format!("{name}, with all weights 1 (above) and without weights (below), launch {launch}, {}", hex(&plain_file));
        same("reply", &said, &expected, input)?;
        lists.same("", input)?;
        came = Some(super::plan_came(&plain_file, said));
    }
    came.ok_or("no planner".into())
}

#[cfg(test)]
mod tests {
    use super::*;
    use crate::tally::{Comparison, Tally};

    /// The reference alone, which needs no library.
    #[test]
    fn ones_of_reference() {
        let one = |random: &mut Random| ones_by(random, &[(REFERENCE_PLANNER, WEIGHTED_REFERENCE_PLANNER.1)]);
        let cases = 4_000;
        let tally = Tally::of(&[Comparison { name: "weighted-ones", cases, one }], 0, 0..cases).expect("no difference");
        println!("weighted-ones: {}", tally.words());
    }
}
