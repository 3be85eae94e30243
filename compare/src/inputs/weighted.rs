//! Weighted tables and files made at random: valid ones, and ones that are damaged.

use super::{file_of, judgement_of, pack_with, period, shaped_table, spoil, task_count, Judgement, Load, Shape, Sort};
use crate::random::Random;
use crate::reference::weighted::{self, WeightedTable, MAX_WEIGHT};
use crate::reference::{Table, MAX_TASKS};

const SHAPES: [Shape; 4] = [Shape::Nested, Shape::Nested, Shape::Nested, Shape::Both];
const LOADS: [Load; 10] =
    [Load::Crowded, Load::Crowded, Load::Crowded, Load::Crowded, Load::Tight, Load::Few, Load::Few, Load::Loose, Load::Large, Load::Any];

/// Least and greatest weights of a table.
const RANGES: [(u32, u32); 8] = [(1, 1), (1, 2), (1, 3), (2, 4), (14, MAX_WEIGHT), (MAX_WEIGHT, MAX_WEIGHT), (1, MAX_WEIGHT), (1, MAX_WEIGHT)];

/// Weights that are not legal. The low bits of the last ones are.
const BAD_WEIGHTS: [u32; 8] = [0, 0, MAX_WEIGHT + 1, MAX_WEIGHT + 2, (1 << 8) + 1, (1 << 16) + 2, (1 << 31) + 3, u32::MAX];

/// Legal weights for a table: of some range, 1 and 15 alone, or longer parts heavier, about as much as they are longer. The places beyond the count have
/// weights too, which don't matter.
fn weights(random: &mut Random, table: &Table) -> [u32; MAX_TASKS] {
    let (least, most) = random.pick(&RANGES);
    let longest = table.tasks.iter().map(|task| task.optional).max().unwrap_or(0).max(1);
    match random.up_to(7) {
        0 => table.tasks.map(|_| random.pick(&[1, MAX_WEIGHT])),
        1..=2 => table.tasks.map(|task| (MAX_WEIGHT * task.optional).div_ceil(longest).max(1)),
        _ => table.tasks.map(|_| random.between(least, most)),
    }
}

/// A table with legal weights.
pub fn with_weights(random: &mut Random, table: Table) -> WeightedTable {
    WeightedTable { table, weights: weights(random, &table) }
}

/// A legal nested table of any size, without weights yet.
pub fn nested_table(random: &mut Random) -> Table {
    let n = task_count(random);
    let period = period(random);
    let shape = random.pick(&SHAPES);
    let load = random.pick(&LOADS);
    shaped_table(random, n, period, shape, load)
}

/// A legal weighted table of any size.
pub fn table(random: &mut Random) -> WeightedTable {
    let table = nested_table(random);
    with_weights(random, table)
}

/// A weighted table that mostly is not nested: windows that follow one another, as tables without weights may have them, or windows of no kind.
pub fn mixed_table(random: &mut Random) -> WeightedTable {
    let table = if random.once_in(2) { super::table(random) } else { super::mixed_table(random) };
    with_weights(random, table)
}

/// A weighted table with one to three faults, of its weights or others, some of which may do no harm.
pub fn faulty_table(random: &mut Random) -> WeightedTable {
    let mut weighted = if random.once_in(4) { mixed_table(random) } else { table(random) };
    for _ in 0..random.between(1, 3) {
        if random.once_in(2) {
            spoil(random, &mut weighted.table);
        } else {
            let n = (weighted.table.count as usize).clamp(1, MAX_TASKS);
            weighted.weights[random.index(n)] = random.pick(&BAD_WEIGHTS);
        }
    }
    weighted
}

/// The fields of a weighted table packed into bytes with no check; wider fields lose their high bits. Padding is 0.
pub fn pack(weighted: &WeightedTable) -> Vec<u8> {
    pack_with(&weighted.table, Some(&weighted.weights))
}

const WEIGHTED: Sort = Sort {
    legal: |random| pack(&table(random)),
    faulty: |random| pack(&faulty_table(random)),
    mixed: |random| pack(&mixed_table(random)),
    length: weighted::file_length,
    read: |file| weighted::read(file).map(|weighted| weighted.table),
    plan: weighted::plan,
};

/// A file of a weighted table: half of them legal, the others damaged in many ways.
pub fn file(random: &mut Random) -> Vec<u8> {
    file_of(random, &WEIGHTED)
}

/// What the judge of weighted tables gets, as the other judge does.
pub fn judgement(random: &mut Random) -> Judgement {
    judgement_of(random, &WEIGHTED)
}
