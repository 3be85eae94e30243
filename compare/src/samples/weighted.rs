//! Samples of weighted tables, with the answers that request 7 gives, put to both sides.

use super::{planned, planned_samples, refused, EIGHT};
use crate::difference::{hex, same};
use crate::ffi::{self, Judged, WeightedTableRead, Written};
use crate::inputs::weighted::pack;
use crate::reference::weighted::{self, WeightedTable};
use crate::reference::{Run, Table, Task, MAX_LAUNCH};
use crate::sides::{WEIGHTED_JUDGES, WEIGHTED_PLANNERS};

/// Release and deadline frame, mandatory and optional ticks, and weight.
type Fields = (u32, u32, u32, u32, u32);

/// A table of these tasks with period 1/1.
fn table(tasks: &[Fields]) -> WeightedTable {
    let mut weighted = WeightedTable { table: Table { count: tasks.len() as u32, p: 1, q: 1, ..Table::ZERO }, ..WeightedTable::ZERO };
    for (k, &(release, deadline, mandatory, optional, weight)) in tasks.iter().enumerate() {
        weighted.table.tasks[k] = Task { release, deadline, mandatory, optional };
        weighted.weights[k] = weight;
    }
    weighted
}

/// P8's tasks with these weights.
fn eight(weights: [u32; 3]) -> [Fields; 3] {
    [(0, 10, 2, 3, weights[0]), (2, 8, 1, 3, weights[1]), (4, 6, 1, 1, weights[2])]
}

/// Plans that weights decide, and those that the tie rules decide; refusals; a file and its table; and verdicts.
pub fn samples() -> Result<usize, String> {
    Ok(plans()? + read_and_written()? + refused_writing()? + verdicts()?)
}

/// What planning gives.
fn plans() -> Result<usize, String> {
    // One long part against two short ones, which have as many ticks together.
    let one_or_two = |weight| [(0, 5, 0, 4, weight), (0, 5, 0, 2, 2), (0, 5, 0, 2, 2)];
    let plan = |name, tasks: &[Fields], given| (name, pack(&table(tasks)), given);
    let plans = [
        plan("P8, all weights 1", &eight([1, 1, 1]), planned(1, 2, &[1, 0, 0], &EIGHT)),
        plan("P8, all weights 15", &eight([15, 15, 15]), planned(1, 2, &[1, 0, 0], &EIGHT)),
        // Task 2's part has no place, whatever it weighs. Of the others the heavier one is kept.
        plan("P8 with weights", &eight([1, 2, 15]), planned(1, 2, &[0, 1, 0], &[(3, 5, 1), (5, 6, 2), (6, 8, 1), (8, 10, 0)])),
        plan("P10 with weights", &[(0, 4, 0, 3, 2), (0, 4, 0, 3, 1)], planned(1, 1, &[1, 0], &[(1, 4, 0)])),
        // Two parts are discarded rather than one that weighs more.
        plan("heavier than two", &one_or_two(5), planned(1, 2, &[1, 0, 0], &[(1, 5, 0)])),
        plan("as heavy as two: the outermost keeps", &one_or_two(4), planned(2, 1, &[0, 1, 1], &[(1, 3, 2), (3, 5, 1)])),
        plan("lighter than two", &one_or_two(3), planned(2, 1, &[0, 1, 1], &[(1, 3, 2), (3, 5, 1)])),
        plan("the least total", &[(0, 6, 0, 3, 4), (0, 6, 0, 5, 4)], planned(1, 1, &[1, 0], &[(3, 6, 0)])),
        // The same weight by two parts or by one, the one with fewer ticks.
        plan("the least total by fewer parts", &[(0, 5, 0, 3, 4), (0, 5, 0, 2, 2), (0, 5, 0, 2, 2)], planned(1, 2, &[1, 0, 0], &[(2, 5, 0)])),
        plan("a part of 0 ticks", &[(0, 6, 1, 0, 15), (0, 6, 0, 5, 1)], planned(0, 1, &[1, 0], &[(5, 6, 0)])),
        plan("parts of 0 ticks alone", &[(0, 6, 0, 0, 15), (0, 6, 0, 0, 1)], planned(0, 0, &[1, 1], &[])),
        plan("8", &[(0, 6, 4, 9, 15), (0, 6, 2, 0, 1)], refused(8, 1, 2)),
        // Windows that follow one another are accepted without weights alone.
        plan("P9", &[(0, 5, 2, 3, 1), (5, 9, 1, 2, 1)], refused(7, 1, 2)),
        plan("place of 7", &[(0, 5, 0, 0, 1), (5, 9, 0, 0, 1), (1, 4, 0, 0, 1)], refused(7, 1, 3)),
        plan("place of 7 behind nested ones", &[(0, 5, 0, 0, 1), (1, 4, 0, 0, 1), (2, 6, 0, 0, 1)], refused(7, 2, 3)),
        plan("16", &[(0, 5, 0, 0, 1), (0, 5, 0, 0, 0), (0, 5, 0, 0, 0)], refused(16, 1, 3)),
        plan("16 before 7", &[(0, 5, 0, 0, 1), (5, 9, 0, 0, 1), (0, 5, 0, 0, 0)], refused(16, 2, 3)),
        plan("16 before 8", &[(0, 5, 9, 0, 1), (0, 5, 0, 0, 0)], refused(16, 1, 2)),
        plan("6 before 16", &[(0, 5, 0, 0, 0), (5, 5, 0, 0, 1)], refused(6, 1, 2)),
    ];
    planned_samples(&plans, &WEIGHTED_PLANNERS)
}

/// P4 with weight 9, packed by hand: it is read, and written again.
fn read_and_written() -> Result<usize, String> {
    let file = [0x02, 0x0c, 0x80, 0x02, 0x00, 0x00, 0x00, 0x01, 0x00, 0xc8, 0x01, 0x94, 0x80];
    let mut four = table(&[(0, 2, 100, 50, 9)]);
    four.table.p = 100;
    let read = WeightedTableRead::from(Ok(four));
    same("P4 with a weight, read by the proved library", &ffi::weighted_read(&file), &read, || hex(&file))?;
    same("P4 with a weight, read by the reference", &weighted::read(&file).into(), &read, || hex(&file))?;
    // One byte of room more than the file needs.
    let written = (Written { number: 0, place: 0, bytes: 13 }, [&file[..], &[9]].concat());
    let (mut proved, mut reference) = (vec![9; 14], vec![9; 14]);
    same("P4 with a weight, written by the proved library", &(ffi::weighted_write(&four, &mut proved), proved), &written, String::new)?;
    same("P4 with a weight, written by the reference", &(weighted::write(&four, &mut reference).into(), reference), &written, String::new)?;
    Ok(4)
}

/// What writing refuses, with places for 64 tasks or with none.
fn refused_writing() -> Result<usize, String> {
    let wide = 1 << 17;
    let last = u32::MAX;
    let refusals = [
        ("weight 0", table(&[(0, 5, 0, 0, 1), (0, 5, 0, 0, 0)]), 532, 16, 1),
        ("weight 16", table(&[(0, 5, 0, 0, 16), (0, 5, 0, 0, 0)]), 532, 16, 0),
        ("the greatest number as a weight", table(&[(0, 5, 0, 0, last)]), 532, 16, 0),
        ("12 before 16", table(&[(0, 5, 0, 0, last), (0, 5, 0, 1 << 14, 1)]), 532, 12, 1),
        ("12 before 6", table(&[(5, 5, 0, 0, 1), (0, wide, 0, 0, 1)]), 532, 12, 1),
        ("6 before 16", table(&[(0, 5, 0, 0, 16), (5, 5, 0, 0, 1)]), 532, 6, 1),
        ("16 before 7", table(&[(0, 5, 0, 0, 1), (5, 9, 0, 0, 16)]), 532, 16, 1),
        ("7 before 9", table(&[(0, 5, 0, 0, 1), (5, 9, 0, 0, 15)]), 0, 7, 1),
        ("9", table(&[(0, 5, 0, 0, 15)]), 12, 9, 0),
        ("2 before 5", WeightedTable::ZERO, 532, 2, 0),
        ("5 before 12", WeightedTable { table: Table { q: 2, ..table(&[(0, 5, 1 << 14, 0, 0)]).table }, ..WeightedTable::ZERO }, 532, 5, 0),
    ];
    for (name, weighted, room, number, place) in &refusals {
        let refused = (Written { number: *number, place: *place, bytes: 0 }, vec![9; *room]);
        let (mut proved, mut reference) = (refused.1.clone(), refused.1.clone());
        let input = || format!("{weighted:?}");
        same(&format!("{name}, proved library and the rules"), &(ffi::weighted_write(weighted, &mut proved), proved), &refused, input)?;
        same(&format!("{name}, reference and the rules"), &(weighted::write(weighted, &mut reference).into(), reference), &refused, input)?;
    }
    Ok(2 * refusals.len())
}

/// Verdicts do not look at weights, but a file with a bad one is refused.
fn verdicts() -> Result<usize, String> {
    let runs = EIGHT.map(Run::from);
    let (good, bad) = (pack(&table(&eight([1, 2, 15]))), pack(&table(&eight([1, 0, 15]))));
    let no = Judged { number: 0, place: 0, yes: false, kept: 0, discarded: 0 };
    let verdicts = [
        ("yes to a plan that discards more weight", &good, 0, &[1, 0, 0][..], Judged { yes: true, kept: 1, discarded: 2, ..no }),
        ("no at another launch tick", &good, 1, &[1, 0, 0][..], no),
        ("no to other marks", &good, 0, &[0, 1, 0][..], no),
        ("16 before 14", &bad, MAX_LAUNCH + 1, &[1, 0, 0][..], Judged { number: 16, place: 1, ..no }),
        ("14 before 11", &good, MAX_LAUNCH + 1, &[1, 0][..], Judged { number: 14, ..no }),
        ("11", &good, 0, &[1, 2, 0][..], Judged { number: 11, place: 1, ..no }),
    ];
    for (name, file, launch, marks, expected) in verdicts {
        for (name_of_judge, judge) in WEIGHTED_JUDGES {
            same(&format!("judging, {name}, {name_of_judge} and the rules"), &judge(file, launch, marks, &runs), &expected, || hex(file))?;
        }
    }
    Ok(2 * verdicts.len())
}
