//! Both sides, the proved library and the reference, with replies as the C interface has them.

use crate::ffi::{self, BusyCount, Checked, Found, Judged, Part, Planned};
use crate::reference::{self, weighted, Run};

/// A side with its name.
pub type Named<T> = (&'static str, T);

/// A planner.
pub type Plan<'a> = &'a dyn Fn(&[u8], u32, &mut [u8], &mut [u32], &mut [u32], &mut [u32]) -> Planned;

pub const REFERENCE_PLANNER: Named<Plan> = ("reference", &|f, l, m, s, e, t| Planned::from(reference::plan(f, l, m, s, e, t)));
pub const PLANNERS: [Named<Plan>; 2] = [("proved library", &ffi::plan), REFERENCE_PLANNER];

// The planners of weighted tables.
pub const WEIGHTED_REFERENCE_PLANNER: Named<Plan> = ("reference", &|f, l, m, s, e, t| Planned::from(weighted::plan(f, l, m, s, e, t)));
pub const WEIGHTED_PLANNERS: [Named<Plan>; 2] = [("proved library", &ffi::weighted_plan), WEIGHTED_REFERENCE_PLANNER];

/// A judge.
pub type Judge<'a> = &'a dyn Fn(&[u8], u32, &[u8], &[Run]) -> Judged;

pub const JUDGES: [Named<Judge>; 2] = [("proved library", &ffi::judge), ("reference", &|f, l, m, r| Judged::from(reference::judge(f, l, m, r)))];
pub const WEIGHTED_JUDGES: [Named<Judge>; 2] =
    [("proved library", &ffi::weighted_judge), ("reference", &|f, l, m, r| Judged::from(weighted::judge(f, l, m, r)))];

/// What a run list alone is asked for.
pub struct RunLists {
    pub check: fn(&[Run]) -> Checked,
    pub at: fn(&[Run], u32) -> Found,
    pub from: fn(&[Run], u32) -> Found,
    pub touching: fn(&[Run], u32, u32) -> Part,
    pub busy: fn(&[Run], u32, u32) -> BusyCount,
}

pub const RUN_LISTS: [(&str, RunLists); 2] = [
    ("proved library", RunLists { check: ffi::check_runs, at: ffi::run_at, from: ffi::run_from, touching: ffi::runs_touching, busy: ffi::busy }),
    (
        "reference",
        RunLists {
            check: |runs| reference::check_runs(runs).into(),
            at: |runs, tick| reference::run_at(runs, tick).into(),
            from: |runs, tick| reference::run_from(runs, tick).into(),
            touching: |runs, a, b| reference::runs_touching(runs, a, b).into(),
            busy: |runs, a, b| reference::busy(runs, a, b).into(),
        },
    ),
];

/// The reply, the marks and the runs of a planner whose lists are just long enough; on a refusal the marks stay 9.
pub fn plan_with(plan: Plan, file: &[u8], launch: u32, n: usize) -> (Planned, Vec<u8>, Vec<(u32, u32, u32)>) {
    let mut marks = vec![9; n];
    let (mut starts, mut ends, mut tasks) = (vec![9; 2 * n - 1], vec![9; 2 * n - 1], vec![9; 2 * n - 1]);
    let said = plan(file, launch, &mut marks, &mut starts, &mut ends, &mut tasks);
    let runs = (0..said.runs).map(|i| (starts[i], ends[i], tasks[i])).collect();
    (said, marks, runs)
}
