//! The fourteen calls of the proved library, as include/planner.h declares them, each in a safe function; for `compare/before` also the planning, the
//! judge and the busy count of an earlier commit's library.

use crate::reference::weighted::WeightedTable;
use crate::reference::{Plan, Refusal, Run, Table, Verdict};
use std::ops::Range;

/// The reply of reading.
#[repr(C)]
#[derive(Clone, Copy, Debug, PartialEq, Eq)]
pub struct TableRead {
    pub number: u32,
    pub place: usize,
    pub table: Table,
}

/// The reply of reading of a weighted table.
#[repr(C)]
#[derive(Clone, Copy, Debug, PartialEq, Eq)]
pub struct WeightedTableRead {
    pub number: u32,
    pub place: usize,
    pub table: WeightedTable,
}

/// The reply of writing and of moving.
#[repr(C)]
#[derive(Clone, Copy, Debug, PartialEq, Eq)]
pub struct Written {
    pub number: u32,
    pub place: usize,
    pub bytes: usize,
}

/// The reply of planning.
#[repr(C)]
#[derive(Clone, Copy, Debug, PartialEq, Eq)]
pub struct Planned {
    pub number: u32,
    pub place: usize,
    pub kept: u32,
    pub discarded: u32,
    pub runs: usize,
}

/// The reply of judging.
#[repr(C)]
#[derive(Clone, Copy, Debug, PartialEq, Eq)]
pub struct Judged {
    pub number: u32,
    pub place: usize,
    pub yes: bool,
    pub kept: u32,
    pub discarded: u32,
}

/// The reply of the busy count.
#[repr(C)]
#[derive(Clone, Copy, Debug, PartialEq, Eq)]
pub struct BusyCount {
    pub number: u32,
    pub place: usize,
    pub ticks: u64,
}

/// The reply of the check of a run list.
#[repr(C)]
#[derive(Clone, Copy, Debug, PartialEq, Eq)]
pub struct Checked {
    pub number: u32,
    pub place: usize,
}

/// The reply of the queries for one run: it is 0 throughout where there is none.
#[repr(C)]
#[derive(Clone, Copy, Debug, PartialEq, Eq)]
pub struct Found {
    pub number: u32,
    pub place: usize,
    pub found: bool,
    pub run: Run,
}

/// The reply of the query for an interval: a stretch of the caller's list, both parts 0 where it is empty.
#[repr(C)]
#[derive(Clone, Copy, Debug, PartialEq, Eq)]
pub struct Part {
    pub first: usize,
    pub runs: usize,
}

extern "C" {
    fn planner_read(file: *const u8, file_length: usize) -> TableRead;
    fn planner_write(table: Table, out: *mut u8, out_length: usize) -> Written;
    fn planner_shift(file: *const u8, file_length: usize, frames: i32, out: *mut u8, out_length: usize) -> Written;
    fn planner_plan(
        file: *const u8,
        file_length: usize,
        launch: u32,
        marks: *mut u8,
        marks_length: usize,
        starts: *mut u32,
        starts_length: usize,
        ends: *mut u32,
        ends_length: usize,
        tasks: *mut u32,
        tasks_length: usize,
    ) -> Planned;
    fn planner_judge(
        file: *const u8,
        file_length: usize,
        launch: u32,
        marks: *const u8,
        marks_length: usize,
        runs: *const Run,
        runs_length: usize,
    ) -> Judged;
    fn planner_busy(runs: *const Run, runs_length: usize, a: u32, b: u32) -> BusyCount;
    fn planner_check_runs(runs: *const Run, runs_length: usize) -> Checked;
    fn planner_run_at(runs: *const Run, runs_length: usize, tick: u32) -> Found;
    fn planner_run_from(runs: *const Run, runs_length: usize, tick: u32) -> Found;
    fn planner_runs_touching(runs: *const Run, runs_length: usize, a: u32, b: u32) -> Part;
    fn planner_weighted_read(file: *const u8, file_length: usize) -> WeightedTableRead;
    fn planner_weighted_write(table: WeightedTable, out: *mut u8, out_length: usize) -> Written;
    fn planner_weighted_plan(
        file: *const u8,
        file_length: usize,
        launch: u32,
        marks: *mut u8,
        marks_length: usize,
        starts: *mut u32,
        starts_length: usize,
        ends: *mut u32,
        ends_length: usize,
        tasks: *mut u32,
        tasks_length: usize,
    ) -> Planned;
    fn planner_weighted_judge(
        file: *const u8,
        file_length: usize,
        launch: u32,
        marks: *const u8,
        marks_length: usize,
        runs: *const Run,
        runs_length: usize,
    ) -> Judged;
}

// Planning by the library of an earlier commit: compare/before puts before_ before its names. The header declares it there as it does here.
#[cfg(feature = "before")]
extern "C" {
    fn before_planner_plan(
        file: *const u8,
        file_length: usize,
        launch: u32,
        marks: *mut u8,
        marks_length: usize,
        starts: *mut u32,
        starts_length: usize,
        ends: *mut u32,
        ends_length: usize,
        tasks: *mut u32,
        tasks_length: usize,
    ) -> Planned;
}

// Its judge and its busy count, where it takes run lists as records: the header declares them there as it does here.
#[cfg(all(feature = "before", not(feature = "before-columns")))]
extern "C" {
    fn before_planner_judge(
        file: *const u8,
        file_length: usize,
        launch: u32,
        marks: *const u8,
        marks_length: usize,
        runs: *const Run,
        runs_length: usize,
    ) -> Judged;
    fn before_planner_busy(runs: *const Run, runs_length: usize, a: u32, b: u32) -> BusyCount;
}

// The same where it takes them as three columns.
#[cfg(feature = "before-columns")]
extern "C" {
    fn before_planner_judge(
        file: *const u8,
        file_length: usize,
        launch: u32,
        marks: *const u8,
        marks_length: usize,
        starts: *const u32,
        starts_length: usize,
        ends: *const u32,
        ends_length: usize,
        tasks: *const u32,
        tasks_length: usize,
    ) -> Judged;
    fn before_planner_busy(
        starts: *const u32,
        starts_length: usize,
        ends: *const u32,
        ends_length: usize,
        tasks: *const u32,
        tasks_length: usize,
        a: u32,
        b: u32,
    ) -> BusyCount;
}

/// Planning as a library exports it.
type PlanCall = unsafe extern "C" fn(*const u8, usize, u32, *mut u8, usize, *mut u32, usize, *mut u32, usize, *mut u32, usize) -> Planned;

/// Planning as a safe function: a file, a launch tick, and lent lists of marks, starts, ends and tasks.
pub type Planning = fn(&[u8], u32, &mut [u8], &mut [u32], &mut [u32], &mut [u32]) -> Planned;

// No call has a precondition. A slice's pointer is never null, and slices that are lent by `&mut` don't overlap others.

/// Reading.
pub fn read(file: &[u8]) -> TableRead {
    unsafe { planner_read(file.as_ptr(), file.len()) }
}

/// Reading of a weighted table.
pub fn weighted_read(file: &[u8]) -> WeightedTableRead {
    unsafe { planner_weighted_read(file.as_ptr(), file.len()) }
}

/// Writing.
pub fn write(table: &Table, out: &mut [u8]) -> Written {
    unsafe { planner_write(*table, out.as_mut_ptr(), out.len()) }
}

/// Writing of a weighted table.
pub fn weighted_write(table: &WeightedTable, out: &mut [u8]) -> Written {
    unsafe { planner_weighted_write(*table, out.as_mut_ptr(), out.len()) }
}

/// Moving by a signed number of frames.
pub fn shift(file: &[u8], frames: i32, out: &mut [u8]) -> Written {
    unsafe { planner_shift(file.as_ptr(), file.len(), frames, out.as_mut_ptr(), out.len()) }
}

/// Planning at a launch tick.
pub fn plan(file: &[u8], launch: u32, marks: &mut [u8], starts: &mut [u32], ends: &mut [u32], tasks: &mut [u32]) -> Planned {
    unsafe { plan_by(planner_plan, file, launch, marks, starts, ends, tasks) }
}

/// Planning at a launch tick by the library of the earlier commit.
#[cfg(feature = "before")]
pub fn plan_before(file: &[u8], launch: u32, marks: &mut [u8], starts: &mut [u32], ends: &mut [u32], tasks: &mut [u32]) -> Planned {
    unsafe { plan_by(before_planner_plan, file, launch, marks, starts, ends, tasks) }
}

/// Planning of a weighted table at a launch tick.
pub fn weighted_plan(file: &[u8], launch: u32, marks: &mut [u8], starts: &mut [u32], ends: &mut [u32], tasks: &mut [u32]) -> Planned {
    unsafe { plan_by(planner_weighted_plan, file, launch, marks, starts, ends, tasks) }
}

/// Planning by a library's call.
///
/// # Safety
/// The call is a planning of a library whose header is include/planner.h.
#[inline(always)]
unsafe fn plan_by(call: PlanCall, file: &[u8], launch: u32, marks: &mut [u8], starts: &mut [u32], ends: &mut [u32], tasks: &mut [u32]) -> Planned {
    call(
        file.as_ptr(),
        file.len(),
        launch,
        marks.as_mut_ptr(),
        marks.len(),
        starts.as_mut_ptr(),
        starts.len(),
        ends.as_mut_ptr(),
        ends.len(),
        tasks.as_mut_ptr(),
        tasks.len(),
    )
}

/// Judging at a launch tick.
pub fn judge(file: &[u8], launch: u32, marks: &[u8], runs: &[Run]) -> Judged {
    unsafe { planner_judge(file.as_ptr(), file.len(), launch, marks.as_ptr(), marks.len(), runs.as_ptr(), runs.len()) }
}

/// Judging of a weighted table at a launch tick.
pub fn weighted_judge(file: &[u8], launch: u32, marks: &[u8], runs: &[Run]) -> Judged {
    unsafe { planner_weighted_judge(file.as_ptr(), file.len(), launch, marks.as_ptr(), marks.len(), runs.as_ptr(), runs.len()) }
}

/// Judging at a launch tick by the library of the earlier commit, which takes records.
#[cfg(all(feature = "before", not(feature = "before-columns")))]
pub fn judge_before(file: &[u8], launch: u32, marks: &[u8], runs: &[Run]) -> Judged {
    unsafe { before_planner_judge(file.as_ptr(), file.len(), launch, marks.as_ptr(), marks.len(), runs.as_ptr(), runs.len()) }
}

/// Judging at a launch tick by the library of the earlier commit, which takes columns.
#[cfg(feature = "before-columns")]
pub fn judge_before(file: &[u8], launch: u32, marks: &[u8], starts: &[u32], ends: &[u32], tasks: &[u32]) -> Judged {
    unsafe {
        before_planner_judge(
            file.as_ptr(),
            file.len(),
            launch,
            marks.as_ptr(),
            marks.len(),
            starts.as_ptr(),
            starts.len(),
            ends.as_ptr(),
            ends.len(),
            tasks.as_ptr(),
            tasks.len(),
        )
    }
}

/// The busy count of the interval from a to b.
pub fn busy(runs: &[Run], a: u32, b: u32) -> BusyCount {
    unsafe { planner_busy(runs.as_ptr(), runs.len(), a, b) }
}

/// The busy count by the library of the earlier commit, which takes records.
#[cfg(all(feature = "before", not(feature = "before-columns")))]
pub fn busy_before(runs: &[Run], a: u32, b: u32) -> BusyCount {
    unsafe { before_planner_busy(runs.as_ptr(), runs.len(), a, b) }
}

/// The busy count by the library of the earlier commit, which takes columns.
#[cfg(feature = "before-columns")]
pub fn busy_before(starts: &[u32], ends: &[u32], tasks: &[u32], a: u32, b: u32) -> BusyCount {
    unsafe { before_planner_busy(starts.as_ptr(), starts.len(), ends.as_ptr(), ends.len(), tasks.as_ptr(), tasks.len(), a, b) }
}

/// What the busy count and the queries refuse of a run list.
pub fn check_runs(runs: &[Run]) -> Checked {
    unsafe { planner_check_runs(runs.as_ptr(), runs.len()) }
}

/// The run that holds a tick.
pub fn run_at(runs: &[Run], tick: u32) -> Found {
    unsafe { planner_run_at(runs.as_ptr(), runs.len(), tick) }
}

/// The first run that starts at a tick or after it.
pub fn run_from(runs: &[Run], tick: u32) -> Found {
    unsafe { planner_run_from(runs.as_ptr(), runs.len(), tick) }
}

/// The runs that share a tick with the interval from a to b.
pub fn runs_touching(runs: &[Run], a: u32, b: u32) -> Part {
    unsafe { planner_runs_touching(runs.as_ptr(), runs.len(), a, b) }
}

// The whole reply that a call owes for what the reference says: parts that are not named are 0.

impl From<Result<Table, Refusal>> for TableRead {
    fn from(said: Result<Table, Refusal>) -> TableRead {
        match said {
            Ok(table) => TableRead { number: 0, place: 0, table },
            Err(Refusal { number, place }) => TableRead { number, place, table: Table::ZERO },
        }
    }
}

impl From<Result<WeightedTable, Refusal>> for WeightedTableRead {
    fn from(said: Result<WeightedTable, Refusal>) -> WeightedTableRead {
        match said {
            Ok(table) => WeightedTableRead { number: 0, place: 0, table },
            Err(Refusal { number, place }) => WeightedTableRead { number, place, table: WeightedTable::ZERO },
        }
    }
}

impl From<Result<usize, Refusal>> for Written {
    fn from(said: Result<usize, Refusal>) -> Written {
        match said {
            Ok(bytes) => Written { number: 0, place: 0, bytes },
            Err(Refusal { number, place }) => Written { number, place, bytes: 0 },
        }
    }
}

impl From<Result<Plan, Refusal>> for Planned {
    fn from(said: Result<Plan, Refusal>) -> Planned {
        match said {
            Ok(Plan { kept, discarded, runs }) => Planned { number: 0, place: 0, kept, discarded, runs },
            Err(Refusal { number, place }) => Planned { number, place, kept: 0, discarded: 0, runs: 0 },
        }
    }
}

impl From<Result<Verdict, Refusal>> for Judged {
    fn from(said: Result<Verdict, Refusal>) -> Judged {
        match said {
            Ok(Verdict { yes, kept, discarded }) => Judged { number: 0, place: 0, yes, kept, discarded },
            Err(Refusal { number, place }) => Judged { number, place, yes: false, kept: 0, discarded: 0 },
        }
    }
}

impl From<Result<u64, Refusal>> for BusyCount {
    fn from(said: Result<u64, Refusal>) -> BusyCount {
        match said {
            Ok(ticks) => BusyCount { number: 0, place: 0, ticks },
            Err(Refusal { number, place }) => BusyCount { number, place, ticks: 0 },
        }
    }
}

impl From<Result<(), Refusal>> for Checked {
    fn from(said: Result<(), Refusal>) -> Checked {
        match said {
            Ok(()) => Checked { number: 0, place: 0 },
            Err(Refusal { number, place }) => Checked { number, place },
        }
    }
}

impl From<Result<Option<Run>, Refusal>> for Found {
    fn from(said: Result<Option<Run>, Refusal>) -> Found {
        match said {
            Ok(Some(run)) => Found { number: 0, place: 0, found: true, run },
            Ok(None) => Found { number: 0, place: 0, found: false, run: Run::default() },
            Err(Refusal { number, place }) => Found { number, place, found: false, run: Run::default() },
        }
    }
}

impl From<Range<usize>> for Part {
    fn from(said: Range<usize>) -> Part {
        Part { first: said.start, runs: said.len() }
    }
}

/// Where the fourteen calls are, for calling them on a stack of one's own.
pub(crate) struct Addresses {
    pub read: usize,
    pub write: usize,
    pub shift: usize,
    pub plan: usize,
    pub judge: usize,
    pub busy: usize,
    pub check_runs: usize,
    pub run_at: usize,
    pub run_from: usize,
    pub runs_touching: usize,
    pub weighted_read: usize,
    pub weighted_write: usize,
    pub weighted_plan: usize,
    pub weighted_judge: usize,
}

/// The addresses of the fourteen calls.
pub(crate) fn addresses() -> Addresses {
    Addresses {
        read: planner_read as *const () as usize,
        write: planner_write as *const () as usize,
        shift: planner_shift as *const () as usize,
        plan: planner_plan as *const () as usize,
        judge: planner_judge as *const () as usize,
        busy: planner_busy as *const () as usize,
        check_runs: planner_check_runs as *const () as usize,
        run_at: planner_run_at as *const () as usize,
        run_from: planner_run_from as *const () as usize,
        runs_touching: planner_runs_touching as *const () as usize,
        weighted_read: planner_weighted_read as *const () as usize,
        weighted_write: planner_weighted_write as *const () as usize,
        weighted_plan: planner_weighted_plan as *const () as usize,
        weighted_judge: planner_weighted_judge as *const () as usize,
    }
}
