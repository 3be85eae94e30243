//! Plans the table file that is named on the command line, at the launch tick behind it or at 0, and prints the plan.

use std::ffi::{OsStr, OsString};
use std::process::ExitCode;

/// The planning call of the proved library, in a safe function.
mod planner {
    pub const MAX_TASKS: usize = 64;
    pub const MAX_PLAN_RUNS: usize = 127;

    /// The reply of `planner_plan`, as include/planner.h has it.
    #[repr(C)]
    struct Planned {
        number: u32,
        place: usize,
        kept: u32,
        discarded: u32,
        runs: usize,
    }

    #[link(name = "exports", kind = "static")]
    extern "C" {
        fn planner_plan(
            file: *const u8,
            file_length: usize,
            launch: u32,
            marks: *mut u8,
            marks_length: usize,
            starts: *mut u32,
            starts_length: usize,
            ends: *mut u32,
            ends_length: usize,
            tasks: *mut u32,
            tasks_length: usize,
        ) -> Planned;
    }

    /// A stretch of ticks, its end excluded, and the position of the task that has it.
    pub struct Run {
        pub start: u32,
        pub end: u32,
        pub task: u32,
    }

    /// What an accepted call gives.
    pub struct Plan {
        pub kept: u32,
        pub discarded: u32,
        /// Whether each task's optional part is kept, by position.
        pub keeps: Vec<bool>,
        /// By start.
        pub runs: Vec<Run>,
    }

    /// A refusal: its number and its place.
    pub struct Refusal {
        pub number: u32,
        pub place: usize,
    }

    /// The plan of a table file at a launch tick. Any bytes and any tick will do.
    pub fn plan(file: &[u8], launch: u32) -> Result<Plan, Refusal> {
        let mut marks = [0; MAX_TASKS];
        let (mut starts, mut ends, mut tasks) = ([0; MAX_PLAN_RUNS], [0; MAX_PLAN_RUNS], [0; MAX_PLAN_RUNS]);
        // The call has no precondition: the pointers come from slices, and those lent for writing are apart.
        let said = unsafe {
            planner_plan(
                file.as_ptr(),
                file.len(),
                launch,
                marks.as_mut_ptr(),
                marks.len(),
                starts.as_mut_ptr(),
                starts.len(),
                ends.as_mut_ptr(),
                ends.len(),
                tasks.as_mut_ptr(),
                tasks.len(),
            )
        };
        if said.number != 0 {
            return Err(Refusal { number: said.number, place: said.place });
        }
        // The first 7 bits of an accepted file are its task count.
        let count = usize::from(file[0] >> 1);
        Ok(Plan {
            kept: said.kept,
            discarded: said.discarded,
            keeps: marks[..count].iter().map(|&mark| mark == 1).collect(),
            runs: (0..said.runs).map(|i| Run { start: starts[i], end: ends[i], task: tasks[i] }).collect(),
        })
    }
}

/// The number that a text of digits gives, if it has at most 32 bits.
fn ticks_of(text: &OsStr) -> Option<u32> {
    let text = text.to_str()?;
    // `parse` accepts a plus sign too.
    if text.starts_with('+') {
        return None;
    }
    text.parse().ok()
}

/// Prints the plan and ends with status 0, or the refusal and ends with 1. Wrong arguments and files that can't be read end with 2.
fn main() -> ExitCode {
    let arguments: Vec<OsString> = std::env::args_os().skip(1).collect();
    let (name, launch) = match arguments.as_slice() {
        [name] => (name, Some(0)),
        [name, ticks] => (name, ticks_of(ticks)),
        _ => {
            eprintln!("usage: plan FILE [TICKS]");
            return ExitCode::from(2);
        }
    };
    let Some(launch) = launch else {
        eprintln!("plan: '{}' is no number of ticks from 0 to {}", arguments[1].to_string_lossy(), u32::MAX);
        return ExitCode::from(2);
    };
    let file = match std::fs::read(name) {
        Ok(file) => file,
        Err(error) => {
            eprintln!("{}: {error}", name.to_string_lossy());
            return ExitCode::from(2);
        }
    };
    match planner::plan(&file, launch) {
        Err(refusal) => {
            println!("REFUSED {} {}", refusal.number, refusal.place);
            ExitCode::from(1)
        }
        Ok(plan) => {
            println!("PLAN {} {} {}", plan.keeps.len(), plan.kept, plan.discarded);
            for (position, keep) in plan.keeps.iter().enumerate() {
                if !keep {
                    println!("DROP {position}");
                }
            }
            for run in &plan.runs {
                println!("RUN {} {} {}", run.start, run.end, run.task);
            }
            ExitCode::SUCCESS
        }
    }
}
