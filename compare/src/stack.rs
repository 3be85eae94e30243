//! How much stack a call of the proved library uses: it is run on an area of its own, painted beforehand, and the lowest byte that changed is found.
//! x86-64 only, as the archive is.

use crate::ffi::{self, BusyCount, Found, Judged, Planned, TableRead, WeightedTableRead, Written};
use crate::reference::weighted::WeightedTable;
use crate::reference::{Run, Table};
use crate::tables::Lists;
use std::arch::asm;
use std::mem::MaybeUninit;

const WORDS: usize = 64 * 1024;
const PAINT: u64 = 0xa5a5_5a5a_c3c3_3c3c;

/// The stack use of one call.
#[derive(Clone, Copy, Debug)]
pub struct Use {
    /// What the call itself uses: its return address and everything below.
    pub own: usize,
    /// What its caller puts on the stack for it: arguments that are passed in memory.
    pub arguments: usize,
}

/// Calls a function of the C interface with these registers and these words on the stack.
///
/// # Safety
/// The words are the arguments of the function, as the calling convention has them.
unsafe fn call(function: usize, registers: [usize; 6], on_stack: &[u64]) -> Use {
    let mut area = vec![PAINT; WORDS];
    // Where the arguments begin, the stack pointer is a multiple of 16.
    let base = area.as_ptr() as usize;
    let mut top = WORDS - on_stack.len() - 16;
    top -= (base / 8 + top) % 2;
    area[top..top + on_stack.len()].copy_from_slice(on_stack);
    let stack = area.as_mut_ptr().add(top);
    asm!(
        "mov r12, rsp",
        "mov rsp, {stack}",
        "call {function}",
        "mov rsp, r12",
        stack = in(reg) stack,
        function = in(reg) function,
        inout("rdi") registers[0] => _,
        inout("rsi") registers[1] => _,
        inout("rdx") registers[2] => _,
        inout("rcx") registers[3] => _,
        inout("r8") registers[4] => _,
        inout("r9") registers[5] => _,
        out("r12") _,
        clobber_abi("C"),
    );
    let lowest = area.iter().position(|&word| word != PAINT).unwrap_or(top);
    Use { own: 8 * (top - lowest), arguments: 8 * on_stack.len() }
}

/// The stack of reading.
pub fn read(file: &[u8]) -> Use {
    unsafe { read_by::<TableRead>(ffi::addresses().read, file) }
}

/// The stack of reading of a weighted table.
pub fn weighted_read(file: &[u8]) -> Use {
    unsafe { read_by::<WeightedTableRead>(ffi::addresses().weighted_read, file) }
}

/// The stack of reading.
///
/// # Safety
/// The function takes a file and replies so.
unsafe fn read_by<Reply>(function: usize, file: &[u8]) -> Use {
    let mut reply = MaybeUninit::<Reply>::uninit();
    call(function, [reply.as_mut_ptr() as usize, file.as_ptr() as usize, file.len(), 0, 0, 0], &[])
}

/// The stack of writing.
pub fn write(table: &Table, out: &mut [u8]) -> Use {
    unsafe { write_by(ffi::addresses().write, table, out) }
}

/// The stack of writing of a weighted table.
pub fn weighted_write(table: &WeightedTable, out: &mut [u8]) -> Use {
    unsafe { write_by(ffi::addresses().weighted_write, table, out) }
}

/// The stack of writing; the table is passed in memory.
///
/// # Safety
/// The function is the writing of tables of this type, which has no padding.
unsafe fn write_by<T>(function: usize, table: &T, out: &mut [u8]) -> Use {
    let mut reply = MaybeUninit::<Written>::uninit();
    let mut words = vec![0u64; size_of::<T>().div_ceil(8)];
    std::ptr::copy_nonoverlapping((table as *const T).cast::<u8>(), words.as_mut_ptr().cast::<u8>(), size_of::<T>());
    call(function, [reply.as_mut_ptr() as usize, out.as_mut_ptr() as usize, out.len(), 0, 0, 0], &words)
}

/// The stack of moving.
pub fn shift(file: &[u8], frames: i32, out: &mut [u8]) -> Use {
    let mut reply = MaybeUninit::<Written>::uninit();
    let registers = [reply.as_mut_ptr() as usize, file.as_ptr() as usize, file.len(), frames as u32 as usize, out.as_mut_ptr() as usize, out.len()];
    unsafe { call(ffi::addresses().shift, registers, &[]) }
}

/// The stack of planning.
pub fn plan(file: &[u8], launch: u32, lists: &mut Lists) -> Use {
    unsafe { plan_by(ffi::addresses().plan, file, launch, lists) }
}

/// The stack of planning of a weighted table.
pub fn weighted_plan(file: &[u8], launch: u32, lists: &mut Lists) -> Use {
    unsafe { plan_by(ffi::addresses().weighted_plan, file, launch, lists) }
}

/// The stack of planning; the columns are passed in memory.
///
/// # Safety
/// The function is a planning.
unsafe fn plan_by(function: usize, file: &[u8], launch: u32, Lists { marks, starts, ends, tasks }: &mut Lists) -> Use {
    let mut reply = MaybeUninit::<Planned>::uninit();
    let registers = [reply.as_mut_ptr() as usize, file.as_ptr() as usize, file.len(), launch as usize, marks.as_mut_ptr() as usize, marks.len()];
    let words =
        [starts.as_mut_ptr() as u64, starts.len() as u64, ends.as_mut_ptr() as u64, ends.len() as u64, tasks.as_mut_ptr() as u64, tasks.len() as u64];
    call(function, registers, &words)
}

/// The stack of judging.
pub fn judge(file: &[u8], launch: u32, marks: &[u8], runs: &[Run]) -> Use {
    unsafe { judge_by(ffi::addresses().judge, file, launch, marks, runs) }
}

/// The stack of judging of a weighted table.
pub fn weighted_judge(file: &[u8], launch: u32, marks: &[u8], runs: &[Run]) -> Use {
    unsafe { judge_by(ffi::addresses().weighted_judge, file, launch, marks, runs) }
}

/// The stack of judging; the run list is passed in memory.
///
/// # Safety
/// The function is a judge.
unsafe fn judge_by(function: usize, file: &[u8], launch: u32, marks: &[u8], runs: &[Run]) -> Use {
    let mut reply = MaybeUninit::<Judged>::uninit();
    let registers = [reply.as_mut_ptr() as usize, file.as_ptr() as usize, file.len(), launch as usize, marks.as_ptr() as usize, marks.len()];
    call(function, registers, &[runs.as_ptr() as u64, runs.len() as u64])
}

/// The stack of the busy count.
pub fn busy(runs: &[Run], a: u32, b: u32) -> Use {
    let mut reply = MaybeUninit::<BusyCount>::uninit();
    let registers = [reply.as_mut_ptr() as usize, runs.as_ptr() as usize, runs.len(), a as usize, b as usize, 0];
    unsafe { call(ffi::addresses().busy, registers, &[]) }
}

/// The stack of the check of a run list. Its reply comes in two registers, so that its caller passes no address for it.
pub fn check_runs(runs: &[Run]) -> Use {
    unsafe { call(ffi::addresses().check_runs, [runs.as_ptr() as usize, runs.len(), 0, 0, 0, 0], &[]) }
}

/// The stack of the query for the run at a tick.
pub fn run_at(runs: &[Run], tick: u32) -> Use {
    unsafe { find(ffi::addresses().run_at, runs, tick) }
}

/// The stack of the query for the first run from a tick on.
pub fn run_from(runs: &[Run], tick: u32) -> Use {
    unsafe { find(ffi::addresses().run_from, runs, tick) }
}

/// The stack of a query for one run.
///
/// # Safety
/// The function is one of the two queries that take a run list and a tick and find one run.
unsafe fn find(function: usize, runs: &[Run], tick: u32) -> Use {
    let mut reply = MaybeUninit::<Found>::uninit();
    call(function, [reply.as_mut_ptr() as usize, runs.as_ptr() as usize, runs.len(), tick as usize, 0, 0], &[])
}

/// The stack of the query for an interval, whose reply too comes in two registers.
pub fn runs_touching(runs: &[Run], a: u32, b: u32) -> Use {
    unsafe { call(ffi::addresses().runs_touching, [runs.as_ptr() as usize, runs.len(), a as usize, b as usize, 0, 0], &[]) }
}
