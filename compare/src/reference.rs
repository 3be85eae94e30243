//! The independent implementation: reading, writing, moving, planning, judging, the busy count and the queries of a run list, written from the rules
//! of documents 01 and 02 (requests 1 to 7) and not from the proved library. Only std, no unsafe code. Weighted tables are in `weighted`.

pub mod weighted;

use std::cmp::Ordering;
use std::collections::VecDeque;
use std::ops::Range;

pub const MAX_TASKS: usize = 64;
pub const MAX_RUNS: usize = 4096;
pub const LAST_FRAME: u32 = 131_071;
pub const MAX_PERIOD: u32 = 4_095;
pub const MAX_TICKS: u32 = 16_383;
pub const MAX_LAUNCH: u32 = 86_399_999;

const COUNT_BITS: u32 = 7;
const PERIOD_BITS: u32 = 12;
const FRAME_BITS: u32 = 17;
const TICK_BITS: u32 = 14;
const HEADER_BITS: usize = (COUNT_BITS + 2 * PERIOD_BITS) as usize;
const TASK_BITS: usize = (2 * FRAME_BITS + 2 * TICK_BITS) as usize;

/// A task: its window in frames, its two lengths in ticks.
#[repr(C)]
#[derive(Clone, Copy, Debug, Default, PartialEq, Eq)]
pub struct Task {
    pub release: u32,
    pub deadline: u32,
    pub mandatory: u32,
    pub optional: u32,
}

/// A table: its task count, its period p/q, and places for its tasks.
#[repr(C)]
#[derive(Clone, Copy, Debug, PartialEq, Eq)]
pub struct Table {
    pub count: u32,
    pub p: u32,
    pub q: u32,
    pub tasks: [Task; MAX_TASKS],
}

impl Table {
    /// The table that is 0 throughout.
    pub const ZERO: Table = Table { count: 0, p: 0, q: 0, tasks: [Task { release: 0, deadline: 0, mandatory: 0, optional: 0 }; MAX_TASKS] };

    /// The tasks up to the count.
    pub fn tasks(&self) -> &[Task] {
        &self.tasks[..self.count as usize]
    }

    /// The frame clock of the table's period at a launch tick.
    pub fn clock(&self, launch: u32) -> Clock {
        Clock { p: self.p, q: self.q, launch }
    }
}

/// A run: the ticks from its start, included, to its end, excluded, and the task that has them.
#[repr(C)]
#[derive(Clone, Copy, Debug, Default, PartialEq, Eq)]
pub struct Run {
    pub start: u32,
    pub end: u32,
    pub task: u32,
}

impl From<(u32, u32, u32)> for Run {
    /// The run of a start, an end and a task.
    fn from((start, end, task): (u32, u32, u32)) -> Run {
        Run { start, end, task }
    }
}

/// A refusal: its number and its place.
#[derive(Clone, Copy, Debug, PartialEq, Eq)]
pub struct Refusal {
    pub number: u32,
    pub place: usize,
}

/// The reply of a call that refuses.
fn refuse<T>(number: u32, place: usize) -> Result<T, Refusal> {
    Err(Refusal { number, place })
}

/// What an accepted planning call replies.
#[derive(Clone, Copy, Debug, PartialEq, Eq)]
pub struct Plan {
    pub kept: u32,
    pub discarded: u32,
    pub runs: usize,
}

/// Planning as a function: a file, a launch tick, and lent lists of marks, starts, ends and tasks.
pub type Planning = fn(&[u8], u32, &mut [u8], &mut [u32], &mut [u32], &mut [u32]) -> Result<Plan, Refusal>;

/// What an accepted judging call replies.
#[derive(Clone, Copy, Debug, PartialEq, Eq)]
pub struct Verdict {
    pub yes: bool,
    pub kept: u32,
    pub discarded: u32,
}

// ---- the frame clock

/// The clock of a period p/q: it adds the launch tick to every tick that it gives.
#[derive(Clone, Copy, Debug)]
pub struct Clock {
    pub p: u32,
    pub q: u32,
    pub launch: u32,
}

impl Clock {
    /// The least tick not before the end of `frame`, which is (`frame` + 1) × p / q, counted from the launch tick.
    pub fn release(&self, frame: u32) -> u32 {
        self.launch + ((frame + 1) * self.p).div_ceil(self.q)
    }

    /// The greatest tick not after `frame` × p / q, counted from the launch tick.
    pub fn deadline(&self, frame: u32) -> u32 {
        self.launch + frame * self.p / self.q
    }

    /// The ticks of a task's window. The release of an empty window is its deadline tick or the tick after it.
    pub fn ticks(&self, task: &Task) -> u32 {
        self.deadline(task.deadline).saturating_sub(self.release(task.release))
    }
}

/// Refusal 14.
fn check_launch(launch: u32) -> Result<(), Refusal> {
    if launch > MAX_LAUNCH {
        return refuse(14, 0);
    }
    Ok(())
}

// ---- the table file

/// The bytes of a file of `count` tasks.
pub fn file_length(count: usize) -> usize {
    bytes_needed(count, TASK_BITS)
}

/// The bytes of a file of `count` tasks that have so many bits each.
fn bytes_needed(count: usize, task_bits: usize) -> usize {
    (HEADER_BITS + task_bits * count).div_ceil(8)
}

/// Takes fields out of bytes, the most significant bit first.
struct BitReader<'a> {
    bytes: std::slice::Iter<'a, u8>,
    held: u64,
    bits: u32,
}

impl<'a> BitReader<'a> {
    /// Begins at the first bit.
    fn new(bytes: &'a [u8]) -> Self {
        BitReader { bytes: bytes.iter(), held: 0, bits: 0 }
    }

    /// The next field; bits behind the last byte are 0.
    #[inline]
    fn take(&mut self, width: u32) -> u32 {
        while self.bits < width {
            let byte = self.bytes.next().copied().unwrap_or(0);
            self.held = self.held << 8 | u64::from(byte);
            self.bits += 8;
        }
        self.bits -= width;
        (self.held >> self.bits) as u32 & ((1 << width) - 1)
    }
}

/// Puts fields into bytes, the most significant bit first.
struct BitWriter<'a> {
    bytes: std::slice::IterMut<'a, u8>,
    held: u64,
    bits: u32,
}

impl<'a> BitWriter<'a> {
    /// Begins at the first bit.
    fn new(bytes: &'a mut [u8]) -> Self {
        BitWriter { bytes: bytes.iter_mut(), held: 0, bits: 0 }
    }

    /// Puts a field behind the others; what has no place is lost.
    #[inline]
    fn put(&mut self, width: u32, value: u32) {
        self.held = self.held << width | u64::from(value);
        self.bits += width;
        while self.bits >= 8 {
            self.bits -= 8;
            if let Some(byte) = self.bytes.next() {
                *byte = (self.held >> self.bits) as u8;
            }
        }
    }

    /// Fills the rest of the last byte with 0.
    fn finish(mut self) {
        if self.bits > 0 {
            self.put(8 - self.bits, 0);
        }
    }
}

/// Refusal 2.
fn bad_count(count: u32) -> bool {
    count == 0 || count as usize > MAX_TASKS
}

/// Refusal 5.
fn bad_period(p: u32, q: u32) -> bool {
    !(1..=MAX_PERIOD).contains(&p) || !(1..=MAX_PERIOD).contains(&q) || p < q
}

/// The kinds of tables. A table that is of both kinds is nested.
#[derive(Clone, Copy, Debug, PartialEq, Eq)]
pub enum Kind {
    Nested,
    Similar,
}

/// The inner window lies in the outer one, in frames.
fn contains(outer: &Task, inner: &Task) -> bool {
    outer.release <= inner.release && inner.deadline <= outer.deadline
}

/// One of the windows contains the other.
#[inline]
fn nested(a: &Task, b: &Task) -> bool {
    contains(a, b) || contains(b, a)
}

/// The window that is released earlier has no later deadline; equal releases put no condition.
fn similar(a: &Task, b: &Task) -> bool {
    match a.release.cmp(&b.release) {
        Ordering::Less => a.deadline <= b.deadline,
        Ordering::Equal => true,
        Ordering::Greater => b.deadline <= a.deadline,
    }
}

/// Refusal 6.
fn check_frames(tasks: &[Task]) -> Result<(), Refusal> {
    match tasks.iter().position(|task| task.release >= task.deadline) {
        Some(k) => refuse(6, k),
        None => Ok(()),
    }
}

/// Refusals 6 and 7, and the kind of a table that has neither fault.
pub fn check_windows(tasks: &[Task]) -> Result<Kind, Refusal> {
    check_frames(tasks)?;
    // Of the tasks so far all are nested; all are similar.
    let (mut all_nested, mut all_similar) = (true, true);
    for (k, task) in tasks.iter().enumerate() {
        all_nested = all_nested && tasks[..k].iter().all(|earlier| nested(earlier, task));
        all_similar = all_similar && tasks[..k].iter().all(|earlier| similar(earlier, task));
        if !all_nested && !all_similar {
            return refuse(7, k);
        }
    }
    Ok(if all_nested { Kind::Nested } else { Kind::Similar })
}

/// Reading.
pub fn read(file: &[u8]) -> Result<Table, Refusal> {
    read_with_kind(file).map(|(table, _)| table)
}

/// What a file begins with.
struct Header {
    count: u32,
    p: u32,
    q: u32,
}

/// The header of a file whose tasks have so many bits each, and the reader behind it. Refusals 1 to 5.
fn read_header(file: &[u8], task_bits: usize) -> Result<(Header, BitReader<'_>), Refusal> {
    if file.len() < 4 {
        return refuse(1, file.len());
    }
    let mut bits = BitReader::new(file);
    let count = bits.take(COUNT_BITS);
    if bad_count(count) {
        return refuse(2, 0);
    }
    let needed = bytes_needed(count as usize, task_bits);
    if file.len() < needed {
        return refuse(1, file.len());
    }
    if file.len() > needed {
        return refuse(3, needed);
    }
    let padding = 8 * needed - (HEADER_BITS + task_bits * count as usize);
    if file[needed - 1] & ((1 << padding) - 1) != 0 {
        return refuse(4, 0);
    }
    let p = bits.take(PERIOD_BITS);
    let q = bits.take(PERIOD_BITS);
    if bad_period(p, q) {
        return refuse(5, 0);
    }
    Ok((Header { count, p, q }, bits))
}

/// The next four fields, which are a task.
#[inline]
fn take_task(bits: &mut BitReader) -> Task {
    Task { release: bits.take(FRAME_BITS), deadline: bits.take(FRAME_BITS), mandatory: bits.take(TICK_BITS), optional: bits.take(TICK_BITS) }
}

/// Reading, and the kind of the table.
fn read_with_kind(file: &[u8]) -> Result<(Table, Kind), Refusal> {
    let (Header { count, p, q }, mut bits) = read_header(file, TASK_BITS)?;
    let mut table = Table { count, p, q, ..Table::ZERO };
    for task in &mut table.tasks[..count as usize] {
        *task = take_task(&mut bits);
    }
    let kind = check_windows(table.tasks())?;
    Ok((table, kind))
}

/// Puts what a file begins with.
fn put_header(bits: &mut BitWriter, table: &Table) {
    bits.put(COUNT_BITS, table.count);
    bits.put(PERIOD_BITS, table.p);
    bits.put(PERIOD_BITS, table.q);
}

/// Puts the four fields of a task.
#[inline]
fn put_task(bits: &mut BitWriter, task: &Task) {
    bits.put(FRAME_BITS, task.release);
    bits.put(FRAME_BITS, task.deadline);
    bits.put(TICK_BITS, task.mandatory);
    bits.put(TICK_BITS, task.optional);
}

/// The file of a legal table, into a list of exactly its length.
fn encode(table: &Table, file: &mut [u8]) {
    let mut bits = BitWriter::new(file);
    put_header(&mut bits, table);
    for task in table.tasks() {
        put_task(&mut bits, task);
    }
    bits.finish();
}

/// Refusals 2, 5 and 12: what writing looks at before the windows.
fn check_fields(table: &Table) -> Result<(), Refusal> {
    if bad_count(table.count) {
        return refuse(2, 0);
    }
    if bad_period(table.p, table.q) {
        return refuse(5, 0);
    }
    let too_wide = |t: &Task| t.release > LAST_FRAME || t.deadline > LAST_FRAME || t.mandatory > MAX_TICKS || t.optional > MAX_TICKS;
    match table.tasks().iter().position(too_wide) {
        Some(k) => refuse(12, k),
        None => Ok(()),
    }
}

/// Writing; replies the number of bytes written.
pub fn write(table: &Table, out: &mut [u8]) -> Result<usize, Refusal> {
    check_fields(table)?;
    check_windows(table.tasks())?;
    let needed = file_length(table.count as usize);
    let Some(file) = out.get_mut(..needed) else {
        return refuse(9, 0);
    };
    encode(table, file);
    Ok(needed)
}

/// Moving by a signed number of frames; replies the number of bytes written.
pub fn shift(file: &[u8], frames: i32, out: &mut [u8]) -> Result<usize, Refusal> {
    let mut table = read(file)?;
    let moved = |frame: u32| {
        let frame = i64::from(frame) + i64::from(frames);
        u32::try_from(frame).ok().filter(|&f| f <= LAST_FRAME)
    };
    for (k, task) in table.tasks[..table.count as usize].iter_mut().enumerate() {
        let (Some(release), Some(deadline)) = (moved(task.release), moved(task.deadline)) else {
            return refuse(10, k);
        };
        (task.release, task.deadline) = (release, deadline);
    }
    let Some(out) = out.get_mut(..file.len()) else {
        return refuse(9, 0);
    };
    encode(&table, out);
    Ok(file.len())
}

// ---- planning

/// Above every tick and every sum of ticks: no list.
const NONE: u32 = u32::MAX / 2;

/// A task in ticks.
#[derive(Clone, Copy, Default)]
struct Job {
    position: usize,
    release: u32,
    deadline: u32,
    mandatory: u32,
    optional: u32,
}

impl Job {
    /// The mandatory ticks, and the optional ones where they are kept.
    fn work(&self, kept: bool) -> u32 {
        self.mandatory + if kept { self.optional } else { 0 }
    }

    /// The ticks of the window, 0 where it is empty.
    fn ticks(&self) -> u32 {
        self.deadline.saturating_sub(self.release)
    }

    /// When this much work of the job ends, as early as it can once the processor is free; NONE where that is after the deadline. No work ends at
    /// once, whatever the window.
    fn end(&self, free: u32, work: u32) -> u32 {
        let end = free.max(self.release) + work;
        match work {
            0 => free,
            _ if end <= self.deadline => end,
            _ => NONE,
        }
    }
}

/// The tasks in the order of the table's kind, the lower position first among equals, and how many there are. Nest order: the window with fewer frames
/// first. Similar order: by release frame, then deadline frame. Their ticks are those at the launch tick.
fn in_order(table: &Table, kind: Kind, launch: u32) -> ([Job; MAX_TASKS], usize) {
    let n = table.count as usize;
    let clock = table.clock(launch);
    let mut order = [(0, 0); MAX_TASKS];
    for (k, task) in table.tasks().iter().enumerate() {
        let key = match kind {
            Kind::Nested => u64::from(task.deadline - task.release),
            Kind::Similar => u64::from(task.release) << 32 | u64::from(task.deadline),
        };
        order[k] = (key, k);
    }
    order[..n].sort_unstable();
    let mut jobs = [Job::default(); MAX_TASKS];
    for (job, &(_, position)) in jobs.iter_mut().zip(&order[..n]) {
        let task = table.tasks[position];
        *job = Job {
            position,
            release: clock.release(task.release),
            deadline: clock.deadline(task.deadline),
            mandatory: task.mandatory,
            optional: task.optional,
        };
    }
    (jobs, n)
}

/// The first nested job where the mandatory ticks up to and with it exceed its window.
fn first_exceeding(jobs: &[Job]) -> Option<&Job> {
    let mut mandatory = 0;
    jobs.iter().find(|job| {
        mandatory += job.mandatory;
        mandatory > job.ticks()
    })
}

/// The first similar job whose mandatory ticks end too late, those of all before it run in order.
fn first_late(jobs: &[Job]) -> Option<&Job> {
    let mut free = 0;
    jobs.iter().find(|job| {
        free = job.end(free, job.mandatory);
        free == NONE
    })
}

/// Which optional parts are kept, by nest order. The mandatory parts alone fit.
///
/// For each number k of kept parts, `least[k]` is the least total of kept optional ticks over the fitting lists of the jobs so far that keep k parts.
/// A smaller total fits wherever a greater one does, so it is enough to know the least. `keeps[i][k]` says that job i is kept by the list that
/// is best by the rules among those of the jobs up to i that keep k parts.
fn choose_nested(jobs: &[Job]) -> [bool; MAX_TASKS] {
    let mut least = [NONE; MAX_TASKS + 1];
    least[0] = 0;
    let mut keeps = [[false; MAX_TASKS + 1]; MAX_TASKS];
    let mut mandatory = 0;
    let mut parts = 0;
    for (job, keeps) in jobs.iter().zip(&mut keeps) {
        mandatory += job.mandatory;
        let room = job.ticks() - mandatory;
        if job.optional > 0 {
            parts += 1;
            for k in (1..=parts).rev() {
                let with = least[k - 1] + job.optional;
                keeps[k] = with <= least[k];
                least[k] = with.min(least[k]);
            }
        }
        for total in &mut least[1..=parts] {
            if *total > room {
                *total = NONE;
            }
        }
    }
    let mut k = (0..=parts).rev().find(|&k| least[k] < NONE).unwrap_or(0);
    let mut kept = [true; MAX_TASKS];
    for (i, job) in jobs.iter().enumerate().rev() {
        if job.optional > 0 {
            kept[i] = k > 0 && keeps[i][k];
            k -= usize::from(kept[i]);
        }
    }
    kept
}

/// Which optional parts are kept, by similar order. The mandatory parts alone end by the deadlines.
///
/// There is a row for each number i of jobs from 0 on: at k it has the least end of the first i jobs over the fitting lists that keep k of their
/// parts. A list that ends earlier leaves at least as much to the jobs behind it, so it is enough to know the least. The rows are read from the last
/// job back: a job is kept where some list of the jobs before it ends early enough that the job, and then all that was decided behind it, still end
/// in time. `latest` is the latest end that does. A decision noted when a row is made would not do: it belongs to the list that ends first, and a
/// list that ends later but still in time may keep the later job.
fn choose_similar(jobs: &[Job]) -> [bool; MAX_TASKS] {
    let width = jobs.len() + 1;
    let mut rows = vec![NONE; width * width];
    rows[0] = 0;
    let mut parts = 0;
    for (i, job) in jobs.iter().enumerate() {
        let (done, next) = rows.split_at_mut(width * (i + 1));
        let row = &done[width * i..][..=parts];
        for (end, &before) in next.iter_mut().zip(row) {
            *end = job.end(before, job.work(false));
        }
        if job.optional > 0 {
            parts += 1;
            for (end, &before) in next[1..].iter_mut().zip(row) {
                *end = job.end(before, job.work(true)).min(*end);
            }
        }
    }
    let mut k = (0..=parts).rev().find(|&k| rows[width * jobs.len() + k] < NONE).unwrap_or(0);
    let mut latest = NONE - 1;
    let mut kept = [true; MAX_TASKS];
    for (i, job) in jobs.iter().enumerate().rev() {
        if job.optional > 0 {
            kept[i] = k > 0 && job.end(rows[width * i + k - 1], job.work(true)) <= latest;
            k -= usize::from(kept[i]);
        }
        let work = job.work(kept[i]);
        if work > 0 {
            latest = latest.min(job.deadline) - work;
        }
    }
    kept
}

/// The free stretches of a window, by start; no two of them touch.
struct Free {
    window: (u32, u32),
    gaps: VecDeque<(u32, u32)>,
}

impl Free {
    /// Widens the window to one that contains it. What comes to it is free.
    fn widen(&mut self, release: u32, deadline: u32) {
        if release < self.window.0 {
            match self.gaps.front_mut() {
                Some(gap) if gap.0 == self.window.0 => gap.0 = release,
                _ => self.gaps.push_front((release, self.window.0)),
            }
        }
        if self.window.1 < deadline {
            match self.gaps.back_mut() {
                Some(gap) if gap.1 == self.window.1 => gap.1 = deadline,
                _ => self.gaps.push_back((self.window.1, deadline)),
            }
        }
        self.window = (release, deadline);
    }

    /// Takes up to `ticks` of the latest ticks that are free and lie in one stretch.
    fn take_latest(&mut self, ticks: u32) -> Option<(u32, u32)> {
        let gap = self.gaps.back_mut()?;
        let end = gap.1;
        let start = gap.0.max(end.saturating_sub(ticks));
        gap.1 = start;
        if gap.0 == start {
            self.gaps.pop_back();
        }
        Some((start, end))
    }
}

/// The runs by start. Each job in nest order takes the latest ticks of its window that are still free. The jobs before it lie inside its window, so
/// it is enough to know what is free in the window of the last one. Jobs of no work are passed over; the windows of the others are not empty.
fn place_nested(jobs: &[Job], kept: &[bool; MAX_TASKS]) -> Vec<Run> {
    let mut runs = Vec::with_capacity(2 * jobs.len());
    let mut working = jobs.iter().zip(kept).map(|(job, &kept)| (job, job.work(kept))).filter(|&(_, work)| work > 0).peekable();
    let first = working.peek().map_or(0, |(job, _)| job.release);
    let mut free = Free { window: (first, first), gaps: VecDeque::with_capacity(jobs.len() + 1) };
    for (job, mut work) in working {
        free.widen(job.release, job.deadline);
        while work > 0 {
            let Some((start, end)) = free.take_latest(work) else { break };
            runs.push(Run { start, end, task: job.position as u32 });
            work -= end - start;
        }
    }
    runs.sort_unstable_by_key(|run| run.start);
    runs
}

/// The runs by start. Each job in similar order runs as early as it can, after those before it and from its release on.
fn place_similar(jobs: &[Job], kept: &[bool; MAX_TASKS]) -> Vec<Run> {
    let mut runs = Vec::with_capacity(jobs.len());
    let mut free = 0;
    for (job, &kept) in jobs.iter().zip(kept) {
        let work = job.work(kept);
        if work > 0 {
            let start = job.release.max(free);
            free = start + work;
            runs.push(Run { start, end: free, task: job.position as u32 });
        }
    }
    runs
}

/// The lists that a plan is written to.
struct Lists<'a> {
    marks: &'a mut [u8],
    starts: &'a mut [u32],
    ends: &'a mut [u32],
    tasks: &'a mut [u32],
}

impl Lists<'_> {
    /// Refusal 9 for a table of n tasks.
    fn check(&self, n: usize) -> Result<(), Refusal> {
        let most_runs = 2 * n - 1;
        if self.marks.len() < n || self.starts.len() < most_runs || self.ends.len() < most_runs || self.tasks.len() < most_runs {
            return refuse(9, 0);
        }
        Ok(())
    }

    /// Writes a plan: marks by position, runs by start. The counts leave parts of 0 ticks out.
    fn fill(self, jobs: &[Job], kept: &[bool; MAX_TASKS], runs: &[Run]) -> Plan {
        let mut plan = Plan { kept: 0, discarded: 0, runs: runs.len() };
        for (job, &kept) in jobs.iter().zip(kept) {
            self.marks[job.position] = u8::from(kept);
            if job.optional > 0 {
                plan.kept += u32::from(kept);
                plan.discarded += u32::from(!kept);
            }
        }
        for (((run, start), end), task) in runs.iter().zip(self.starts).zip(self.ends).zip(self.tasks) {
            (*start, *end, *task) = (run.start, run.end, run.task);
        }
        plan
    }
}

/// Planning at a launch tick: marks by position, runs by start.
pub fn plan(file: &[u8], launch: u32, marks: &mut [u8], starts: &mut [u32], ends: &mut [u32], tasks: &mut [u32]) -> Result<Plan, Refusal> {
    let (table, kind) = read_with_kind(file)?;
    check_launch(launch)?;
    let (jobs, n) = in_order(&table, kind, launch);
    let jobs = &jobs[..n];
    let unmet = match kind {
        Kind::Nested => first_exceeding(jobs),
        Kind::Similar => first_late(jobs),
    };
    if let Some(job) = unmet {
        return refuse(8, job.position);
    }
    let lists = Lists { marks, starts, ends, tasks };
    lists.check(n)?;
    let (kept, runs) = match kind {
        Kind::Nested => {
            let kept = choose_nested(jobs);
            (kept, place_nested(jobs, &kept))
        }
        Kind::Similar => {
            let kept = choose_similar(jobs);
            (kept, place_similar(jobs, &kept))
        }
    };
    Ok(lists.fill(jobs, &kept, &runs))
}

// ---- judging

/// Refusal 13.
fn check_count(runs: &[Run]) -> Result<(), Refusal> {
    if runs.len() > MAX_RUNS {
        return refuse(13, 0);
    }
    Ok(())
}

/// The runs follow one another in time, none is empty, each is inside the window that its task has at the launch tick, and each task's runs total its
/// work.
fn is_running(table: &Table, launch: u32, marks: &[u8], runs: &[Run]) -> bool {
    let clock = table.clock(launch);
    let mut windows = [(0, 0); MAX_TASKS];
    let mut missing = [0; MAX_TASKS];
    for (k, (task, &mark)) in table.tasks().iter().zip(marks).enumerate() {
        windows[k] = (clock.release(task.release), clock.deadline(task.deadline));
        missing[k] = task.mandatory + u32::from(mark) * task.optional;
    }
    let n = table.count as usize;
    let mut last_end = 0;
    for &Run { start, end, task } in runs {
        let task = task as usize;
        if start >= end || start < last_end || task >= n {
            return false;
        }
        let (release, deadline) = windows[task];
        if start < release || end > deadline || end - start > missing[task] {
            return false;
        }
        missing[task] -= end - start;
        last_end = end;
    }
    missing[..n].iter().all(|&ticks| ticks == 0)
}

/// Judging at a launch tick.
pub fn judge(file: &[u8], launch: u32, marks: &[u8], runs: &[Run]) -> Result<Verdict, Refusal> {
    judge_table(&read(file)?, launch, marks, runs)
}

/// Judging of what a table's file was read to.
fn judge_table(table: &Table, launch: u32, marks: &[u8], runs: &[Run]) -> Result<Verdict, Refusal> {
    check_launch(launch)?;
    let n = table.count as usize;
    if marks.len() != n {
        return refuse(11, n);
    }
    if let Some(k) = marks.iter().position(|&mark| mark > 1) {
        return refuse(11, k);
    }
    check_count(runs)?;
    if !is_running(table, launch, marks, runs) {
        return Ok(Verdict { yes: false, kept: 0, discarded: 0 });
    }
    let (mut kept, mut discarded) = (0, 0);
    for (task, &mark) in table.tasks().iter().zip(marks) {
        if task.optional > 0 {
            kept += u32::from(mark == 1);
            discarded += u32::from(mark == 0);
        }
    }
    Ok(Verdict { yes: true, kept, discarded })
}

// ---- the busy count and the queries of a run list

/// Refusals 13 and 15: what the busy count and the queries refuse of a list.
pub fn check_runs(runs: &[Run]) -> Result<(), Refusal> {
    check_count(runs)?;
    // No start lies before 0, so the first run may have any.
    let mut last_end = 0;
    for (i, run) in runs.iter().enumerate() {
        if run.start >= run.end || run.start < last_end {
            return refuse(15, i);
        }
        last_end = run.end;
    }
    Ok(())
}

/// The busy count: how many ticks of the interval from a to b some run holds. No two runs of a list
/// that is accepted hold the same tick, so the shared ticks add up to it.
pub fn busy(runs: &[Run], a: u32, b: u32) -> Result<u64, Refusal> {
    check_runs(runs)?;
    // Where a is not below b, the lesser end is not above the greater start: the shared ticks are 0.
    let shared = runs.iter().map(|run| u64::from(run.end.min(b).saturating_sub(run.start.max(a))));
    Ok(shared.sum())
}

/// The run that holds a tick, if one does: the first that has not ended by then, if it has begun.
pub fn run_at(runs: &[Run], tick: u32) -> Result<Option<Run>, Refusal> {
    check_runs(runs)?;
    let first = runs.partition_point(|run| run.end <= tick);
    Ok(runs.get(first).copied().filter(|run| run.start <= tick))
}

/// The first run that starts at a tick or after it, if one does.
pub fn run_from(runs: &[Run], tick: u32) -> Result<Option<Run>, Refusal> {
    check_runs(runs)?;
    let first = runs.partition_point(|run| run.start < tick);
    Ok(runs.get(first).copied())
}

/// The indices of the runs that share a tick with the interval from a to b: those that have not ended by a and begin before b. An empty stretch,
/// which is also the answer to a list that is refused, is 0..0.
pub fn runs_touching(runs: &[Run], a: u32, b: u32) -> Range<usize> {
    if a >= b || check_runs(runs).is_err() {
        return 0..0;
    }
    let first = runs.partition_point(|run| run.end <= a);
    let touching = runs[first..].partition_point(|run| run.start < b);
    match touching {
        0 => 0..0,
        _ => first..first + touching,
    }
}
