//! How times are measured: the processor time of batches of calls, two sides in turn, and percentiles of what comes out.

/// About how many microseconds one batch takes.
const BATCH: f64 = 500.0;

/// The processor time of this thread in microseconds: what other programs take meanwhile is left out.
fn now() -> f64 {
    #[repr(C)]
    struct Time {
        seconds: i64,
        nanoseconds: i64,
    }
    extern "C" {
        fn clock_gettime(clock: i32, time: *mut Time) -> i32;
    }
    const THREAD_CLOCK: i32 = 3; // CLOCK_THREAD_CPUTIME_ID of Linux
    let mut time = Time { seconds: 0, nanoseconds: 0 };
    let status = unsafe { clock_gettime(THREAD_CLOCK, &mut time) };
    assert_eq!(status, 0);
    time.seconds as f64 * 1e6 + time.nanoseconds as f64 / 1e3
}

/// The microseconds that one of so many calls takes.
fn time(calls: u32, call: &mut dyn FnMut()) -> f64 {
    let begun = now();
    for _ in 0..calls {
        call();
    }
    (now() - begun) / f64::from(calls)
}

/// How many calls make a batch; this also runs the call in.
fn batch_size(call: &mut dyn FnMut()) -> u32 {
    let mut calls = 1;
    while time(calls, call) * f64::from(calls) < BATCH {
        calls *= 2;
    }
    calls
}

/// The microseconds of one call in each of so many batches.
pub fn alone(batches: usize, mut call: impl FnMut()) -> Vec<f64> {
    let calls = batch_size(&mut call);
    (0..batches).map(|_| time(calls, &mut call)).collect()
}

/// The microseconds of one call in each of so many batches of both sides. The sides take turns, and which of them goes first changes from pair to
/// pair, so that a machine that gets faster or slower favours none.
pub fn in_turn(batches: usize, mut one: impl FnMut(), mut other: impl FnMut()) -> (Vec<f64>, Vec<f64>) {
    let one: &mut dyn FnMut() = &mut one;
    let other: &mut dyn FnMut() = &mut other;
    let sizes = (batch_size(one), batch_size(other));
    let (mut a, mut b) = (Vec::new(), Vec::new());
    for pair in 0..batches {
        if pair % 2 == 0 {
            a.push(time(sizes.0, one));
            b.push(time(sizes.1, other));
        } else {
            b.push(time(sizes.1, other));
            a.push(time(sizes.0, one));
        }
    }
    (a, b)
}

/// The value below which so many percent of the values lie. It is one of them, exact where their number is one above a multiple of 100.
pub fn percentile(values: &[f64], percent: usize) -> f64 {
    let mut sorted = values.to_vec();
    sorted.sort_by(f64::total_cmp);
    sorted[(sorted.len() - 1) * percent / 100]
}

/// The median of an odd number of values.
pub fn median(values: &[f64]) -> f64 {
    percentile(values, 50)
}
