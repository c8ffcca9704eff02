//! Times of what is measured, and the middle of many.

/// Rounds, each of which measures all; and the nanoseconds that one measurement takes at least.
pub const ROUNDS: usize = 101;
const LEAST: f64 = 2e6;

#[repr(C)]
struct Timespec {
    seconds: i64,
    nanoseconds: i64,
}

extern "C" {
    fn clock_gettime(clock: i32, time: *mut Timespec) -> i32;
}

/// The nanoseconds that this thread was run so far: what else the machine does at the same time is not counted.
fn now() -> f64 {
    const CLOCK_THREAD_CPUTIME_ID: i32 = 3;
    let mut time = Timespec { seconds: 0, nanoseconds: 0 };
    // SAFETY: `time` is C's `struct timespec`, and is written to.
    let status = unsafe { clock_gettime(CLOCK_THREAD_CPUTIME_ID, &mut time) };
    assert_eq!(status, 0, "no clock");
    time.seconds as f64 * 1e9 + time.nanoseconds as f64
}

/// The nanoseconds of a pass.
pub fn timed(passes: usize, run: &mut dyn FnMut()) -> f64 {
    let begun = now();
    for _ in 0..passes {
        run();
    }
    (now() - begun) / passes as f64
}

/// So many passes that they take the least time, after as many for warmth.
pub fn passes(run: &mut dyn FnMut()) -> usize {
    let mut n = 1;
    while timed(n, run) * (n as f64) < LEAST {
        n *= 2;
    }
    n
}

/// The value with a share of all below it.
pub fn quantile(values: &[f64], share: f64) -> f64 {
    let mut sorted = values.to_vec();
    sorted.sort_by(f64::total_cmp);
    sorted[(share * (sorted.len() - 1) as f64).round() as usize]
}
