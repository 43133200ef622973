//! Time of the processor that this thread used, and the ratio of two programs' medians.

use std::hint::black_box;

#[repr(C)]
struct Timespec {
    seconds: i64,
    nanoseconds: i64,
}

extern "C" {
    fn clock_gettime(clock: i32, time: *mut Timespec) -> i32;
}

/// Nanoseconds that this thread has run. What other programs take is not counted.
fn now() -> u64 {
    const THREAD: i32 = 3;
    let mut time = Timespec {
        seconds: 0,
        nanoseconds: 0,
    };
    // SAFETY: the call writes the one struct that it is lent.
    let failed = unsafe { clock_gettime(THREAD, &mut time) };
    assert_eq!(failed, 0, "this system has no clock for a thread");
    time.seconds as u64 * 1_000_000_000 + time.nanoseconds as u64
}

fn time(program: &dyn Fn() -> u64, times: u64) -> u64 {
    let start = now();
    for _ in 0..times {
        black_box(program());
    }
    now() - start
}

fn median(mut times: Vec<u64>) -> f64 {
    times.sort_unstable();
    times[times.len() / 2] as f64
}

/// The median of the first program's times over that of the second one's, and in how many rounds.
/// Each round runs both, the one that goes first by turns, each for a millisecond at least.
pub fn ratio(first: &dyn Fn() -> u64, second: &dyn Fn() -> u64, seconds: u64) -> (f64, usize) {
    let once = time(first, 1).max(time(second, 1)).max(1);
    let times = 1_000_000 / once + 1;
    let rounds = (seconds * 500_000_000 / (once * times)).clamp(5, 2_000) | 1;
    let (mut firsts, mut seconds) = (Vec::new(), Vec::new());
    for round in 0..rounds {
        if round % 2 == 0 {
            firsts.push(time(first, times));
            seconds.push(time(second, times));
        } else {
            seconds.push(time(second, times));
            firsts.push(time(first, times));
        }
    }
    (median(firsts) / median(seconds), rounds as usize)
}
