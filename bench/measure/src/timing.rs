//! Medians, and the rows of the table.

use std::hint::black_box;
use std::time::Duration;

const ROUNDS: usize = 15;
const ENOUGH: Duration = Duration::from_millis(40);

#[repr(C)]
struct Clock {
    seconds: i64,
    nanoseconds: i64,
}

const PROCESS_TIME: i32 = 2;

unsafe extern "C" {
    fn clock_gettime(clock: i32, time: *mut Clock) -> i32;
}

/// The time that the processor has spent on this process, so that what else runs on the machine counts little.
fn now() -> Duration {
    let mut clock = Clock { seconds: 0, nanoseconds: 0 };
    // The clock is written to, and nothing else.
    let status = unsafe { clock_gettime(PROCESS_TIME, &mut clock) };
    assert_eq!(status, 0, "no clock of this process");
    Duration::new(clock.seconds as u64, clock.nanoseconds as u32)
}

fn elapsed<T>(times: u32, f: &impl Fn() -> T) -> Duration {
    let begin = now();
    for _ in 0..times {
        black_box(f());
    }
    now() - begin
}

/// So many calls that they take long enough to be timed.
fn calls_for(f: &impl Fn() -> u64) -> u32 {
    let mut times = 1;
    while elapsed(times, f) < ENOUGH {
        times *= 2;
    }
    times
}

fn median(mut of: Vec<f64>) -> f64 {
    of.sort_by(f64::total_cmp);
    of[of.len() / 2]
}

/// Microseconds for one call of each of the two, measured in turns; both must answer the same.
pub fn both(first: impl Fn() -> u64, second: impl Fn() -> u64) -> (f64, f64) {
    assert_eq!(first(), second(), "the two sides answer differently");
    let (first_calls, second_calls) = (calls_for(&first), calls_for(&second));
    let (mut firsts, mut seconds) = (Vec::new(), Vec::new());
    for _ in 0..ROUNDS {
        firsts.push(elapsed(first_calls, &first).as_secs_f64() * 1e6 / f64::from(first_calls));
        seconds.push(elapsed(second_calls, &second).as_secs_f64() * 1e6 / f64::from(second_calls));
    }
    (median(firsts), median(seconds))
}

pub fn row(what: &str, (proved, plain): (f64, f64)) {
    println!("| {what} | {proved:.1} | {plain:.1} | {:.2} |", proved / plain);
}
