//! Processor time of the running thread: what other programs take is not counted.

use std::hint::black_box;

/// The seconds of runs 0, 1 and so on, made in turn in every round. What a run gives is dropped behind its time.
pub fn times<T>(rounds: usize, runs: usize, mut run: impl FnMut(usize) -> T) -> Vec<Vec<f64>> {
    let mut times = vec![Vec::new(); runs];
    for _ in 0..rounds {
        for (k, times) in times.iter_mut().enumerate() {
            let start = seconds();
            let given = black_box(run(black_box(k)));
            times.push(seconds() - start);
            drop(given);
        }
    }
    times
}

/// The median seconds of each of these runs.
pub fn medians<T>(rounds: usize, runs: usize, run: impl FnMut(usize) -> T) -> Vec<f64> {
    times(rounds, runs, run).into_iter().map(median).collect()
}

pub fn median(mut numbers: Vec<f64>) -> f64 {
    numbers.sort_by(f64::total_cmp);
    numbers[numbers.len() / 2]
}

/// The median of what each round gives for one run's time by another's. It stays where all rounds of a while are slow, as
/// both runs of a round then are.
pub fn median_ratio(times: &[f64], others: &[f64]) -> f64 {
    median(times.iter().zip(others).map(|(time, other)| time / other).collect())
}

#[cfg(target_os = "linux")]
fn seconds() -> f64 {
    #[repr(C)]
    struct Time {
        seconds: i64,
        nanoseconds: i64,
    }
    extern "C" {
        fn clock_gettime(clock: i32, time: *mut Time) -> i32;
    }
    const THREAD_PROCESSOR_TIME: i32 = 3;
    let mut time = Time { seconds: 0, nanoseconds: 0 };
    // SAFETY: the pointer is to a timespec of a 64-bit Linux that lives through the call.
    let failed = unsafe { clock_gettime(THREAD_PROCESSOR_TIME, &mut time) };
    assert_eq!(failed, 0, "no processor clock");
    time.seconds as f64 + time.nanoseconds as f64 / 1e9
}

/// Elsewhere, wall time.
#[cfg(not(target_os = "linux"))]
fn seconds() -> f64 {
    use std::time::{SystemTime, UNIX_EPOCH};
    SystemTime::now().duration_since(UNIX_EPOCH).map_or(0.0, |since| since.as_secs_f64())
}
