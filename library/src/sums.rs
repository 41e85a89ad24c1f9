//! Sliding sums of a count.

use std::error::Error;
use std::fmt::{self, Display, Formatter};

/// Samples of the longest window.
pub const LARGEST_WINDOW: usize = 65_536;
const STATE_WORDS: usize = 3;
const SUM_WORDS: usize = 1;

const BAD_SUM: u16 = 14;

extern "C" {
    fn mirvacula_sum_start(
        state: *mut u64,
        state_words: usize,
        ring: *mut i64,
        ring_words: usize,
        window: u64,
    ) -> u16;
    fn mirvacula_sum_sample(
        state: *mut u64,
        state_words: usize,
        ring: *mut i64,
        ring_words: usize,
        sample: i32,
        sum: *mut i64,
        sum_words: usize,
    ) -> u16;
}

/// 14: a window that is not from 1 to 65,536.
#[derive(Clone, Copy, Debug, PartialEq, Eq)]
pub struct BadWindow {
    pub window: usize,
}

impl BadWindow {
    /// The number of the refusal.
    pub fn number(self) -> u16 {
        BAD_SUM
    }
}

impl Display for BadWindow {
    fn fmt(&self, f: &mut Formatter) -> fmt::Result {
        write!(f, "a window of {} samples is not from 1 to 65,536 ({})", self.window, self.number())
    }
}

impl Error for BadWindow {}

/// The sum over the last samples of a count. State and ring are those that a start gave, moved on by samples alone.
#[derive(Clone, Debug)]
pub struct SlidingSum {
    /// Window, place in the ring, sum in two's complement.
    state: [u64; STATE_WORDS],
    ring: Vec<i64>,
}

impl SlidingSum {
    /// Of a window of so many samples, from 1 to [`LARGEST_WINDOW`]. Those before the first sample count as 0.
    pub fn new(window: usize) -> Result<SlidingSum, BadWindow> {
        // A longer window is refused, so the ring need not be longer than the longest.
        let (mut state, mut ring) = ([0; STATE_WORDS], vec![0; window.min(LARGEST_WINDOW)]);
        match sum_start_by_numbers(&mut state, &mut ring, window as u64) {
            0 => Ok(SlidingSum { state, ring }),
            BAD_SUM => Err(BadWindow { window }),
            other => unreachable!("a start never answers {other}"),
        }
    }

    /// Takes a sample and returns the sum with it. The time does not depend on the window.
    // Inline, so that a sample is one call.
    #[inline]
    pub fn sample(&mut self, sample: i32) -> i64 {
        let mut sum = [0; SUM_WORDS];
        match sum_sample_by_numbers(&mut self.state, &mut self.ring, sample, &mut sum) {
            0 => sum[0],
            other => unreachable!("a sample after a start never answers {other}"),
        }
    }

    /// The sum over the last samples; 0 before the first.
    pub fn sum(&self) -> i64 {
        self.state[2] as i64
    }

    pub fn window(&self) -> usize {
        self.ring.len()
    }
}

/// `mirvacula_sum_start` itself: a state and a ring of any length can be lent.
#[doc(hidden)]
pub fn sum_start_by_numbers(state: &mut [u64], ring: &mut [i64], window: u64) -> u16 {
    // SAFETY: each pointer comes from a slice that is borrowed for the call, with its length; none of them overlap.
    unsafe { mirvacula_sum_start(state.as_mut_ptr(), state.len(), ring.as_mut_ptr(), ring.len(), window) }
}

/// `mirvacula_sum_sample` itself: a state, a ring and a sum of any length can be lent.
#[doc(hidden)]
#[inline]
pub fn sum_sample_by_numbers(state: &mut [u64], ring: &mut [i64], sample: i32, sum: &mut [i64]) -> u16 {
    // SAFETY: each pointer comes from a slice that is borrowed for the call, with its length; none of them overlap.
    unsafe {
        mirvacula_sum_sample(
            state.as_mut_ptr(),
            state.len(),
            ring.as_mut_ptr(),
            ring.len(),
            sample,
            sum.as_mut_ptr(),
            sum.len(),
        )
    }
}
