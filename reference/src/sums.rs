//! Sliding loss sums (02, CR 4): all samples are kept, and the last of them added up afresh.

use crate::numbers::BAD_SUM;

pub const LARGEST_WINDOW: u64 = 65_536;

/// What a call hands back for the next one.
#[derive(Clone, Copy, Debug, PartialEq, Eq)]
pub struct State {
    pub window: u64,
    /// The ring word that the next sample replaces.
    pub place: u64,
    pub sum: i64,
}

/// After a refused start: every sample on it is refused too.
pub const REFUSED_START: State = State { window: 0, place: 0, sum: 0 };

// 02, CR 4: "W outside its range, the ring shorter than W, or a state whose place in the ring is not below W, 14"
fn check(window: u64, place: u64, ring_words: usize) -> Result<(), u8> {
    let in_range = (1..=LARGEST_WINDOW).contains(&window);
    let fits = window <= ring_words as u64;
    if in_range && fits && place < window { Ok(()) } else { Err(BAD_SUM) }
}

/// All samples since a start.
#[derive(Clone, Debug)]
pub struct Samples {
    window: usize,
    all: Vec<i32>,
}

impl Samples {
    pub fn start(window: u64, ring_words: usize) -> Result<Samples, u8> {
        check(window, 0, ring_words)?;
        Ok(Samples { window: window as usize, all: Vec::new() })
    }

    /// The sum is asked for apart, as it takes a whole window.
    pub fn sample(&mut self, sample: i32) {
        self.all.push(sample);
    }

    // 02, CR 4: "the sum over the last W is given ... with earlier samples as zero"; it "equals one added up afresh"
    pub fn sum(&self) -> i64 {
        let last = self.all.iter().rev().take(self.window);
        fitting(last.map(|sample| i128::from(*sample)).sum())
    }

    /// Sample k since the start, from 0 on, is in word k modulo W until another comes there; a start clears the words.
    pub fn word(&self, j: usize) -> i64 {
        let mut held = self.all.iter().skip(j).step_by(self.window);
        held.next_back().copied().map_or(0, i64::from)
    }

    /// The first W words of the ring.
    pub fn ring(&self) -> Vec<i64> {
        (0..self.window).map(|j| self.word(j)).collect()
    }

    /// The word that the next sample replaces.
    pub fn place(&self) -> usize {
        self.all.len() % self.window
    }

    pub fn state(&self) -> State {
        State { window: self.window as u64, place: self.place() as u64, sum: self.sum() }
    }
}

/// Even 65,536 samples at one end of 32 bits stay far from the ends of 64.
fn fitting(sum: i128) -> i64 {
    i64::try_from(sum).expect("the sum of a window fits 64 bits")
}

/// The sums after each of these samples since a start, as [`Samples::sum`] gives them, for lists that are too long to
/// be added up afresh each time: the total of all samples less the total of those before the window.
pub fn sums_by_totals(window: usize, samples: &[i32]) -> Vec<i64> {
    let mut totals = vec![0];
    for sample in samples {
        totals.push(totals[totals.len() - 1] + i128::from(*sample));
    }
    (1..totals.len()).map(|end| fitting(totals[end] - totals[end.saturating_sub(window)])).collect()
}

/// One sample on any state and any ring, also where no start gave them.
// 02, CR 4: "elsewhere sums wrap at 64 bits"; "A refused ... sample touches nothing."
pub fn sampled(state: State, ring: &mut [i64], sample: i32) -> Result<State, u8> {
    let State { window, place, sum } = state;
    check(window, place, ring.len())?;
    let oldest = std::mem::replace(&mut ring[place as usize], sample.into());
    let sum = wrapped(i128::from(sum) + i128::from(sample) - i128::from(oldest));
    Ok(State { window, place: (place + 1) % window, sum })
}

/// The signed word of 64 bits that equals a number modulo 2^64.
fn wrapped(number: i128) -> i64 {
    const ALL: i128 = 1 << 64;
    let rest = number.rem_euclid(ALL);
    let signed = if rest < ALL / 2 { rest } else { rest - ALL };
    i64::try_from(signed).expect("brought into 64 bits")
}
