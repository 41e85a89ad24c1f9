//! Random sliding sums: lists of samples since a start, and samples on states and rings that no start gave. A part of
//! the starts and states is refused.

use super::Dice;
use crate::sums::{State, LARGEST_WINDOW};

/// Lists for windows above this go round seldom, as that takes many samples.
const SMALL_WINDOW: u64 = 300;
const SAMPLES_PAST_A_ROUND: u64 = 200;
const WORDS_PAST_A_WINDOW: u64 = 40;
/// Different words of a ring; a prime, so that rounds do not meet the same ones.
const POOL: usize = 61;

/// A start on a ring that was in use, and the samples that follow.
#[derive(Clone, Debug)]
pub struct Start {
    pub window: u64,
    pub ring: Vec<i64>,
    pub samples: Vec<i32>,
}

/// Samples on a state and a ring that no start gave.
#[derive(Clone, Debug)]
pub struct Foreign {
    pub state: State,
    pub ring: Vec<i64>,
    pub samples: Vec<i32>,
}

/// A seed's start.
pub fn start(seed: u64) -> Start {
    let mut dice = Dice::new(seed);
    let window = if dice.percent(8) { bad_window(&mut dice) } else { good_window(&mut dice) };
    let ring = ring(&mut dice, window);
    let samples = samples(&mut dice, window);
    Start { window, ring, samples }
}

/// A seed's foreign state and ring.
pub fn foreign(seed: u64) -> Foreign {
    let mut dice = Dice::new(!seed);
    let window = if dice.percent(10) { bad_window(&mut dice) } else { good_window(&mut dice) };
    let place = if dice.percent(20) { bad_place(&mut dice, window) } else { good_place(&mut dice, window) };
    let state = State { window, place, sum: word(&mut dice) };
    let ring = ring(&mut dice, window);
    let samples = samples(&mut dice, window);
    Foreign { state, ring, samples }
}

/// Mostly small; the ends of the range come often.
fn good_window(dice: &mut Dice) -> u64 {
    let (few, some, any) = (1 + dice.below(8), 1 + dice.below(SMALL_WINDOW), 1 + dice.below(LARGEST_WINDOW));
    match dice.below(100) {
        0..=11 => 1,
        12..=21 => 2,
        22..=61 => few,
        62..=89 => some,
        90..=94 => any,
        95 | 96 => LARGEST_WINDOW - 1,
        _ => LARGEST_WINDOW,
    }
}

/// Some would be good if only their low bits were looked at.
fn bad_window(dice: &mut Dice) -> u64 {
    let (few, any) = (1 + dice.below(8), dice.roll() | 1 << 17);
    let low_bits = [1 << 17 | few, 1 << 32 | few, 1 << 63 | few];
    let window = dice.one_of(&[0, 0, 0, LARGEST_WINDOW + 1, LARGEST_WINDOW + 1, u64::MAX, any]);
    if dice.percent(30) { dice.one_of(&low_bits) } else { window }
}

/// Also for a window of 0, where none is good.
fn good_place(dice: &mut Dice, window: u64) -> u64 {
    let any = dice.below(window.max(1));
    dice.one_of(&[0, window.saturating_sub(1), any, any])
}

/// Some would be good if only their low bits were looked at.
fn bad_place(dice: &mut Dice, window: u64) -> u64 {
    let past = window.saturating_add(dice.below(10));
    let low_bits = dice.below(8);
    dice.one_of(&[window, window, past, window.saturating_add(1), 1 << 32 | low_bits, 1 << 63 | low_bits, u64::MAX])
}

/// A word of 64 bits, often at an end of them.
fn word(dice: &mut Dice) -> i64 {
    let (near, any) = (dice.below(5) as i64, dice.roll() as i64);
    dice.one_of(&[i64::MIN, i64::MAX, i64::MIN + near, i64::MAX - near, near, -near, any >> 31, any, any])
}

/// Mostly as long as the window or longer.
fn ring(dice: &mut Dice, window: u64) -> Vec<i64> {
    // One word more than a good window can be, so that the next larger one is refused for itself alone.
    let window = window.min(LARGEST_WINDOW + 1);
    let (longer, shorter) = (window + 1 + dice.below(WORDS_PAST_A_WINDOW), dice.below(window + 1));
    let words = match dice.below(20) {
        0 => 0,
        1 => window.saturating_sub(1),
        2 => shorter,
        3..=9 => longer,
        10 | 11 => window + 1,
        _ => window,
    };
    // Few words stand over and over, as a ring can be long.
    let pool: [i64; POOL] = std::array::from_fn(|_| word(dice));
    pool.into_iter().cycle().take(words as usize).collect()
}

/// A list that goes round a small window up to four times, and a large one seldom.
fn samples(dice: &mut Dice, window: u64) -> Vec<i32> {
    let window = window.min(LARGEST_WINDOW);
    let (rounds, past) = (dice.below(4 * window + 8), dice.below(SAMPLES_PAST_A_ROUND));
    let number = if window <= SMALL_WINDOW {
        dice.one_of(&[rounds, rounds, rounds, window, window + 1, 2 * window, 2 * window + 1])
    } else if dice.percent(10) {
        dice.one_of(&[window, window + 1, window + past, window + past, 2 * window + past])
    } else {
        past
    };
    stretches(dice, number as usize)
}

/// Samples at the ends of 32 bits, zeros and others, each once or some times in a row, at times to the list's end.
fn stretches(dice: &mut Dice, number: usize) -> Vec<i32> {
    let mut samples = Vec::new();
    while samples.len() < number {
        let (small, any) = (dice.below(9) as i32 - 4, dice.roll() as i32);
        let sample = dice.one_of(&[i32::MIN, i32::MIN, i32::MAX, i32::MAX, i32::MIN + 1, 0, small, any, any]);
        let some = 1 + dice.below(30) as usize;
        let times = if dice.percent(2) { number } else { dice.one_of(&[1, 1, 1, 2, 3, some]) };
        samples.resize((samples.len() + times).min(number), sample);
    }
    samples
}
