//! Random captures: stretches of a few frames that may differ by one level
//! only, at times longer than a repeat can be. A part of them is damaged.

use super::Dice;
use crate::capture::{converted, frame, Frame, FRAME_BYTES};
use crate::numbers::{GATE_BITS, INPUT_BITS};

const TICK_BYTES: usize = 14;
/// One capture in so many has a stretch around the largest repeat.
const CAPTURES_TO_A_LONG_ONE: u64 = 500;

/// The bytes of a seed's capture.
pub fn capture(seed: u64) -> Vec<u8> {
    let mut dice = Dice::new(seed);
    let pool = pool(&mut dice);
    let mut capture = Vec::new();
    for _ in 0..dice.below(20) {
        let length = stretch(&mut dice);
        capture.extend(dice.one_of(&pool).repeat(length));
    }
    if dice.percent(12) {
        spoil_levels(&mut dice, &mut capture);
    }
    if dice.percent(8) {
        cut_or_lengthen(&mut dice, &mut capture);
    }
    capture
}

/// An output's length for a seed's capture: mostly around the trace's length, or around the most that it can be where
/// the capture is refused.
pub fn room(seed: u64) -> usize {
    let mut dice = Dice::new(!seed);
    let capture = capture(seed);
    let most = TICK_BYTES * (capture.len() / FRAME_BYTES);
    let length = converted(&capture, most).map_or(most, |trace| trace.len());
    match dice.below(10) {
        0 => 0,
        1 | 2 => length.saturating_sub(1),
        3 => length.saturating_sub(TICK_BYTES),
        4..=6 => length,
        7 => length + 1,
        _ => length + dice.below(100) as usize,
    }
}

/// One frame to four; each may be the one before it with another level on one line.
fn pool(dice: &mut Dice) -> Vec<Frame> {
    let (mut inputs, mut gates) = (dice.one_of(&[0, INPUT_BITS]), 0);
    let mut pool = vec![frame(inputs, gates)];
    for _ in 0..dice.below(4) {
        match dice.below(3) {
            0 => inputs ^= 1 << dice.below(54),
            1 => gates ^= 1 << dice.below(12),
            _ => (inputs, gates) = (dice.roll() & INPUT_BITS, dice.word() & GATE_BITS),
        }
        pool.push(frame(inputs, gates));
    }
    pool
}

fn stretch(dice: &mut Dice) -> usize {
    // A capture has some ten stretches.
    if dice.below(10 * CAPTURES_TO_A_LONG_ONE) == 0 {
        return dice.one_of(&[65_534, 65_535, 65_536, 65_537, 131_070, 131_071]);
    }
    let any = 1 + dice.below(40) as usize;
    dice.one_of(&[1, 1, 1, 2, 3, any])
}

/// A level on a line that does not exist, in one frame or two.
fn spoil_levels(dice: &mut Dice, capture: &mut [u8]) {
    let frames = capture.len() / FRAME_BYTES;
    if frames == 0 {
        return;
    }
    for _ in 0..1 + dice.below(2) {
        let at = FRAME_BYTES * dice.below(frames as u64) as usize;
        let (byte, bit) = dice.one_of(&[(0, 6), (0, 7), (7, 4), (7, 5), (7, 6), (7, 7)]);
        capture[at + byte] |= 1 << bit;
    }
}

fn cut_or_lengthen(dice: &mut Dice, capture: &mut Vec<u8>) {
    let bytes = 1 + dice.below(8) as usize;
    if dice.percent(50) {
        capture.truncate(capture.len().saturating_sub(bytes));
    } else {
        capture.extend(vec![0xFF; bytes]);
    }
}
