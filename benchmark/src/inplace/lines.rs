//! Input rises, their raw counts and test signals.

use super::bits::ones;
use reference::numbers::INPUTS;

/// Frequencies of selection values 55 to 63 in kHz.
const KHZ: [u32; 9] = [10, 99, 100, 990, 1000, 9900, 10000, 24900, 25000];
const FIRST_TEST: usize = 55;
const TURN: u32 = 125_000;

pub struct Lines {
    /// Input levels of the last tick.
    levels: u64,
    /// Rises of each input since power-up.
    raw_counts: [u32; INPUTS],
    phases: [u32; 9],
}

impl Lines {
    pub fn power_up() -> Lines {
        Lines { levels: 0, raw_counts: [0; INPUTS], phases: [0; 9] }
    }

    /// The rises of a tick, that of selection value u in bit u. Those of inputs are counted.
    #[inline]
    pub fn step(&mut self, inputs: u64) -> u64 {
        let rises = inputs & !self.levels;
        self.levels = inputs;
        for i in ones(rises) {
            self.raw_counts[i] = self.raw_counts[i].wrapping_add(1);
        }
        rises | self.step_phases()
    }

    #[inline]
    fn step_phases(&mut self) -> u64 {
        let mut rises = 0;
        for (k, phase) in self.phases.iter_mut().enumerate() {
            let sum = *phase + KHZ[k];
            let rise = sum >= TURN;
            *phase = if rise { sum - TURN } else { sum };
            rises |= u64::from(rise) << (FIRST_TEST + k);
        }
        rises
    }

    /// Word k of the raw counts, the low word of each first.
    pub fn raw_word(&self, k: usize) -> u16 {
        (self.raw_counts[k / 2] >> (16 * (k % 2))) as u16
    }
}
