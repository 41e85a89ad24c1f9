//! The input watchdogs.

use super::bits::ones;
use reference::numbers::{INPUTS, INPUT_BITS};

const TIMEOUT_STEP: i32 = 128;
const VALUE_LIMIT: i32 = 8_388_480;
/// Two more than there are inputs, for whole vectors.
const PLACES: usize = 56;

pub struct Watchdogs {
    /// Ticks since the last rise or reset.
    values: [i32; PLACES],
    /// 1 where an error is latched.
    errors: [i32; PLACES],
    /// Registers 0x0800 and 0x0810 to 0x0813.
    pub timeout: u16,
    resets: u64,
}

impl Watchdogs {
    pub fn power_up() -> Watchdogs {
        Watchdogs { values: [0; PLACES], errors: [0; PLACES], timeout: 65_535, resets: 0 }
    }

    /// One tick: a rise makes the value 0, else it gains one; a value of at least 128 times the timeout is an error.
    #[inline]
    pub fn step(&mut self, rises: u64) {
        for i in ones(rises & INPUT_BITS) {
            self.values[i] = -1;
        }
        let limit = TIMEOUT_STEP * i32::from(self.timeout);
        for (value, error) in self.values.iter_mut().zip(&mut self.errors) {
            *value = VALUE_LIMIT.min(*value + 1);
            *error |= i32::from(*value >= limit);
        }
    }

    /// A write to word k of the resets: as a bit falls, error and value are cleared.
    pub fn write_reset(&mut self, k: usize, word: u16) {
        let resets = (self.resets & !(0xFFFF << (16 * k)) | u64::from(word) << (16 * k)) & INPUT_BITS;
        for i in ones(self.resets & !resets) {
            self.values[i] = 0;
            self.errors[i] = 0;
        }
        self.resets = resets;
    }

    pub fn reset_word(&self, k: usize) -> u16 {
        (self.resets >> (16 * k)) as u16
    }

    pub fn error_word(&self, k: usize) -> u16 {
        let inputs = 16 * k..INPUTS.min(16 * k + 16);
        inputs.fold(0, |word, i| word | (self.errors[i] as u16) << (i % 16))
    }
}
