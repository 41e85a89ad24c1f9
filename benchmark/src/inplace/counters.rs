//! The counters, and which of them each line and each gate reaches.

use super::bits::{counters_in, ones};
use super::loader::Request;
use super::Memory;
use reference::numbers::{COUNTERS, DATASET_WORDS};

const POWER_UP_INPUT: u16 = 0xFDB6;
const RESET: u16 = 1;
const AUTORESET: u16 = 2;

pub struct Counters {
    pub counts: [i32; COUNTERS],
    pub positive: [i32; COUNTERS],
    pub negative: [i32; COUNTERS],
    /// Registers 0x1000 to 0x107F, 0x1600 to 0x161F and 0x0801.
    pub inputs: [u16; COUNTERS],
    pub groups: [u16; COUNTERS / 4],
    pub control: u16,
    /// The counters that have a value in UP, DOWN or GATE.
    with_up: [u128; 64],
    with_down: [u128; 64],
    with_gate: [u128; 16],
}

/// UP, DOWN and GATE of an input register.
fn fields(word: u16) -> (usize, usize, usize) {
    let word = usize::from(word);
    (word & 0x3F, word >> 6 & 0x3F, word >> 12)
}

/// The counters that the lines of a word reach.
#[inline]
fn reached(table: &[u128], lines: u64) -> u128 {
    ones(lines).fold(0, |set, line| set | table[line])
}

fn joined(low: u16, high: u16) -> i32 {
    (u32::from(high) << 16 | u32::from(low)) as i32
}

impl Counters {
    pub fn power_up() -> Counters {
        let mut counters = Counters {
            counts: [0; COUNTERS],
            positive: [0; COUNTERS],
            negative: [0; COUNTERS],
            inputs: [POWER_UP_INPUT; COUNTERS],
            groups: [0; COUNTERS / 4],
            control: 0,
            with_up: [0; 64],
            with_down: [0; 64],
            with_gate: [0; 16],
        };
        let (up, down, gate) = fields(POWER_UP_INPUT);
        counters.with_up[up] = u128::MAX;
        counters.with_down[down] = u128::MAX;
        counters.with_gate[gate] = u128::MAX;
        counters
    }

    /// A write to an input register.
    pub fn patch(&mut self, n: usize, word: u16) {
        let counter = 1 << n;
        let (up, down, gate) = fields(self.inputs[n]);
        self.with_up[up] &= !counter;
        self.with_down[down] &= !counter;
        self.with_gate[gate] &= !counter;
        let (up, down, gate) = fields(word);
        self.with_up[up] |= counter;
        self.with_down[down] |= counter;
        self.with_gate[gate] |= counter;
        self.inputs[n] = word;
    }

    /// One tick: a rise of the gate's output clears first, then an open gate lets rises count. RESET has cleared all
    /// counts as it was written, and nothing counts while it is set.
    #[inline]
    pub fn step(&mut self, rises: u64, output: u16, rose: u16) {
        if output == 0 || self.control & RESET != 0 {
            return;
        }
        if self.control & AUTORESET != 0 && rose != 0 {
            for n in counters_in(reached(&self.with_gate, rose.into())) {
                self.counts[n] = 0;
            }
        }
        if rises != 0 {
            self.count(rises, reached(&self.with_gate, output.into()));
        }
    }

    #[inline]
    fn count(&mut self, rises: u64, open: u128) {
        let up = reached(&self.with_up, rises) & open;
        let down = reached(&self.with_down, rises) & open;
        for n in counters_in(up & !down) {
            self.counts[n] = self.counts[n].wrapping_add(1);
        }
        for n in counters_in(down & !up) {
            self.counts[n] = self.counts[n].wrapping_sub(1);
        }
    }

    /// A write to 0x0801.
    pub fn write_control(&mut self, word: u16) {
        self.control = word & (RESET | AUTORESET);
        if word & RESET != 0 {
            self.clear();
        }
    }

    pub fn clear(&mut self) {
        self.counts.fill(0);
    }

    /// Counter n is handled by the loader: it takes its four words if it is of the request's group.
    #[inline]
    pub fn load(&mut self, memory: &Memory, n: usize, request: Request) {
        if self.groups[n / 4] >> (4 * (n % 4)) & 0xF != request.group {
            return;
        }
        let start = DATASET_WORDS * usize::from(request.dataset) + 4 * n;
        self.positive[n] = joined(memory[start], memory[start + 1]);
        self.negative[n] = joined(memory[start + 2], memory[start + 3]);
    }

    /// Word k of the positive overflow block: counts above their threshold.
    pub fn positive_overflow(&self, k: usize) -> u16 {
        (0..16).fold(0, |word, b| word | u16::from(self.counts[16 * k + b] > self.positive[16 * k + b]) << b)
    }

    /// Word k of the negative overflow block: counts below their threshold.
    pub fn negative_overflow(&self, k: usize) -> u16 {
        (0..16).fold(0, |word, b| word | u16::from(self.counts[16 * k + b] < self.negative[16 * k + b]) << b)
    }
}
