//! Traces that end in a crate worth a scan.
//!
//! Some signals exist, from none to most; each output selects some words,
//! from none to all; so that scans end at every word, for every signal.

use super::{Scene, Script};
use crate::map::{SELECTION_WORDS, SELECT_FORWARD};
use crate::numbers::{COUNTERS, GATE_BITS, INPUT_BITS, OUTPUTS};

/// How many counters are past a threshold.
const PERCENT_OVER: [u64; 6] = [0, 2, 10, 30, 60, 100];
/// How many of an output's words select something.
const PERCENT_SELECTED: [u64; 8] = [0, 10, 20, 40, 60, 80, 100, 100];
const GROUND: u16 = 54;
const TICKS_A_REQUEST: u64 = 129;

/// What comes after the selections and may take signals away again.
const CHANGES: [Scene; 6] = [
    Script::pulses,
    Script::gate_walk,
    Script::watchdog_reset,
    Script::control_counters,
    Script::interlocks,
    Script::stray_writes,
];

/// The bytes of a seed's trace.
pub fn trace(seed: u64) -> Vec<u8> {
    let mut script = Script::new(seed);
    script.ticks_left = 1_000;
    let early = script.dice.percent(60);
    if early {
        script.select_outputs();
    }
    script.signals();
    if !early {
        script.select_outputs();
    }
    if script.dice.percent(20) {
        let change = script.dice.one_of(&CHANGES);
        change(&mut script);
    }
    script.bytes
}

/// Signals.
impl Script {
    /// Gates come first, as no count moves behind a closed one.
    fn signals(&mut self) {
        self.gates_open_or_in_error();
        if self.dice.percent(40) {
            self.watchdogs_in_error();
        }
        if self.dice.percent(70) {
            self.counts_over();
        }
        if self.dice.percent(30) {
            self.thresholds_passed();
        }
    }

    /// Few bits of a word or none, at times any.
    fn some_bits(&mut self) -> u16 {
        let (one, other, noise) = (1 << self.dice.below(16), 1 << self.dice.below(16), self.dice.word());
        self.dice.one_of(&[0, 0, 0, 0, one, one, one | other, noise, 0xFFFF])
    }

    /// Gates in DIRECT and in ERROR; some of both are low at the end.
    fn gates_open_or_in_error(&mut self) {
        let (errors, low) = (self.some_bits(), self.some_bits());
        self.set_mode(GATE_BITS & !errors);
        self.gate_levels = GATE_BITS;
        self.tick(1);
        self.gate_levels = GATE_BITS & !low;
        self.tick(1);
    }

    /// All are in error after a tick with the timeout 0; resets leave some.
    fn watchdogs_in_error(&mut self) {
        self.write(0x0800, 0);
        self.tick(1);
        self.write(0x0800, 0xFFFF);
        for block in 0..4 {
            let left = self.some_bits();
            self.write(0x0810 + block, !left);
            self.write(0x0810 + block, 0);
        }
    }

    /// Some counters, at times all, and the signs by which they are over: all negative, all positive, or either.
    fn some_counters(&mut self) -> (Vec<u16>, [bool; 2]) {
        let chance = self.dice.one_of(&PERCENT_OVER);
        let counters = (0..COUNTERS as u16).filter(|_| self.dice.percent(chance)).collect();
        (counters, self.dice.one_of(&[[false, false], [true, true], [false, true]]))
    }

    /// Counts of 1 and -1, past the thresholds of power-up.
    fn counts_over(&mut self) {
        let (counters, signs) = self.some_counters();
        let gate = self.dice.below(12) as u16;
        for counter in counters {
            let input = self.dice.below(54) as u16;
            let (up, down) = if self.dice.one_of(&signs) { (input, GROUND) } else { (GROUND, input) };
            self.write(0x1000 + counter, gate << 12 | down << 6 | up);
        }
        self.tick_with(1, INPUT_BITS, self.gate_levels | 1 << gate);
        self.tick(1);
    }

    /// Thresholds of -1 and 1, which a count of 0 passes, loaded into all counters.
    fn thresholds_passed(&mut self) {
        let (counters, signs) = self.some_counters();
        for counter in counters {
            let positive = self.dice.one_of(&signs);
            let words = if positive { [0xFFFF, 0xFFFF, 0, 0] } else { [0, 0, 1, 0] };
            (0..).zip(words).for_each(|(k, word)| self.write(0x8000 + 4 * counter + k, word));
        }
        self.write(0x0A02, 0x1000);
        self.tick(TICKS_A_REQUEST);
    }
}

/// Selections.
impl Script {
    fn select_outputs(&mut self) {
        (0..OUTPUTS as u16).for_each(|output| self.select_words(0x1100 + 0x20 * output));
    }

    /// Of the output whose words begin at this address, some words from any of them on.
    fn select_words(&mut self, base: u16) {
        let chance = self.dice.one_of(&PERCENT_SELECTED);
        let all_bits = self.dice.percent(20);
        let any_word = self.dice.below(SELECTION_WORDS as u64) as u16;
        for word in self.dice.one_of(&[0, any_word])..SELECTION_WORDS as u16 {
            if self.dice.percent(chance) {
                let bits = if all_bits { 0xFFFF } else { self.selected_bits(word) };
                self.write(base + word, bits);
            }
        }
    }

    /// A bit that the word has or, now and then, several.
    fn selected_bits(&mut self, word: u16) -> u16 {
        let used = match usize::from(word) {
            0x10 | SELECT_FORWARD => 12,
            0x14 => 6,
            _ => 16,
        };
        let (bit, noise) = (1 << self.dice.below(used), self.dice.word());
        self.dice.one_of(&[bit, bit, bit, bit, bit, noise])
    }
}
