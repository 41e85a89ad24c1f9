//! Counts of how the scans at the end of the traces go.

use super::Table;
use crate::generator::Family;
use crate::map::{self, Register, SELECTION_WORDS};
use crate::model::Crate;
use crate::numbers::*;
use crate::scan::Scanned;
use crate::trace::{Record, Recorder, Report};

pub struct ScanCoverage {
    /// Scans that end by a signal, by output and words read.
    ends: [[u64; SELECTION_WORDS]; OUTPUTS],
    /// Those that one signal alone ends, by word and bit.
    alone: [[u64; 16]; SELECTION_WORDS],
    /// Those with a signal in a later word, by words read.
    again: [u64; SELECTION_WORDS],
    /// Words that are read, select something and do not end the scan.
    passed: [u64; SELECTION_WORDS],
    /// Outputs at 1 that select nothing, or something in every word.
    nothing: [u64; OUTPUTS],
    every_word: [u64; OUTPUTS],
    last: Option<Crate>,
}

impl Recorder for ScanCoverage {
    fn called(&mut self, _record: &Record, _answer: u8, now: &Crate) {
        self.last = Some(now.clone());
    }

    fn stopped(&mut self, _bytes: &[u8], _budget: u64, _report: &Report) {
        let device = self.last.take().expect("a run begins with it");
        let (_, outputs) = device.scan(&[0; MEMORY_WORDS]);
        for (o, scanned) in outputs.into_iter().enumerate() {
            let selection = device.selection[o];
            self.count_passed(scanned, &selection);
            if scanned.level {
                self.nothing[o] += u64::from(selection == [0; SELECTION_WORDS]);
                self.every_word[o] += u64::from(!selection.contains(&0));
            } else {
                self.ends[o][scanned.words - 1] += 1;
                self.count_signals(scanned.words - 1, selected_signals(&device, &selection));
            }
        }
    }
}

/// The selected signals that exist, word by word.
fn selected_signals(device: &Crate, selection: &[u16; SELECTION_WORDS]) -> [u16; SELECTION_WORDS] {
    std::array::from_fn(|k| {
        let existing = match k {
            map::SELECT_NEGATIVE..map::SELECT_POSITIVE => device.negative_overflow(k),
            map::SELECT_POSITIVE..map::SELECT_GATE_ERROR => device.positive_overflow(k - map::SELECT_POSITIVE),
            map::SELECT_GATE_ERROR => device.gate_error(),
            map::SELECT_WATCHDOG..map::SELECT_FORWARD => device.watchdog_error(k - map::SELECT_WATCHDOG),
            _ => !device.last_gates,
        };
        selection[k] & existing
    })
}

impl ScanCoverage {
    pub fn new() -> ScanCoverage {
        ScanCoverage {
            ends: [[0; SELECTION_WORDS]; OUTPUTS],
            alone: [[0; 16]; SELECTION_WORDS],
            again: [0; SELECTION_WORDS],
            passed: [0; SELECTION_WORDS],
            nothing: [0; OUTPUTS],
            every_word: [0; OUTPUTS],
            last: None,
        }
    }

    fn count_passed(&mut self, scanned: Scanned, selection: &[u16; SELECTION_WORDS]) {
        let passed = scanned.words - usize::from(!scanned.level);
        for (n, word) in self.passed.iter_mut().zip(selection).take(passed) {
            *n += u64::from(*word != 0);
        }
    }

    /// Of a scan that ends at this word.
    fn count_signals(&mut self, end: usize, signals: [u16; SELECTION_WORDS]) {
        if signals[end].count_ones() == 1 {
            self.alone[end][signals[end].trailing_zeros() as usize] += 1;
        }
        let later = signals[end + 1..].iter().any(|word| *word != 0);
        self.again[end] += u64::from(later);
    }
}

impl Table for ScanCoverage {
    const FAMILY: Family = Family::Scans;

    fn begin(&mut self, device: &Crate, _budget: u64) {
        self.last = Some(device.clone());
    }

    fn rows(&self) -> Vec<(String, u64)> {
        let mut rows = Vec::new();
        for o in 0..OUTPUTS {
            let ends = (1..).zip(self.ends[o]);
            rows.extend(ends.map(|(words, n)| (format!("output {o} at 0 after {words} words"), n)));
            rows.push((format!("output {o} at 1, nothing selected"), self.nothing[o]));
            rows.push((format!("output {o} at 1, something selected in every word"), self.every_word[o]));
        }
        for (k, signals) in self.alone.iter().enumerate() {
            let used = map::used_bits(Register::OutputSelection(0, k));
            let bits = (0..16).filter(|bit| used >> bit & 1 == 1);
            rows.extend(bits.map(|bit| (format!("ended by bit {bit} of word {k:#04x} alone"), signals[bit])));
        }
        for (k, n) in self.passed.iter().enumerate() {
            rows.push((format!("word {k:#04x} selects something and is passed"), *n));
        }
        for (k, n) in self.again.iter().enumerate().take(SELECTION_WORDS - 1) {
            rows.push((format!("ended by word {k:#04x}, a later one would too"), *n));
        }
        rows
    }
}

impl Default for ScanCoverage {
    fn default() -> ScanCoverage {
        ScanCoverage::new()
    }
}
