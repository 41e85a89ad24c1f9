//! The scan of the interlock outputs (02, CR 3), signal by signal.

use crate::gate::State;
use crate::map::{self, SELECTION_WORDS};
use crate::model::{lent_wrongly, Crate};
use crate::numbers::*;

/// What the scan of one output gives.
#[derive(Clone, Copy, Debug, PartialEq, Eq, Default)]
pub struct Scanned {
    pub level: bool,
    /// Selection words read.
    pub words: usize,
}

/// What a bit of a selection stands for (Manual, Table 3.27), by counter, gate or input.
#[derive(Clone, Copy, Debug, PartialEq, Eq)]
enum Signal {
    NegativeOverflow(usize),
    PositiveOverflow(usize),
    GateError(usize),
    WatchdogError(usize),
    LowGate(usize),
}

/// The signal of a word's bit; the bits without one are unused.
fn signal(word: usize, bit: usize) -> Option<Signal> {
    let nth = |block: usize| 16 * (word - block) + bit;
    let gate = Some(bit).filter(|gate| *gate < GATES);
    let input = |nth: usize| Some(nth).filter(|input| *input < INPUTS);
    match word {
        map::SELECT_NEGATIVE..map::SELECT_POSITIVE => Some(Signal::NegativeOverflow(nth(map::SELECT_NEGATIVE))),
        map::SELECT_POSITIVE..map::SELECT_GATE_ERROR => Some(Signal::PositiveOverflow(nth(map::SELECT_POSITIVE))),
        map::SELECT_GATE_ERROR => gate.map(Signal::GateError),
        map::SELECT_WATCHDOG..map::SELECT_FORWARD => input(nth(map::SELECT_WATCHDOG)).map(Signal::WatchdogError),
        _ => gate.map(Signal::LowGate),
    }
}

/// The signals that these words, from the lowest address on, select.
fn selected(words: &[u16]) -> impl Iterator<Item = Signal> + '_ {
    let places = (0..words.len()).flat_map(|k| (0..16).map(move |bit| (k, bit)));
    places.filter(|(k, bit)| words[*k] >> bit & 1 == 1).filter_map(|(k, bit)| signal(k, bit))
}

impl Crate {
    // 02, CR 3: "One call returns for each of the six outputs the level ... and the number of words read";
    // "refused 1, it returns the number and zeros"
    pub fn scan(&self, memory: &[u16]) -> (u8, [Scanned; OUTPUTS]) {
        if lent_wrongly(memory) {
            return (MEMORY_LENGTH, [Scanned::default(); OUTPUTS]);
        }
        (ACCEPTED, self.selection.map(|words| self.scanned(&words)))
    }

    // 02, CR 3: "The scan of an output's selection words goes up from the lowest address and ends at the first word by
    // which those read already make the output 0."; the level is "still that of the full selection", the words read are
    // "all of them where the level is 1"
    fn scanned(&self, words: &[u16; SELECTION_WORDS]) -> Scanned {
        let ends = (1..=SELECTION_WORDS).find(|read| self.make_0(&words[..*read]));
        Scanned { level: !self.make_0(words), words: ends.unwrap_or(SELECTION_WORDS) }
    }

    /// Whether these words alone, all above them 0, make an output 0.
    fn make_0(&self, words: &[u16]) -> bool {
        selected(words).any(|signal| self.exists(signal))
    }

    fn exists(&self, signal: Signal) -> bool {
        match signal {
            Signal::NegativeOverflow(n) => self.counters[n].negative_overflow(),
            Signal::PositiveOverflow(n) => self.counters[n].positive_overflow(),
            Signal::GateError(g) => self.gates[g].state == State::Error,
            Signal::WatchdogError(i) => self.watchdogs[i].error,
            Signal::LowGate(g) => self.last_gates >> g & 1 == 0,
        }
    }
}
