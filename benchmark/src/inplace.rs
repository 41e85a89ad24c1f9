//! The beam loss counter crate written for speed: one state, changed where it stands. Where a rule is about levels,
//! rises or states, a word has one bit for each input, gate or counter.

mod bits;
mod counters;
mod events;
mod gates;
mod lines;
mod loader;
mod read;
mod run;
mod watchdogs;
mod write;

use counters::Counters;
use events::Events;
use gates::Gates;
use lines::Lines;
use loader::Loader;
use reference::numbers::{MEMORY_WORDS, OUTPUTS};
use watchdogs::Watchdogs;

pub use run::run;

pub type Memory = [u16; MEMORY_WORDS];

/// Words of one output's selection block.
const SELECTION_WORDS: usize = 22;

pub struct Crate {
    lines: Lines,
    gates: Gates,
    counters: Counters,
    watchdogs: Watchdogs,
    loader: Loader,
    events: Events,
    /// Registers 0x0630 to 0x0635.
    masks: [u16; 6],
    /// Registers 0x1100 to 0x11B5.
    selections: [[u16; SELECTION_WORDS]; OUTPUTS],
}

impl Crate {
    pub fn power_up(memory: &mut Memory) -> Crate {
        memory.fill(0);
        Crate {
            lines: Lines::power_up(),
            gates: Gates::power_up(),
            counters: Counters::power_up(),
            watchdogs: Watchdogs::power_up(),
            loader: Loader::default(),
            events: Events::default(),
            masks: [0; 6],
            selections: [[0; SELECTION_WORDS]; OUTPUTS],
        }
    }

    /// Test phases, input rises, gates, counters, watchdogs, loader.
    #[inline]
    pub fn tick(&mut self, memory: &Memory, inputs: u64, gates: u16) {
        let rises = self.lines.step(inputs);
        let rose = self.gates.step(gates);
        self.counters.step(rises, self.gates.output, rose);
        self.watchdogs.step(rises);
        if let Some((n, request)) = self.loader.step() {
            self.counters.load(memory, n, request);
        }
    }
}
