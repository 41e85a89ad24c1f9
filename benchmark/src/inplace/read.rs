//! Reads of registers and the interlocks.

use super::{Crate, Memory, SELECTION_WORDS};
use reference::numbers::{GATE_BITS, OUTPUTS};

const MODULES: [u16; 6] = [0x0707, 0x0707, 0x0707, 0x0707, 0x0307, 0x0603];

/// Part 0 is the low word, part 1 the high word.
fn half(value: i32, part: usize) -> u16 {
    (value >> (16 * part)) as u16
}

impl Crate {
    /// The words of 0x0600 to 0x19FF, 0 where a read is refused.
    pub fn image(&self, memory: &Memory) -> Vec<u16> {
        (0x0600..=0x19FF).map(|address| self.read(memory, address)).collect()
    }

    /// The word at an address, 0 where there is no register.
    pub fn read(&self, memory: &Memory, address: u16) -> u16 {
        let at = usize::from(address);
        match at {
            0x0630..=0x0635 => self.masks[at - 0x0630],
            0x0638..=0x063D => MODULES[at - 0x0638],
            0x0700..=0x071C => self.status_word(at),
            0x0800..=0x0813 => self.control_word(at),
            0x0900..=0x0905 | 0x0A00..=0x0A04 => self.event_word(at),
            0x1000..=0x107F => self.counters.inputs[at - 0x1000],
            0x1100..=0x11BF if at % 32 < SELECTION_WORDS => self.selections[(at - 0x1100) / 32][at % 32],
            0x1200..=0x12FF => half(self.counters.counts[(at - 0x1200) / 2], at % 2),
            0x1300..=0x136B => self.lines.raw_word(at - 0x1300),
            0x1600..=0x161F => self.counters.groups[at - 0x1600],
            0x1800..=0x19FF => self.threshold_word(at - 0x1800),
            0x8000..=0xBFFF => memory[at - 0x8000],
            _ => 0,
        }
    }

    fn status_word(&self, at: usize) -> u16 {
        match at {
            0x0700..=0x0707 => self.counters.negative_overflow(at - 0x0700),
            0x0708..=0x070F => self.counters.positive_overflow(at - 0x0708),
            0x0710 => self.gates.errors(),
            0x0711..=0x0714 => self.watchdogs.error_word(at - 0x0711),
            0x0717 => self.gates.input,
            0x0718 => self.gates.output,
            0x0719 => self.interlocks(),
            0x071A..=0x071C => self.gates.state_word(at - 0x071A),
            _ => 0,
        }
    }

    fn control_word(&self, at: usize) -> u16 {
        match at {
            0x0800 => self.watchdogs.timeout,
            0x0801 => self.counters.control,
            0x0802 => self.gates.mode,
            0x0804..=0x080F => self.gates.timeouts[at - 0x0804],
            0x0810..=0x0813 => self.watchdogs.reset_word(at - 0x0810),
            _ => 0,
        }
    }

    fn event_word(&self, at: usize) -> u16 {
        match at {
            0x0900 => self.events.tag_low,
            0x0901 => self.events.tag_high,
            0x0902 => self.events.code,
            0x0903 => 3 * u16::from(self.loader.busy),
            0x0904 => self.loader.handled,
            0x0905 => self.loader.waiting as u16,
            0x0A00 => self.events.key,
            0x0A01 => self.events.on,
            0x0A02 => self.events.reload,
            0x0A03 => self.gates.prepare,
            _ => self.gates.recover,
        }
    }

    fn threshold_word(&self, k: usize) -> u16 {
        let thresholds = if k % 4 < 2 { &self.counters.positive } else { &self.counters.negative };
        half(thresholds[k / 4], k % 2)
    }

    /// Output o is 1 where none of its selected signals is present.
    fn interlocks(&self) -> u16 {
        let present = self.signals();
        let trips = |o: usize| self.selections[o].iter().zip(present).any(|(selected, signal)| selected & signal != 0);
        (0..OUTPUTS).fold(0, |word, o| word | u16::from(!trips(o)) << o)
    }

    /// What each word of a selection block chooses from; forwarded gate inputs are inverted.
    fn signals(&self) -> [u16; SELECTION_WORDS] {
        std::array::from_fn(|k| match k {
            0..=7 => self.counters.negative_overflow(k),
            8..=15 => self.counters.positive_overflow(k - 8),
            16 => self.gates.errors(),
            17..=20 => self.watchdogs.error_word(k - 17),
            _ => !self.gates.input & GATE_BITS,
        })
    }
}
