//! Writes to registers.

use super::{Crate, Memory, SELECTION_WORDS};
use reference::numbers::{ACCEPTED, GATE_BITS, NOT_IN_MAP, READ_ONLY};

const TRIGGER: u16 = 0x1000;

impl Crate {
    pub fn write(&mut self, memory: &mut Memory, address: u16, word: u16) -> u8 {
        let at = usize::from(address);
        match at {
            0x8000..=0xBFFF => memory[at - 0x8000] = word,
            0x1000..=0x107F => self.counters.patch(at - 0x1000, word),
            0x1100..=0x11BF => return self.write_selection(at - 0x1100, word),
            0x1600..=0x161F => self.counters.groups[at - 0x1600] = word,
            0x0630..=0x0635 => self.masks[at - 0x0630] = word & GATE_BITS,
            0x0800..=0x0813 => return self.write_control(at, word),
            0x0A00..=0x0A04 => return self.write_event_control(at, word),
            0x0638..=0x063D | 0x0700..=0x0714 | 0x0717..=0x071C => return READ_ONLY,
            0x0900..=0x0905 | 0x1200..=0x12FF | 0x1300..=0x136B | 0x1800..=0x19FF => return READ_ONLY,
            _ => return NOT_IN_MAP,
        }
        ACCEPTED
    }

    /// Six blocks of 22 words at a raster of 32.
    fn write_selection(&mut self, offset: usize, word: u16) -> u8 {
        let (output, k) = (offset / 32, offset % 32);
        if k >= SELECTION_WORDS {
            return NOT_IN_MAP;
        }
        let used = match k {
            0x10 | 0x15 => GATE_BITS,
            0x14 => 0x003F,
            _ => 0xFFFF,
        };
        self.selections[output][k] = word & used;
        ACCEPTED
    }

    fn write_control(&mut self, at: usize, word: u16) -> u8 {
        match at {
            0x0800 => self.watchdogs.timeout = word,
            0x0801 => self.counters.write_control(word),
            0x0802 => self.gates.mode = word & GATE_BITS,
            0x0804..=0x080F => self.gates.timeouts[at - 0x0804] = word,
            0x0810..=0x0813 => self.watchdogs.write_reset(at - 0x0810, word),
            _ => return NOT_IN_MAP,
        }
        ACCEPTED
    }

    fn write_event_control(&mut self, at: usize, word: u16) -> u8 {
        match at {
            0x0A00 => self.events.key = word,
            0x0A01 => self.events.on = word & 1,
            0x0A02 => return self.write_reload(word & 0x1FFF),
            0x0A03 => self.gates.prepare = word & GATE_BITS,
            _ => self.gates.recover = word & GATE_BITS,
        }
        ACCEPTED
    }

    /// Setting TRIGGER where it was clear makes a request; a refused one stores nothing.
    fn write_reload(&mut self, word: u16) -> u8 {
        if word & !self.events.reload & TRIGGER != 0 {
            let answer = self.loader.enqueue(word);
            if answer != ACCEPTED {
                return answer;
            }
        }
        self.events.reload = word;
        ACCEPTED
    }
}
