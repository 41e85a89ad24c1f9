//! Event tags.

use super::Crate;
use reference::numbers::ACCEPTED;

/// Registers 0x0A00 to 0x0A02 and 0x0900 to 0x0902.
#[derive(Default)]
pub struct Events {
    pub key: u16,
    pub on: u16,
    pub reload: u16,
    pub tag_low: u16,
    pub tag_high: u16,
    pub code: u16,
}

impl Crate {
    /// A tag is passed over if events are off; on a wrong key it is only noted.
    pub fn tag(&mut self, tag: u32) -> u8 {
        let events = &mut self.events;
        if events.on == 0 {
            return ACCEPTED;
        }
        events.tag_low = tag as u16;
        events.tag_high = (tag >> 16) as u16;
        if events.tag_high != events.key {
            return ACCEPTED;
        }
        events.code = events.tag_low;
        self.run_command(tag as u16)
    }

    fn run_command(&mut self, code: u16) -> u8 {
        let parameter = code & 0x0FFF;
        match code >> 12 {
            0x1 => return self.loader.enqueue(parameter),
            0x2 => self.gates.prepare_pulses |= parameter,
            0x3 => self.gates.recover_pulses |= parameter,
            0x4 => self.counters.clear(),
            _ => {}
        }
        ACCEPTED
    }
}
