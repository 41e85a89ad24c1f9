//! One input watchdog (01, Watchdogs and interlocks).

/// 128 times the largest timeout.
pub const VALUE_LIMIT: u32 = 8_388_480;
/// A timeout step of 1024 ns is 128 ticks of 8 ns.
pub const TIMEOUT_STEP: u32 = 128;

#[derive(Clone, Copy, Debug, PartialEq, Eq, Default)]
pub struct Watchdog {
    pub value: u32,
    pub error: bool,
}

impl Watchdog {
    // 01: "holds the ticks since its last rise or reset, at most 8,388,480.
    // After a tick, a value of at least 128 times register 0x0800 latches the error"
    pub fn step(&mut self, rise: bool, timeout: u16) {
        self.value = if rise { 0 } else { VALUE_LIMIT.min(self.value + 1) };
        self.error |= self.value >= TIMEOUT_STEP * u32::from(timeout);
    }

    // 01: "A write that takes its reset bit from 1 to 0 clears error and value."
    pub fn reset(&mut self) {
        *self = Watchdog::default();
    }
}
