//! Input rises and test signals (01, Lines and test pulses).

use crate::numbers::INPUT_BITS;

/// Selection value of the first test signal; 54 below it is ground.
pub const FIRST_TEST: usize = 55;
pub const TEST_SIGNALS: usize = 9;
/// Frequencies of selection values 55 to 63 in kHz.
pub const TEST_KHZ: [u32; TEST_SIGNALS] = [10, 99, 100, 990, 1000, 9900, 10000, 24900, 25000];
pub const PHASE_TURN: u32 = 125_000;

/// Which selection values (Manual, Table 3.25) rise in a tick, one bit each.
/// Bit 54, ground, is never set.
#[derive(Clone, Copy, Debug, PartialEq, Eq)]
pub struct Rises(pub u64);

impl Rises {
    pub fn has(self, selection: u16) -> bool {
        self.0 >> selection & 1 == 1
    }
}

#[derive(Clone, Debug, PartialEq, Eq, Default)]
pub struct TestSignals {
    pub phases: [u32; TEST_SIGNALS],
}

impl TestSignals {
    /// One tick of all nine, whether a counter looks at them or not.
    // 01, Lines: "when the phase reaches 125,000, that is taken off and a rise is given"
    pub fn step(&mut self) -> u64 {
        let mut rises = 0;
        for (k, phase) in self.phases.iter_mut().enumerate() {
            *phase += TEST_KHZ[k];
            if *phase >= PHASE_TURN {
                *phase -= PHASE_TURN;
                rises |= 1 << (FIRST_TEST + k);
            }
        }
        rises
    }
}

/// The rise belongs to the line, so a new patching makes none.
// 01, Lines: "An input rises when it is high now and was low at the last tick"
pub fn input_rises(now: u64, last: u64) -> u64 {
    now & !last & INPUT_BITS
}
