//! The gate logic of all twelve gates at once: each state is a word with a bit for every gate that is in it.

use super::bits::ones;
use reference::numbers::{GATES, GATE_BITS};

const TIMEOUT_STEP: u32 = 16_384;
const ERROR: usize = 4;

pub struct Gates {
    /// By the Manual's state ID: IDLE, PREPARE, GATE, WAITING, ERROR, RECOVER, DIRECT.
    states: [u16; 7],
    timers: [u32; GATES],
    /// Registers 0x0804 to 0x080F, 0x0802, 0x0A03 and 0x0A04.
    pub timeouts: [u16; GATES],
    pub mode: u16,
    pub prepare: u16,
    pub recover: u16,
    /// Pulses of events since the last tick.
    pub prepare_pulses: u16,
    pub recover_pulses: u16,
    /// What the last tick left: the prepare signals, the input levels, the outputs.
    last_prepare: u16,
    pub input: u16,
    pub output: u16,
}

impl Gates {
    pub fn power_up() -> Gates {
        Gates {
            states: [GATE_BITS, 0, 0, 0, 0, 0, 0],
            timers: [0; GATES],
            timeouts: [0; GATES],
            mode: 0,
            prepare: 0,
            recover: 0,
            prepare_pulses: 0,
            recover_pulses: 0,
            last_prepare: 0,
            input: 0,
            output: 0,
        }
    }

    /// One tick; the outputs that rise.
    #[inline]
    pub fn step(&mut self, input: u16) -> u16 {
        let prepare = self.prepare | self.prepare_pulses;
        let recover = self.recover | self.recover_pulses;
        self.step_states(input, prepare, recover);
        let [_, _, open, _, _, _, direct] = self.states;
        let output = open | direct & input;
        let rose = output & !self.output;
        self.output = output;
        self.input = input;
        self.last_prepare = prepare;
        self.prepare_pulses = 0;
        self.recover_pulses = 0;
        rose
    }

    #[inline]
    fn step_states(&mut self, high: u16, prepare: u16, recover: u16) {
        let [idle, preparing, open, waiting, error, recovering, direct] = self.states;
        let low = !high;
        let indirect = idle & !self.mode;
        let started = indirect & low & prepare & !self.last_prepare;
        let spent = self.count_down(preparing & low);
        self.start_timers(started);
        self.states = [
            indirect & low & !started | waiting & low & !prepare | recovering & !recover | direct & !self.mode,
            preparing & low & !spent | started,
            (preparing | open) & high,
            open & low | waiting & low & prepare,
            indirect & high | spent | waiting & high | error & !recover,
            (error | recovering) & recover,
            (idle | direct) & self.mode,
        ];
    }

    /// The timers of gates that stay in PREPARE; those that are spent.
    #[inline]
    fn count_down(&mut self, gates: u16) -> u16 {
        let mut spent = 0;
        for g in ones(gates) {
            if self.timers[g] <= 1 {
                spent |= 1 << g;
            } else {
                self.timers[g] -= 1;
            }
        }
        spent
    }

    #[inline]
    fn start_timers(&mut self, gates: u16) {
        for g in ones(gates) {
            self.timers[g] = TIMEOUT_STEP * u32::from(self.timeouts[g]);
        }
    }

    pub fn errors(&self) -> u16 {
        self.states[ERROR]
    }

    /// The states of gates 4 k to 4 k + 3, four bits each.
    pub fn state_word(&self, k: usize) -> u16 {
        let id = |g: usize| self.states.iter().position(|gates| gates >> g & 1 == 1).unwrap_or(0) as u16;
        (0..4).fold(0, |word, j| word | id(4 * k + j) << (4 * j))
    }
}
