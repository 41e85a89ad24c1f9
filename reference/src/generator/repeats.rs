//! Traces of long repeats.
//!
//! A scene sets up what is due some ticks later: the end of a PREPARE timer,
//! a watchdog's latch, a rise of a test signal, the loader's last counter.
//! Repeats then end shortly before it, at it or one tick behind it, or run
//! over it, with changes between them.

use super::{tick_ends, Dice, Scene, Script};
use crate::gate;
use crate::lines::{FIRST_TEST, PHASE_TURN, TEST_KHZ, TEST_SIGNALS};
use crate::watchdog;

/// One seed in so many takes the watchdogs to their top, which costs 8.4
/// million ticks.
const SEEDS_TO_A_TOP: u64 = 4_096;
/// How often a trace is looked at before its end.
const LOOKS: usize = 7;
const LONGEST_REPEAT: u64 = 65_535;
const GROUND: u16 = 54;
const TICKS_A_REQUEST: u64 = 129;

const SCENES: [Scene; 9] = [
    Script::prepare_timers,
    Script::prepare_timers,
    Script::watchdog_latches,
    Script::test_rises,
    Script::test_rises,
    Script::requests,
    Script::gate_in_a_state,
    Script::gate_in_a_state,
    Script::openings,
];

const CHANGES: [Scene; 17] = [
    Script::change_a_gate,
    Script::change_a_gate,
    Script::change_a_gate,
    Script::gate_pulses,
    Script::change_inputs,
    Script::change_inputs,
    Script::change_control,
    Script::clear_counts,
    Script::write_thresholds,
    Script::write_group,
    Script::ask_reload,
    Script::bad_levels,
    Script::watchdog_reset,
    Script::watchdog_timeout,
    Script::patch,
    Script::interlocks,
    Script::stray_writes,
];

pub fn to_the_top(seed: u64) -> bool {
    seed % SEEDS_TO_A_TOP == SEEDS_TO_A_TOP - 1
}

/// The bytes of a seed's trace.
pub fn trace(seed: u64) -> Vec<u8> {
    let mut script = Script::new(seed);
    script.ticks_left = script.dice.one_of(&[3_000, 3_000, 10_000, 10_000, 24_000, 24_000, 24_000, 45_000]);
    if script.dice.percent(5) {
        script.ticks_left = 90_000;
    }
    script.prelude();
    script.play_repeats();
    if to_the_top(seed) {
        script.watchdog_top();
    }
    script.bytes
}

/// Ends of the last two repeats and of some others, not of single ticks.
pub fn looks(seed: u64, bytes: &[u8]) -> Vec<usize> {
    let mut dice = Dice::new(seed);
    let ends: Vec<usize> = tick_ends(bytes).iter().filter(|end| end.repeat > 1).map(|end| end.at).collect();
    let others = (0..LOOKS.min(ends.len())).map(|_| dice.one_of(&ends));
    ends.iter().rev().take(2).copied().chain(others).collect()
}

/// The tick of the nth rise of test signal k from now on.
fn tick_of_rise(k: usize, now: u64, nth: u64) -> u64 {
    let (step, turn) = (u64::from(TEST_KHZ[k]), u64::from(PHASE_TURN));
    let turns = now * step / turn + nth;
    (turns * turn).div_ceil(step)
}

/// Repeats.
impl Script {
    fn play_repeats(&mut self) {
        while self.ticks_left > 0 && self.bytes.len() < 8_000 {
            let any_scene = self.dice.percent(15);
            let scenes: &[Scene] = if any_scene { &super::SCENES } else { &SCENES };
            self.dice.one_of(scenes)(self);
            for _ in 0..1 + self.dice.below(4) {
                if self.ticks_left > 0 {
                    self.changes();
                    self.repeat();
                }
            }
        }
    }

    fn changes(&mut self) {
        for _ in 0..self.dice.below(4) {
            self.dice.one_of(&CHANGES)(self);
        }
    }

    fn due_in(&mut self, ticks: u64) {
        self.due.push(self.ticks + ticks);
    }

    fn repeat(&mut self) {
        let repeat = match self.dice.below(40) {
            0..=7 => 1 + self.dice.below(10),
            8..=13 => self.long_repeat(),
            14 if self.ticks_left > LONGEST_REPEAT => LONGEST_REPEAT,
            14..=15 => 1_000 + self.dice.below(4_000),
            16..=26 => return self.repeat_before_due(),
            _ => self.repeat_to_due(),
        };
        self.tick(repeat);
    }

    fn long_repeat(&mut self) -> u64 {
        100 + self.dice.below(500)
    }

    /// As likely to what is due next as to anything within reach.
    fn ticks_to_due(&mut self) -> u64 {
        let within = self.ticks + 1..=self.ticks + self.ticks_left;
        self.due.retain(|tick| within.contains(tick));
        let Some(next) = self.due.iter().min() else {
            return self.long_repeat();
        };
        let due = if self.dice.percent(50) { *next } else { self.dice.one_of(&self.due) };
        due - self.ticks
    }

    /// To the tick, one tick more, or over it.
    fn repeat_to_due(&mut self) -> u64 {
        let (left, over) = (self.ticks_to_due(), self.long_repeat());
        self.dice.one_of(&[left, left, left + 1, left + over])
    }

    /// A repeat that ends one or two ticks before, and another over it.
    fn repeat_before_due(&mut self) {
        let (left, over) = (self.ticks_to_due(), self.long_repeat());
        let short_of = self.dice.one_of(&[1, 1, 2]);
        self.tick(left.saturating_sub(short_of));
        if self.dice.percent(50) {
            self.changes();
        }
        self.tick(over);
    }

    /// A gate of the pool, at times any other.
    fn any_gate(&mut self) -> u16 {
        if self.dice.percent(70) {
            self.gate()
        } else {
            self.dice.below(12) as u16
        }
    }
}

/// Scenes.
impl Script {
    /// Takes a gate to IDLE from any state, in four ticks.
    fn make_idle(&mut self, gate: u16) {
        let bit = 1 << gate;
        self.set_mode(self.mode & !bit);
        self.set_prepare(self.prepare & !bit);
        self.set_recover(self.recover | bit);
        self.gate_levels |= bit;
        self.tick(1);
        self.gate_levels &= !bit;
        self.tick(2);
        self.set_recover(self.recover & !bit);
        self.tick(1);
    }

    /// One to four timers that begin in the same tick or few ticks apart.
    fn prepare_timers(&mut self) {
        let gates: Vec<u16> = (0..1 + self.dice.below(4)).map(|_| self.any_gate()).collect();
        gates.iter().for_each(|gate| self.make_idle(*gate));
        for gate in gates {
            let timeout = self.dice.one_of(&[0, 1, 1, 1, 1, 1, 2, 0xFFFF]);
            self.write(0x0804 + gate, timeout);
            self.ask_prepare(gate);
            // The next tick leads to PREPARE, the first of the timer is the one after it.
            self.due_in(1 + u64::from(gate::TIMEOUT_STEP * u32::from(timeout)).max(1));
            let apart = self.dice.below(4);
            if apart > 0 {
                self.tick(apart);
            }
        }
    }

    /// Any timeout, and the ticks that it lets a watchdog have.
    fn set_watchdog_timeout(&mut self) -> u64 {
        let timeout = self.dice.one_of(&[0, 1, 1, 2, 3, 8, 20, 60, 100, 0xFFFF]);
        self.write(0x0800, timeout);
        u64::from(watchdog::TIMEOUT_STEP * u32::from(timeout))
    }

    /// Watchdogs that begin with a reset, or with rises at several ticks.
    fn watchdog_latches(&mut self) {
        if self.dice.percent(60) {
            self.reset_all_watchdogs();
        }
        let latch = self.set_watchdog_timeout();
        self.due_in(latch);
        for _ in 0..self.dice.below(4) {
            let bit = 1 << self.dice.one_of(&self.inputs);
            self.input_levels &= !bit;
            self.tick(1);
            self.input_levels |= bit;
            self.tick(1);
            self.due_in(latch);
        }
    }

    /// The four blocks of watchdogs come to the longest timeout in four
    /// successive ticks, and a repeat ends among them.
    fn watchdog_top(&mut self) {
        self.ticks_left = u64::MAX;
        self.write(0x0800, 0xFFFF);
        let first = self.ticks + u64::from(watchdog::VALUE_LIMIT);
        for block in 0..4 {
            self.reset_watchdogs(block);
            self.tick(1);
        }
        while self.ticks + LONGEST_REPEAT < first {
            self.tick(LONGEST_REPEAT);
        }
        let end = first + 1 + self.dice.below(2);
        self.tick(end - self.ticks);
        let more = self.long_repeat();
        self.tick(more);
    }

    /// Opens a gate in DIRECT.
    fn open(&mut self, gate: u16) {
        self.make_idle(gate);
        self.set_mode(self.mode | 1 << gate);
        self.gate_levels |= 1 << gate;
        self.tick(1);
    }

    /// All test signals, as UP, as DOWN, with another, the same as both.
    fn test_rises(&mut self) {
        let gate = self.gate();
        if self.dice.percent(70) {
            self.open(gate);
        }
        for k in 0..TEST_SIGNALS {
            let signal = (FIRST_TEST + k) as u16;
            let (other, line) = (self.test_signal(), self.selection());
            let choices = [(signal, GROUND), (GROUND, signal), (signal, signal), (signal, other), (line, signal)];
            let (up, down) = self.dice.one_of(&choices);
            let counter = self.dice.below(128) as u16;
            self.write(0x1000 + counter, gate << 12 | down << 6 | up);
            let nth = 1 + self.dice.below(3);
            self.due.push(tick_of_rise(k, self.ticks, nth));
        }
    }

    /// One request, some, or more than the queue has places for.
    fn requests(&mut self) {
        for _ in 0..self.dice.below(4) {
            self.write_thresholds();
        }
        for n in 1..=self.dice.one_of(&[1, 1, 2, 3, 8, 16, 17]) {
            self.reload_by_tag();
            self.due_in(TICKS_A_REQUEST * n);
            self.due_in(TICKS_A_REQUEST * n + 1);
        }
        if self.dice.percent(30) {
            let begun = 1 + self.dice.below(TICKS_A_REQUEST);
            self.tick(begun);
        }
    }

    /// A gate in any of its states, and repeats with up to three changes to it
    /// before each.
    fn gate_in_a_state(&mut self) {
        let gate = self.any_gate();
        let bit = 1 << gate;
        self.make_idle(gate);
        match self.dice.below(7) {
            0 => {}
            steps @ 1..=3 => self.walk_to_waiting(gate, steps),
            4 => self.gate_levels |= bit,
            5 => {
                self.gate_levels |= bit;
                self.tick(1);
                self.set_recover(self.recover | bit);
            }
            _ => self.set_mode(self.mode | bit),
        }
        self.tick(1);
        for _ in 0..1 + self.dice.below(3) {
            (0..self.dice.below(4)).for_each(|_| self.change_gate(bit));
            self.repeat();
        }
    }

    /// From IDLE to PREPARE, GATE or WAITING, but for the last tick.
    fn walk_to_waiting(&mut self, gate: u16, steps: u64) {
        self.timeout_for(1 << gate);
        self.ask_prepare(gate);
        for _ in 1..steps {
            self.tick(1);
            self.gate_levels ^= 1 << gate;
        }
    }

    /// A gate closes and opens again, the second time with AUTORESET.
    fn openings(&mut self) {
        let (gate, counter, signal) = (self.gate(), self.counter(), self.test_signal());
        self.open(gate);
        self.write(0x1000 + counter, gate << 12 | GROUND << 6 | signal);
        self.repeat();
        self.gate_levels ^= 1 << gate;
        self.repeat();
        self.gate_levels ^= 1 << gate;
        self.write(0x0801, 2);
    }
}

/// Changes between repeats.
impl Script {
    fn change_a_gate(&mut self) {
        let gate = self.any_gate();
        self.change_gate(1 << gate);
    }

    /// They wait for the next tick.
    fn gate_pulses(&mut self) {
        let gate = self.any_gate();
        let command = self.dice.one_of(&[0x2, 0x3]);
        let gates = self.dice.one_of(&[1 << gate, 0x0FFF]);
        self.command(command, gates);
    }

    fn change_control(&mut self) {
        let word = self.dice.one_of(&[0, 0, 1, 2, 2, 3]);
        self.write(0x0801, word);
    }

    fn clear_counts(&mut self) {
        self.command(0x4, 0);
    }

    fn watchdog_timeout(&mut self) {
        let latch = self.set_watchdog_timeout();
        self.due_in(latch);
    }
}
