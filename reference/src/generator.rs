//! Random traces: a family and a seed give the bytes, always the same ones.
//!
//! A trace is made of scenes (patching, gate cycles, reloads, ...) played on
//! a small pool of lines and counters, so that the scenes meet each other. A
//! part of the traces is damaged at the end.

pub mod captures;
mod repeats;
mod scans;
pub mod sums;

use crate::model::bad_level;
use crate::numbers::{GATE_BITS, INPUT_BITS};
use crate::trace::{record, Record, PROGRAM_TICKS};

/// SplitMix64.
pub struct Dice(u64);

impl Dice {
    pub fn new(seed: u64) -> Dice {
        Dice(seed.wrapping_mul(0x9E37_79B9_7F4A_7C15) ^ 0x00B1_A5ED_C0DE_2024)
    }

    pub fn roll(&mut self) -> u64 {
        self.0 = self.0.wrapping_add(0x9E37_79B9_7F4A_7C15);
        let mut z = self.0;
        z = (z ^ z >> 30).wrapping_mul(0xBF58_476D_1CE4_E5B9);
        z = (z ^ z >> 27).wrapping_mul(0x94D0_49BB_1331_11EB);
        z ^ z >> 31
    }

    pub fn below(&mut self, limit: u64) -> u64 {
        self.roll() % limit
    }

    pub fn word(&mut self) -> u16 {
        self.roll() as u16
    }

    pub fn percent(&mut self, chance: u64) -> bool {
        self.below(100) < chance
    }

    pub fn one_of<T: Copy>(&mut self, choices: &[T]) -> T {
        choices[self.below(choices.len() as u64) as usize]
    }
}

/// The families of random traces.
#[derive(Clone, Copy, Debug, PartialEq, Eq)]
pub enum Family {
    /// Scenes of all kinds, mostly in short repeats.
    Scenes,
    /// Long repeats around what can happen within one.
    Repeats,
    /// Signals and selections for the scan of the outputs at the end.
    Scans,
}

/// The trace so far and what it has set up.
struct Script {
    dice: Dice,
    bytes: Vec<u8>,
    /// Accepted so far, and left to be spent.
    ticks: u64,
    ticks_left: u64,
    /// Ticks at which something is due.
    due: Vec<u64>,
    counters: Vec<u16>,
    inputs: Vec<u16>,
    gates: Vec<u16>,
    datasets: Vec<u16>,
    groups: Vec<u16>,
    key: u16,
    input_levels: u64,
    gate_levels: u16,
    mode: u16,
    prepare: u16,
    recover: u16,
}

type Scene = fn(&mut Script);

const SCENES: [Scene; 22] = [
    Script::patch,
    Script::repatch_while_high,
    Script::open_directly,
    Script::gate_cycle,
    Script::gate_cycle,
    Script::gate_walk,
    Script::gate_timeout,
    Script::autoreset_cycle,
    Script::pulses,
    Script::pulses,
    Script::control_counters,
    Script::thresholds,
    Script::reload_in_pieces,
    Script::fill_queue,
    Script::drain_queue,
    Script::events,
    Script::watchdogs,
    Script::watchdog_reset,
    Script::interlocks,
    Script::stray_writes,
    Script::bad_levels,
    Script::test_signals,
];

/// Records.
impl Script {
    fn write(&mut self, address: u16, word: u16) {
        self.bytes.extend([0x02, 0x00, 0x04]);
        self.bytes.extend(address.to_be_bytes());
        self.bytes.extend(word.to_be_bytes());
    }

    fn event(&mut self, tag: u32) {
        self.bytes.extend([0x03, 0x00, 0x04]);
        self.bytes.extend(tag.to_be_bytes());
    }

    fn tick(&mut self, repeat: u64) {
        self.tick_with(repeat, self.input_levels, self.gate_levels);
    }

    /// Cuts the repeat to what the trace may still spend, but never to 0.
    fn tick_with(&mut self, repeat: u64, inputs: u64, gates: u16) {
        let repeat = repeat.min(self.ticks_left).clamp(1, 65_535);
        self.ticks += repeat;
        self.ticks_left = self.ticks_left.saturating_sub(repeat);
        self.tick_record(repeat as u16, inputs, gates);
    }

    fn tick_record(&mut self, repeat: u16, inputs: u64, gates: u16) {
        self.bytes.extend([0x01, 0x00, 0x0B]);
        self.bytes.extend(repeat.to_be_bytes());
        self.bytes.extend(&inputs.to_be_bytes()[1..]);
        self.bytes.extend(gates.to_be_bytes());
    }

    fn command(&mut self, command: u16, parameter: u16) {
        let code = command << 12 | parameter & 0x0FFF;
        self.event(u32::from(self.key) << 16 | u32::from(code));
    }
}

/// Small choices.
impl Script {
    fn counter(&mut self) -> u16 {
        self.dice.one_of(&self.counters)
    }

    fn gate(&mut self) -> u16 {
        self.dice.one_of(&self.gates)
    }

    fn pool_inputs(&self) -> u64 {
        self.inputs.iter().fold(0, |levels, i| levels | 1 << i)
    }

    /// Mostly a pool input, else a test signal, ground or any input.
    fn selection(&mut self) -> u16 {
        match self.dice.below(20) {
            0..=12 => self.dice.one_of(&self.inputs),
            13..=16 => self.test_signal(),
            17 => 54,
            _ => self.dice.below(54) as u16,
        }
    }

    fn test_signal(&mut self) -> u16 {
        55 + self.dice.below(9) as u16
    }

    /// Mostly a pool gate, at times one that does not exist.
    fn gate_selection(&mut self) -> u16 {
        match self.dice.below(12) {
            0 => 12 + self.dice.below(4) as u16,
            _ => self.gate(),
        }
    }

    fn patch_word(&mut self) -> u16 {
        self.gate_selection() << 12 | self.selection() << 6 | self.selection()
    }

    fn request(&mut self) -> u16 {
        let dataset = match self.dice.below(12) {
            0 => 31,
            1 => self.dice.one_of(&[32, 33, 64, 255]),
            _ => self.dice.one_of(&self.datasets),
        };
        self.dice.one_of(&self.groups) << 8 | dataset
    }

    /// Of a dataset and a group of the pool.
    fn reload_by_tag(&mut self) {
        let request = self.dice.one_of(&self.groups) << 8 | self.dice.one_of(&self.datasets);
        self.command(0x1, request);
    }

    /// By tag, or by a rise of TRIGGER.
    fn ask_reload(&mut self) {
        let request = self.request();
        if self.dice.percent(50) {
            self.command(0x1, request);
            return;
        }
        if self.dice.percent(85) {
            let old = self.dice.word() & 0xEFFF;
            self.write(0x0A02, old);
        }
        let unused = self.dice.word() & 0xE000;
        self.write(0x0A02, unused | 0x1000 | request);
    }

    fn set_prepare(&mut self, bits: u16) {
        self.prepare = bits;
        self.write(0x0A03, bits);
    }

    fn set_recover(&mut self, bits: u16) {
        self.recover = bits;
        self.write(0x0A04, bits);
    }

    fn set_mode(&mut self, bits: u16) {
        self.mode = bits;
        self.write(0x0802, bits);
    }

    /// Prepare by register bit or by tag.
    fn ask_prepare(&mut self, gate: u16) {
        if self.dice.percent(50) {
            self.set_prepare(self.prepare | 1 << gate);
        } else {
            self.command(0x2, 1 << gate);
        }
    }

    fn recover_gate(&mut self, gate: u16) {
        if self.dice.percent(50) {
            self.set_recover(self.recover | 1 << gate);
            self.tick(1);
            self.set_recover(self.recover & !(1 << gate));
        } else {
            self.command(0x3, 1 << gate);
            self.tick(1);
        }
        self.tick(1);
    }
}

/// Scenes of lines, gates and counters.
impl Script {
    fn patch(&mut self) {
        for _ in 0..1 + self.dice.below(6) {
            let (counter, word) = (self.counter(), self.patch_word());
            self.write(0x1000 + counter, word);
        }
    }

    /// A line that is high must not rise for a counter patched to it now.
    fn repatch_while_high(&mut self) {
        let (counter, gate) = (self.counter(), self.gate());
        let (low, high) = (self.dice.one_of(&self.inputs), self.dice.one_of(&self.inputs));
        self.write(0x1000 + counter, gate << 12 | 54 << 6 | low);
        let levels = 1 << high;
        self.tick_with(2, levels, self.gate_levels);
        self.write(0x1000 + counter, gate << 12 | 54 << 6 | high);
        self.tick_with(1, levels, self.gate_levels);
        self.tick_with(1, 0, self.gate_levels);
        self.tick_with(1, levels, self.gate_levels);
        self.input_levels = levels;
    }

    fn open_directly(&mut self) {
        let gate = self.gate();
        self.set_mode(self.mode | 1 << gate);
        self.gate_levels &= !(1 << gate);
        self.tick(1);
        self.gate_levels |= 1 << gate;
        self.tick(1);
        self.pulses();
        if self.dice.percent(25) {
            self.set_mode(self.mode & !(1 << gate));
            self.tick(1);
        }
    }

    /// IDLE, PREPARE, GATE, WAITING, IDLE, with an error now and then.
    fn gate_cycle(&mut self) {
        let gate = self.gate();
        self.gate_levels &= !(1 << gate);
        if self.dice.percent(60) {
            self.recover_gate(gate);
        }
        if self.dice.percent(50) {
            let timeout = self.dice.one_of(&[0, 1, 1, 2, 0x0100, 0x8000, 0xFFFF]);
            self.write(0x0804 + gate, timeout);
        }
        self.set_prepare(self.prepare & !(1 << gate));
        self.tick(1);
        self.ask_prepare(gate);
        self.tick(1);
        if self.dice.percent(40) {
            let low_ticks = 1 + self.dice.below(3);
            self.tick(low_ticks);
        }
        self.gate_levels |= 1 << gate;
        self.pulses();
        self.gate_levels &= !(1 << gate);
        self.tick(1);
        self.leave_waiting(gate);
    }

    fn leave_waiting(&mut self, gate: u16) {
        if self.dice.percent(30) {
            self.gate_levels |= 1 << gate;
            self.tick(1);
            self.gate_levels &= !(1 << gate);
        }
        if self.dice.percent(80) {
            self.set_prepare(self.prepare & !(1 << gate));
        }
        self.tick(2);
    }

    /// Anything may change between two ticks.
    fn gate_walk(&mut self) {
        let bit = 1 << self.gate();
        for _ in 0..2 + self.dice.below(8) {
            self.change_gate(bit);
            if self.dice.percent(80) {
                let repeat = 1 + self.dice.below(3);
                self.tick(repeat);
            }
        }
    }

    fn change_gate(&mut self, bit: u16) {
        match self.dice.below(8) {
            0 => self.set_prepare(self.prepare ^ bit),
            1 => self.command(0x2, bit),
            2 => self.set_recover(self.recover ^ bit),
            3 => self.command(0x3, bit),
            4 | 5 => self.gate_levels ^= bit,
            6 => self.set_mode(self.mode ^ bit),
            _ => self.timeout_for(bit),
        }
    }

    fn timeout_for(&mut self, bit: u16) {
        let timeout = self.dice.one_of(&[0, 1, 2, 0x0100, 0x8000, 0xFFFF]);
        self.write(0x0804 + bit.trailing_zeros() as u16, timeout);
    }

    /// A timeout of 1 run to its last tick, if the trace may spend that much.
    fn gate_timeout(&mut self) {
        let gate = self.gate();
        let timeout = if self.ticks_left > 20_000 { 1 } else { 0 };
        self.gate_levels &= !(1 << gate);
        self.set_mode(self.mode & !(1 << gate));
        self.set_prepare(self.prepare & !(1 << gate));
        self.recover_gate(gate);
        self.write(0x0804 + gate, timeout);
        self.ask_prepare(gate);
        self.tick(1);
        let edge = 16_384 * u64::from(timeout);
        let low_ticks = self.dice.one_of(&[edge.saturating_sub(1), edge, edge, edge + 1]);
        self.tick(low_ticks);
        if self.dice.percent(50) {
            self.gate_levels |= 1 << gate;
            self.tick(1);
            self.gate_levels &= !(1 << gate);
        }
    }

    /// Counts gathered in one opening are cleared by the next.
    fn autoreset_cycle(&mut self) {
        let (counter, gate) = (self.counter(), self.gate());
        let input = self.dice.one_of(&self.inputs);
        let unused = self.dice.word() & 0xFFFC;
        self.write(0x0801, unused | 2);
        self.write(0x1000 + counter, gate << 12 | 54 << 6 | input);
        self.set_mode(self.mode | 1 << gate);
        for _ in 0..2 {
            self.gate_levels &= !(1 << gate);
            self.tick(2);
            self.gate_levels |= 1 << gate;
            self.tick(1);
            for _ in 0..self.dice.below(4) {
                self.tick_with(1, 1 << input, self.gate_levels);
                self.tick_with(1, 0, self.gate_levels);
            }
        }
        self.input_levels = 0;
    }

    fn pulses(&mut self) {
        for _ in 0..1 + self.dice.below(8) {
            self.change_inputs();
            let repeat = self.dice.one_of(&[1, 1, 1, 2, 3]);
            self.tick(repeat);
        }
    }

    fn change_inputs(&mut self) {
        let pool = self.pool_inputs();
        self.input_levels = match self.dice.below(5) {
            0 => 0,
            1 => pool,
            2 => self.dice.roll() & INPUT_BITS,
            3 => self.input_levels ^ pool,
            _ => self.dice.roll() & pool,
        };
    }

    fn control_counters(&mut self) {
        let word = self.dice.one_of(&[0, 1, 2, 2, 3, 0xFFFC, 0xFFFE]);
        self.write(0x0801, word);
        if self.dice.percent(50) {
            self.pulses();
        }
        if self.dice.percent(70) {
            self.write(0x0801, word & 0xFFFE);
        }
    }

    fn test_signals(&mut self) {
        let gate = self.gate();
        self.set_mode(self.mode | 1 << gate);
        for selection in 54..64 {
            let counter = self.dice.below(128) as u16;
            let other = self.selection();
            let down = self.dice.one_of(&[54, 54, other]);
            let (first, second) = if self.dice.percent(50) { (selection, down) } else { (down, selection) };
            self.write(0x1000 + counter, gate << 12 | second << 6 | first);
        }
        self.gate_levels |= 1 << gate;
        let repeat = self.dice.one_of(&[5, 6, 13, 125, 1263, 12_500]);
        self.tick(repeat);
    }
}

/// Scenes of thresholds, events and interlocks.
impl Script {
    fn threshold_words(&mut self) -> [u16; 4] {
        let positive = self.dice.one_of(&[0, 1, 2, 5, 100, -1, -3, 0x0001_0000, i32::MAX]);
        let negative = self.dice.one_of(&[0, -1, -2, -5, -100, 1, 3, -0x0001_0000, i32::MIN]);
        let (p, n) = (positive as u32, negative as u32);
        [p as u16, (p >> 16) as u16, n as u16, (n >> 16) as u16]
    }

    fn write_thresholds(&mut self) {
        let counter = self.counter();
        let dataset = self.dice.one_of(&self.datasets);
        let words = self.threshold_words();
        for (k, word) in words.into_iter().enumerate() {
            if self.dice.percent(90) {
                self.write(0x8000 + 512 * dataset + 4 * counter + k as u16, word);
            }
        }
    }

    fn write_group(&mut self) {
        let counter = self.counter();
        let word = (0..4).fold(0, |word, _| word << 4 | self.dice.one_of(&self.groups));
        self.write(0x1600 + counter / 4, word);
    }

    fn thresholds(&mut self) {
        for _ in 0..1 + self.dice.below(4) {
            self.write_thresholds();
        }
        if self.dice.percent(50) {
            self.write_group();
        }
        self.ask_reload();
        let repeat = self.dice.one_of(&[1, 64, 128, 129, 130, 258]);
        self.tick(repeat);
        self.pulses();
    }

    /// Memory and groups change between request and handling.
    fn reload_in_pieces(&mut self) {
        self.ask_reload();
        for _ in 0..1 + self.dice.below(4) {
            let repeat = 1 + self.dice.below(60);
            self.tick(repeat);
            if self.dice.percent(50) {
                self.write_thresholds();
            }
            if self.dice.percent(40) {
                self.write_group();
            }
        }
        self.tick(129);
    }

    /// To the sixteenth place and past it.
    fn fill_queue(&mut self) {
        self.write(0x0A01, 1);
        self.write(0x0A00, self.key);
        for _ in 0..self.dice.one_of(&[3, 9, 15, 16, 17, 18]) {
            self.reload_by_tag();
        }
        if self.dice.percent(60) {
            self.write(0x0A02, 0x0000);
            self.write(0x0A02, 0x101F);
            self.tick(1);
            self.ask_reload();
            self.ask_reload();
        }
        if self.dice.percent(40) {
            self.command(0x1, 0x0020);
        }
    }

    fn drain_queue(&mut self) {
        let repeat = self.dice.one_of(&[127, 128, 129, 130, 258, 387, 1161]);
        self.tick(repeat);
    }

    fn events(&mut self) {
        if self.dice.percent(50) {
            self.write(0x0A00, self.key);
        }
        let control = self.dice.one_of(&[0, 1, 1, 1, 0xFFFE, 0xFFFF]);
        self.write(0x0A01, control);
        for _ in 0..1 + self.dice.below(6) {
            let (command, parameter) = (self.dice.below(16) as u16, self.dice.word());
            let noise = self.dice.roll() as u32;
            match self.dice.below(5) {
                0 => self.event(noise),
                1 => self.event(u32::from(self.key ^ 1) << 16 | u32::from(command) << 12),
                2 => self.command(command % 5, parameter),
                _ => self.command(command, parameter),
            }
            if self.dice.percent(40) {
                self.tick(1);
            }
        }
        if self.dice.percent(80) {
            self.write(0x0A01, 1);
        }
    }

    fn watchdogs(&mut self) {
        let timeout = self.dice.one_of(&[0, 1, 1, 1, 2, 3, 0xFFFF]);
        self.write(0x0800, timeout);
        let pool = self.pool_inputs();
        if self.dice.percent(40) {
            self.reset_all_watchdogs();
        }
        for _ in 0..1 + self.dice.below(3) {
            self.input_levels = self.dice.one_of(&[0, pool, INPUT_BITS]);
            self.tick(1);
            self.input_levels = 0;
            let edge = 128 * u64::from(timeout.min(3));
            let repeat = self.dice.one_of(&[1, edge.saturating_sub(2), edge.saturating_sub(1), edge, edge, 129]);
            self.tick(repeat);
        }
    }

    fn reset_all_watchdogs(&mut self) {
        (0..4).for_each(|block| self.reset_watchdogs(block));
    }

    fn reset_watchdogs(&mut self, block: u16) {
        self.write(0x0810 + block, 0xFFFF);
        self.write(0x0810 + block, 0x0000);
    }

    fn watchdog_reset(&mut self) {
        let block = self.dice.below(4) as u16;
        let noise = self.dice.word();
        let first = self.dice.one_of(&[0xFFFF, 0x0001, noise]);
        let second = self.dice.one_of(&[0, 0, first, !first]);
        self.write(0x0810 + block, first);
        if self.dice.percent(50) {
            self.tick(1);
        }
        self.write(0x0810 + block, second);
    }

    /// One kind on one output, or a clearing of that kind.
    fn interlocks(&mut self) {
        for _ in 0..1 + self.dice.below(4) {
            let base = 0x1100 + 0x20 * self.dice.below(6) as u16;
            let (counter, gate) = (self.counter(), self.gate());
            let input = self.dice.one_of(&self.inputs);
            let (word, bit) = match self.dice.below(5) {
                0 => (counter / 16, counter % 16),
                1 => (8 + counter / 16, counter % 16),
                2 => (0x10, gate),
                3 => (0x11 + input / 16, input % 16),
                _ => (0x15, gate),
            };
            let noise = self.dice.word();
            let selected = self.dice.one_of(&[0, 1 << bit, 1 << bit, 0xFFFF, noise]);
            self.write(base + word, selected);
        }
        if self.dice.percent(50) {
            self.tick(1);
        }
    }
}

/// First and last address of blocks and gaps for stray writes.
pub const BLOCKS: [(&str, u16, u16); 47] = [
    ("gap below the masks", 0x0000, 0x062F),
    ("backplane masks", 0x0630, 0x0635),
    ("gap after the masks", 0x0636, 0x0637),
    ("module IDs", 0x0638, 0x063D),
    ("gap after the IDs", 0x063E, 0x06FF),
    ("negative overflows", 0x0700, 0x0707),
    ("positive overflows", 0x0708, 0x070F),
    ("gate errors", 0x0710, 0x0710),
    ("watchdog errors", 0x0711, 0x0714),
    ("gap 0x0715, 0x0716", 0x0715, 0x0716),
    ("gate inputs", 0x0717, 0x0717),
    ("gate outputs", 0x0718, 0x0718),
    ("interlock outputs", 0x0719, 0x0719),
    ("gate states", 0x071A, 0x071C),
    ("0x071D, not modelled", 0x071D, 0x071D),
    ("gap after the status", 0x071E, 0x07FF),
    ("watchdog timeout", 0x0800, 0x0800),
    ("counters control", 0x0801, 0x0801),
    ("gate mode", 0x0802, 0x0802),
    ("gap 0x0803", 0x0803, 0x0803),
    ("gate timeouts", 0x0804, 0x080F),
    ("watchdog resets 0-47", 0x0810, 0x0812),
    ("watchdog resets 48-53", 0x0813, 0x0813),
    ("gap after the resets", 0x0814, 0x08FF),
    ("event tag and code", 0x0900, 0x0902),
    ("loader state", 0x0903, 0x0904),
    ("queue length", 0x0905, 0x0905),
    ("gap after event status", 0x0906, 0x09FF),
    ("event key", 0x0A00, 0x0A00),
    ("event control", 0x0A01, 0x0A01),
    ("threshold reload", 0x0A02, 0x0A02),
    ("gate prepare", 0x0A03, 0x0A03),
    ("gate recover", 0x0A04, 0x0A04),
    ("gap after event control", 0x0A05, 0x0FFF),
    ("input registers", 0x1000, 0x107F),
    ("gap after the inputs", 0x1080, 0x10FF),
    ("output selections", 0x1100, 0x11B5),
    ("gap after the outputs", 0x11B6, 0x11FF),
    ("counts", 0x1200, 0x12FF),
    ("raw counts", 0x1300, 0x136B),
    ("gap after the raw counts", 0x136C, 0x15FF),
    ("groups", 0x1600, 0x161F),
    ("gap after the groups", 0x1620, 0x17FF),
    ("thresholds", 0x1800, 0x19FF),
    ("gap after the thresholds", 0x1A00, 0x7FFF),
    ("memory", 0x8000, 0xBFFF),
    ("gap after the memory", 0xC000, 0xFFFF),
];

/// Scenes of refusals.
impl Script {
    /// Any block or gap, its ends more often than its middle. Control
    /// registers that would spoil the other scenes are mostly put right again.
    fn stray_writes(&mut self) {
        for _ in 0..1 + self.dice.below(5) {
            let address = self.stray_address();
            let noise = self.dice.word();
            let word = self.dice.one_of(&[0, 0xFFFF, 1, noise]);
            self.write(address, word);
            if self.dice.percent(70) {
                self.put_right(address);
            }
        }
    }

    fn stray_address(&mut self) -> u16 {
        // Ten addresses after each of the first five output blocks name nothing.
        if self.dice.percent(5) {
            return 0x1116 + 0x20 * self.dice.below(5) as u16 + self.dice.below(10) as u16;
        }
        let (_, first, last) = self.dice.one_of(&BLOCKS);
        let middle = first + self.dice.below(u64::from(last - first) + 1) as u16;
        self.dice.one_of(&[first, last, middle, middle])
    }

    fn put_right(&mut self, address: u16) {
        match address {
            0x0801 => self.write(address, 0),
            0x0802 => self.write(address, self.mode),
            0x0A00 => self.write(address, self.key),
            0x0A01 => self.write(address, 1),
            0x0A03 => self.write(address, self.prepare),
            0x0A04 => self.write(address, self.recover),
            _ => {}
        }
    }

    /// Refused ticks, some with a repeat beyond any budget.
    fn bad_levels(&mut self) {
        let (mut inputs, mut gates) = (self.input_levels, self.gate_levels);
        match self.dice.below(3) {
            0 => inputs |= 1 << (54 + self.dice.below(2)),
            1 => gates |= 1 << (12 + self.dice.below(4)),
            _ => (inputs, gates) = (self.dice.roll() | 1 << 55, self.dice.word() | 0x8000),
        }
        let repeat = self.dice.one_of(&[1, 2, 0xFFFF]);
        self.tick_record(repeat, inputs, gates);
    }
}

/// Putting a trace together.
impl Script {
    fn new(seed: u64) -> Script {
        let mut dice = Dice::new(seed);
        let ticks_left = match dice.below(40) {
            0..=1 => 60_000,
            2..=4 => 15_000,
            5..=19 => 4_000,
            _ => 1_500,
        };
        let pool = |dice: &mut Dice, least: u64, ends: &[u16], limit: u64| -> Vec<u16> {
            (0..least + dice.below(4))
                .map(|_| if dice.percent(30) { dice.one_of(ends) } else { dice.below(limit) as u16 })
                .collect()
        };
        Script {
            bytes: Vec::new(),
            ticks: 0,
            ticks_left,
            due: Vec::new(),
            counters: pool(&mut dice, 2, &[0, 1, 15, 16, 63, 64, 127], 128),
            inputs: pool(&mut dice, 1, &[0, 15, 16, 47, 48, 53], 54),
            gates: pool(&mut dice, 1, &[0, 3, 4, 11], 12),
            datasets: pool(&mut dice, 1, &[0, 1, 31], 32),
            groups: pool(&mut dice, 1, &[0, 0, 15], 16),
            key: dice.one_of(&[0, 1, 0xFFFF, 0x1234]),
            input_levels: 0,
            gate_levels: 0,
            mode: 0,
            prepare: 0,
            recover: 0,
            dice,
        }
    }

    /// Most traces begin with patched counters and events on.
    fn prelude(&mut self) {
        self.write(0x0A00, self.key);
        self.write(0x0A01, 1);
        self.patch();
        if self.dice.percent(60) {
            self.open_directly();
        }
    }

    /// Each trace likes some scenes more than others.
    fn play(&mut self, length: usize) {
        let mut favourites: Vec<Scene> = (0..1 + self.dice.below(5)).map(|_| self.dice.one_of(&SCENES)).collect();
        if self.ticks_left > 10_000 {
            favourites.extend([Script::gate_timeout as Scene, Script::test_signals]);
        }
        while self.bytes.len() < length {
            let scene = if self.dice.percent(50) { self.dice.one_of(&favourites) } else { self.dice.one_of(&SCENES) };
            scene(self);
        }
    }

    /// Ticks at the end let queue, timers and pulses show in the image.
    fn tail(&mut self) {
        if self.dice.percent(40) {
            let repeat = self.dice.one_of(&[129, 258, 2_194]);
            self.ticks_left = self.ticks_left.max(repeat);
            self.tick(repeat);
        }
        self.pulses();
    }

    fn damage(&mut self) {
        match self.dice.below(7) {
            0 => self.flip_bytes(),
            1 => self.cut_anywhere(),
            2 => {
                let kept = 1 + self.dice.below(2) as usize;
                self.bytes.extend(&[0x01, 0x00][..kept]);
            }
            3 => {
                let tag = self.dice.one_of(&[0x00, 0x04, 0x05, 0xFF]);
                self.bytes.extend([tag, 0, 4, 0, 0, 0, 0]);
            }
            4 => self.wrong_length(),
            5 => self.bytes.extend([0x01, 0, 11, 0, 0, 0, 0, 0, 0, 0, 0, 0xFF, 0xFF, 0xFF]),
            _ => self.cut_payload(),
        }
        if self.dice.percent(30) {
            self.pulses();
        }
    }

    fn flip_bytes(&mut self) {
        if self.bytes.is_empty() {
            return;
        }
        for _ in 0..1 + self.dice.below(3) {
            let at = self.dice.below(self.bytes.len() as u64) as usize;
            self.bytes[at] ^= 1 << self.dice.below(8);
        }
    }

    fn cut_anywhere(&mut self) {
        let length = self.dice.below(self.bytes.len() as u64 + 1) as usize;
        self.bytes.truncate(length);
    }

    fn wrong_length(&mut self) {
        let tag = 1 + self.dice.below(3) as u8;
        let length = self.dice.one_of(&[0, 3, 5, 10, 12, 0x0400, 0x0B00, if tag == 1 { 4 } else { 11 }]);
        self.bytes.push(tag);
        self.bytes.extend(u16::to_be_bytes(length));
        self.bytes.extend([0; 3]);
    }

    /// A good header whose payload is not all there.
    fn cut_payload(&mut self) {
        let before = self.bytes.len();
        match self.dice.below(3) {
            0 => self.tick_with(1, INPUT_BITS, GATE_BITS),
            1 => self.write(0x0801, 1),
            _ => self.command(0x4, 0),
        }
        let payload = self.bytes.len() - before - 3;
        let kept = self.dice.below(payload as u64) as usize;
        self.bytes.truncate(before + 3 + kept);
    }
}

/// Up to 60 bytes: noise, or a few records cut off.
fn short_trace(script: &mut Script) {
    let any_length = script.dice.below(61) as usize;
    let length = if script.dice.percent(6) { 0 } else { any_length };
    if script.dice.percent(20) {
        script.bytes = (0..length).map(|_| script.dice.below(12) as u8).collect();
        script.flip_bytes();
        return;
    }
    script.play(length);
    if script.dice.percent(70) {
        script.bytes.truncate(length);
    }
}

/// The bytes of a seed's trace of scenes.
fn scenes(seed: u64) -> Vec<u8> {
    let mut script = Script::new(seed);
    let length = match script.dice.below(20) {
        0..=2 => {
            short_trace(&mut script);
            return script.bytes;
        }
        3..=14 => 100 + script.dice.below(700),
        _ => 2_000 + script.dice.below(4_000),
    };
    if script.dice.percent(85) {
        script.prelude();
    }
    script.play(length as usize);
    if script.dice.percent(50) {
        script.tail();
    }
    if script.dice.percent(25) {
        script.damage();
    }
    script.bytes
}

/// The end of a tick record, and the ticks spent there.
#[derive(Clone, Copy)]
struct TickEnd {
    at: usize,
    repeat: u16,
    ticks: u64,
}

/// Of each tick record that an endless budget would run.
fn tick_ends(bytes: &[u8]) -> Vec<TickEnd> {
    let (mut ends, mut ticks, mut at) = (Vec::new(), 0, 0);
    while let Ok(found) = record(&bytes[at..]) {
        at += found.bytes();
        if let Record::Tick { repeat, inputs, gates } = found {
            if !bad_level(inputs, gates) {
                ticks += u64::from(repeat);
                ends.push(TickEnd { at, repeat, ticks });
            }
        }
    }
    ends
}

impl Family {
    /// The bytes of a seed's trace.
    pub fn trace(self, seed: u64) -> Vec<u8> {
        match self {
            Family::Scenes => scenes(seed),
            Family::Repeats => repeats::trace(seed),
            Family::Scans => scans::trace(seed),
        }
    }

    /// The budget for a seed's trace: mostly one that lasts, else one at the edge
    /// of some tick record, one tick short of it, or one tick more.
    pub fn budget(self, seed: u64) -> u64 {
        if self == Family::Repeats && repeats::to_the_top(seed) {
            return u64::MAX;
        }
        let mut dice = Dice::new(!seed);
        if dice.percent(65) {
            return PROGRAM_TICKS;
        }
        let ends = tick_ends(&self.trace(seed));
        if ends.is_empty() {
            return dice.below(3);
        }
        let edge = dice.one_of(&ends).ticks;
        match dice.below(10) {
            0 => 0,
            1 => 1,
            2..=5 => edge,
            6..=8 => edge - 1,
            _ => edge + 1,
        }
    }

    /// Where to look at a seed's trace: at its end and, as the next tick may
    /// hide what a long repeat has left, behind some of the repeats.
    pub fn looks(self, seed: u64) -> Vec<usize> {
        let bytes = self.trace(seed);
        let mut looks = match self {
            Family::Scenes | Family::Scans => Vec::new(),
            Family::Repeats => repeats::looks(seed, &bytes),
        };
        looks.push(bytes.len());
        looks.sort_unstable();
        looks.dedup();
        looks
    }
}

/// A trace with its budget, after which raw counts have passed their low word: input 53 rises in each of 65,540
/// pairs of ticks, input 0 in every other, input 30 at the start only.
pub fn long_pulses() -> (Vec<u8>, u64) {
    let tick = |inputs: [u8; 7]| [&[1, 0, 11, 0, 1][..], &inputs, &[0, 0]].concat();
    let low = [0, 0, 0, 0x40, 0, 0, 0];
    let (odd, even) = ([0x20, 0, 0, 0x40, 0, 0, 1], [0x20, 0, 0, 0x40, 0, 0, 0]);
    let turn = [tick(odd), tick(low), tick(even), tick(low)].concat();
    (turn.repeat(32_770), 4 * 32_770)
}
