//! The crate: its registers, events and ticks.

use crate::counter::{down_selection, gate_selection, up_selection, Counter, Pulse};
use crate::gate::{Gate, Seen, State};
use crate::lines::{input_rises, Rises, TestSignals};
use crate::loader::{Loader, Request};
use crate::map::{self, Register};
use crate::numbers::*;
use crate::raw::RawCount;
use crate::watchdog::Watchdog;

const POWER_UP_INPUT: u16 = 0xFDB6;
const RESET: u16 = 0x0001;
const AUTORESET: u16 = 0x0002;
const TRIGGER: u16 = 0x1000;
/// Slots 0 to 11 (01, Writes: "0x07 in slots 0 to 8, 0x03 in 9 and 10, 0x06 in 11").
const MODULE_IDS: [u16; 12] = [7, 7, 7, 7, 7, 7, 7, 7, 7, 3, 3, 6];

#[derive(Clone, Debug, PartialEq, Eq)]
pub struct Crate {
    pub backplane_mask: [u16; 6],
    pub watchdog_timeout: u16,
    pub counters_control: u16,
    pub gate_mode: u16,
    pub gate_timeout: [u16; GATES],
    pub watchdog_reset: [u16; 4],
    pub tag_low: u16,
    pub tag_high: u16,
    pub code: u16,
    pub event_key: u16,
    pub event_control: u16,
    pub threshold_reload: u16,
    pub gate_prepare: u16,
    pub gate_recover: u16,
    pub input: [u16; COUNTERS],
    pub selection: [[u16; map::SELECTION_WORDS]; OUTPUTS],
    pub group: [u16; COUNTERS],
    pub tests: TestSignals,
    pub gates: [Gate; GATES],
    pub counters: [Counter; COUNTERS],
    pub watchdogs: [Watchdog; INPUTS],
    pub raw_counts: [RawCount; INPUTS],
    pub loader: Loader,
    /// Levels of the last accepted tick.
    pub last_inputs: u64,
    pub last_gates: u16,
}

/// Outputs of the gate logic in one tick; gates 12 to 15 do not exist, so
/// their bits stay 0.
// 01, Counters: "GATE 12 to 15 is never open."
#[derive(Clone, Copy)]
struct GateOutputs {
    high: u16,
    rose: u16,
}

/// Every call is lent the memory, and its length is looked at first.
pub(crate) fn lent_wrongly(memory: &[u16]) -> bool {
    memory.len() != MEMORY_WORDS
}

pub fn bad_level(inputs: u64, gates: u16) -> bool {
    inputs & !INPUT_BITS != 0 || gates & !GATE_BITS != 0
}

fn bit(word: u16, index: usize) -> bool {
    word >> index & 1 == 1
}

/// Bits 0 to 15 from a test of sixteen places.
fn word_of(places: usize, test: impl Fn(usize) -> bool) -> u16 {
    (0..places).filter(|place| test(*place)).fold(0, |word, place| word | 1 << place)
}

// Calls.
impl Crate {
    /// 01, Writes: "All is 0 at power-up, except ..."
    fn new() -> Crate {
        Crate {
            backplane_mask: [0; 6],
            watchdog_timeout: 65_535,
            counters_control: 0,
            gate_mode: 0,
            gate_timeout: [0; GATES],
            watchdog_reset: [0; 4],
            tag_low: 0,
            tag_high: 0,
            code: 0,
            event_key: 0,
            event_control: 0,
            threshold_reload: 0,
            gate_prepare: 0,
            gate_recover: 0,
            input: [POWER_UP_INPUT; COUNTERS],
            selection: [[0; map::SELECTION_WORDS]; OUTPUTS],
            group: [0; COUNTERS],
            tests: TestSignals::default(),
            gates: std::array::from_fn(|_| Gate::default()),
            counters: [Counter::default(); COUNTERS],
            watchdogs: [Watchdog::default(); INPUTS],
            raw_counts: [RawCount::default(); INPUTS],
            loader: Loader::default(),
            last_inputs: 0,
            last_gates: 0,
        }
    }

    // 01, Causes: "A power-up refused 1 returns the number with a power-up crate"
    pub fn power_up(memory: &mut [u16]) -> (u8, Crate) {
        if lent_wrongly(memory) {
            return (MEMORY_LENGTH, Crate::new());
        }
        memory.fill(0);
        (ACCEPTED, Crate::new())
    }

    pub fn read(&self, memory: &[u16], address: u16) -> (u8, u16) {
        if lent_wrongly(memory) {
            return (MEMORY_LENGTH, 0);
        }
        match map::register(address) {
            None => (NOT_IN_MAP, 0),
            Some(register) => (ACCEPTED, self.word(memory, register)),
        }
    }

    pub fn write(&mut self, memory: &mut [u16], address: u16, word: u16) -> u8 {
        if lent_wrongly(memory) {
            return MEMORY_LENGTH;
        }
        let Some(register) = map::register(address) else {
            return NOT_IN_MAP;
        };
        if map::read_only(register) {
            return READ_ONLY;
        }
        let word = word & map::used_bits(register);
        match register {
            Register::ThresholdReload => return self.write_reload(word),
            Register::CountersControl => self.write_counters_control(word),
            Register::WatchdogReset(k) => self.write_watchdog_reset(k, word),
            Register::Group(k) => self.write_groups(k, word),
            Register::Memory(at) => memory[at] = word,
            other => self.store(other, word),
        }
        ACCEPTED
    }

    // 01, Writes: "A tag is passed over if events are off. Otherwise 0x0900 and
    // 0x0901 take it; on a wrong key nothing more happens"
    pub fn tag(&mut self, memory: &[u16], tag: u32) -> u8 {
        if lent_wrongly(memory) {
            return MEMORY_LENGTH;
        }
        if self.event_control == 0 {
            return ACCEPTED;
        }
        self.tag_low = (tag & 0xFFFF) as u16;
        self.tag_high = (tag >> 16) as u16;
        if self.tag_high != self.event_key {
            return ACCEPTED;
        }
        self.code = self.tag_low;
        self.run_command()
    }

    pub fn tick(&mut self, memory: &[u16], inputs: u64, gates: u16) -> u8 {
        if lent_wrongly(memory) {
            return MEMORY_LENGTH;
        }
        if bad_level(inputs, gates) {
            return BAD_LEVEL;
        }
        self.accepted_tick(memory, inputs, gates);
        ACCEPTED
    }

    // 01, Causes: "11 before 4"
    pub fn download(&mut self, memory: &mut [u16], dataset: u16, words: &[u16]) -> u8 {
        if lent_wrongly(memory) {
            return MEMORY_LENGTH;
        }
        if words.len() != DATASET_WORDS {
            return DOWNLOAD_LENGTH;
        }
        if usize::from(dataset) >= DATASETS {
            return DATASET_ABOVE_31;
        }
        let start = DATASET_WORDS * usize::from(dataset);
        memory[start..start + DATASET_WORDS].copy_from_slice(words);
        ACCEPTED
    }
}

// Writes and events.
impl Crate {
    /// A refused request stores nothing, so TRIGGER can be set again later.
    // 01, Writes: "A write to 0x0A02 that sets TRIGGER where it was clear makes a request."
    fn write_reload(&mut self, word: u16) -> u8 {
        let sets_trigger = self.threshold_reload & TRIGGER == 0 && word & TRIGGER != 0;
        let answer = if sets_trigger { self.loader.enqueue(Request::from_word(word)) } else { ACCEPTED };
        if answer == ACCEPTED {
            self.threshold_reload = word;
        }
        answer
    }

    // 01, Counters: "While RESET (bit 0) is set all counts are 0."
    fn write_counters_control(&mut self, word: u16) {
        self.counters_control = word;
        if word & RESET != 0 {
            self.clear_counts();
        }
    }

    fn write_watchdog_reset(&mut self, k: usize, word: u16) {
        let falls = self.watchdog_reset[k] & !word;
        self.watchdog_reset[k] = word;
        for (i, watchdog) in self.watchdogs.iter_mut().enumerate().skip(16 * k).take(16) {
            if bit(falls, i % 16) {
                watchdog.reset();
            }
        }
    }

    // 01, Writes: "Groups: 0x1600 onward, four bits a counter."
    fn write_groups(&mut self, k: usize, word: u16) {
        for j in 0..4 {
            self.group[4 * k + j] = word >> (4 * j) & 0xF;
        }
    }

    /// Registers whose write only keeps the word.
    fn store(&mut self, register: Register, word: u16) {
        match register {
            Register::BackplaneMask(k) => self.backplane_mask[k] = word,
            Register::WatchdogTimeout => self.watchdog_timeout = word,
            Register::GateMode => self.gate_mode = word,
            Register::GateTimeout(g) => self.gate_timeout[g] = word,
            Register::EventKey => self.event_key = word,
            Register::EventControl => self.event_control = word,
            Register::GatePrepare => self.gate_prepare = word,
            Register::GateRecover => self.gate_recover = word,
            Register::Input(n) => self.input[n] = word,
            Register::OutputSelection(o, k) => self.selection[o][k] = word,
            other => unreachable!("{other:?} has its own write or is read-only"),
        }
    }

    /// The command of the tag just taken (Manual, Table 3.38).
    // 01, Writes: "Commands 0x0 and 0x5 to 0xF do nothing."
    fn run_command(&mut self) -> u8 {
        let parameter = self.code & 0x0FFF;
        match self.code >> 12 {
            0x1 => return self.loader.enqueue(Request::from_word(parameter)),
            0x2 => self.pulse(parameter, |gate| gate.prepare_pulse = true),
            0x3 => self.pulse(parameter, |gate| gate.recover_pulse = true),
            0x4 => self.clear_counts(),
            _ => {}
        }
        ACCEPTED
    }

    fn pulse(&mut self, parameter: u16, set: fn(&mut Gate)) {
        for (g, gate) in self.gates.iter_mut().enumerate() {
            if bit(parameter, g) {
                set(gate);
            }
        }
    }

    fn clear_counts(&mut self) {
        for counter in &mut self.counters {
            counter.count = 0;
        }
    }
}

// Ticks.
impl Crate {
    // 01: "A tick runs: test phases, input rises, gates, counters, watchdogs,
    // loader; then event pulses are dropped and levels kept."
    fn accepted_tick(&mut self, memory: &[u16], inputs: u64, gates: u16) {
        let test_rises = self.tests.step();
        let rises = Rises(test_rises | input_rises(inputs, self.last_inputs));
        self.step_raw_counts(rises);
        let outputs = self.step_gates(gates);
        self.step_counters(rises, outputs);
        self.step_watchdogs(rises);
        self.step_loader(memory);
        self.settle(inputs, gates);
    }

    /// The line alone decides; test signals and ground have no raw count.
    // 02, CR 1: "Gates, selections and RESET have no effect on it.", "cleared at power-up only"
    fn step_raw_counts(&mut self, rises: Rises) {
        for (i, raw) in self.raw_counts.iter_mut().enumerate() {
            raw.step(rises.0 >> i & 1 == 1);
        }
    }

    fn seen_by_gate(&self, g: usize, gates: u16) -> Seen {
        Seen {
            input: bit(gates, g),
            mode_bit: bit(self.gate_mode, g),
            prepare_bit: bit(self.gate_prepare, g),
            recover_bit: bit(self.gate_recover, g),
            timeout: self.gate_timeout[g],
        }
    }

    fn step_gates(&mut self, gates: u16) -> GateOutputs {
        let mut outputs = GateOutputs { high: 0, rose: 0 };
        for g in 0..GATES {
            let seen = self.seen_by_gate(g, gates);
            let gate = &mut self.gates[g];
            gate.step(seen);
            if gate.output(seen.input) {
                outputs.high |= 1 << g;
                outputs.rose |= u16::from(!gate.last_output) << g;
            }
        }
        outputs
    }

    fn step_counters(&mut self, rises: Rises, outputs: GateOutputs) {
        // RESET wins over AUTORESET and rises.
        if self.counters_control & RESET != 0 {
            return self.clear_counts();
        }
        let autoreset = self.counters_control & AUTORESET != 0;
        for (counter, register) in self.counters.iter_mut().zip(self.input) {
            let gate = gate_selection(register);
            counter.step(Pulse {
                clear: autoreset && bit(outputs.rose, gate),
                open: bit(outputs.high, gate),
                up: rises.has(up_selection(register)),
                down: rises.has(down_selection(register)),
            });
        }
    }

    fn step_watchdogs(&mut self, rises: Rises) {
        for (i, watchdog) in self.watchdogs.iter_mut().enumerate() {
            watchdog.step(rises.0 >> i & 1 == 1, self.watchdog_timeout);
        }
    }

    /// The group and the memory words are those of this tick, not of the request.
    // 01, Loader: "takes its four words from the dataset's part of the memory as it is then"
    fn step_loader(&mut self, memory: &[u16]) {
        let Some((n, request)) = self.loader.step() else {
            return;
        };
        if self.group[n] == request.group {
            let start = DATASET_WORDS * usize::from(request.dataset) + 4 * n;
            self.counters[n].load(&memory[start..start + 4]);
        }
    }

    fn settle(&mut self, inputs: u64, gates: u16) {
        for g in 0..GATES {
            let seen = self.seen_by_gate(g, gates);
            self.gates[g].settle(seen);
        }
        self.last_inputs = inputs;
        self.last_gates = gates;
    }
}

// Reads.
impl Crate {
    fn word(&self, memory: &[u16], register: Register) -> u16 {
        match register {
            Register::BackplaneMask(k) => self.backplane_mask[k],
            Register::ModuleId(k) => MODULE_IDS[2 * k] | MODULE_IDS[2 * k + 1] << 8,
            Register::WatchdogTimeout => self.watchdog_timeout,
            Register::CountersControl => self.counters_control,
            Register::GateMode => self.gate_mode,
            Register::GateTimeout(g) => self.gate_timeout[g],
            Register::WatchdogReset(k) => self.watchdog_reset[k],
            Register::TagLow => self.tag_low,
            Register::TagHigh => self.tag_high,
            Register::Code => self.code,
            // 01, Writes: "0x0903 reads 3 while the loader is busy, else 0"
            Register::LoaderState => if self.loader.busy() { 3 } else { 0 },
            Register::LoaderIterator => self.loader.last_handled as u16,
            // 02, CR 5: "the number of waiting requests, 0 to 16"
            Register::QueueLength => self.loader.queue.len() as u16,
            Register::EventKey => self.event_key,
            Register::EventControl => self.event_control,
            Register::ThresholdReload => self.threshold_reload,
            Register::GatePrepare => self.gate_prepare,
            Register::GateRecover => self.gate_recover,
            Register::Input(n) => self.input[n],
            Register::OutputSelection(o, k) => self.selection[o][k],
            Register::Count(k) => self.counters[k / 2].count_word(k % 2),
            Register::RawCount(k) => self.raw_counts[k / 2].word(k % 2),
            Register::Group(k) => self.group_word(k),
            Register::Threshold(k) => self.counters[k / 4].threshold_word(k % 4),
            Register::Memory(at) => memory[at],
            status => self.status_word(status),
        }
    }

    fn status_word(&self, register: Register) -> u16 {
        match register {
            Register::NegativeOverflow(k) => self.negative_overflow(k),
            Register::PositiveOverflow(k) => self.positive_overflow(k),
            Register::GateError => self.gate_error(),
            Register::WatchdogError(k) => self.watchdog_error(k),
            // 01: "0x0717 and 0x0718 show the last accepted tick"
            Register::GateIn => self.last_gates,
            Register::GateOut => word_of(GATES, |g| self.gates[g].last_output),
            Register::OutSignal => word_of(OUTPUTS, |o| self.interlock(o)),
            Register::GateState(k) => self.gate_state_word(k),
            other => unreachable!("{other:?} is no status register"),
        }
    }

    pub fn negative_overflow(&self, k: usize) -> u16 {
        word_of(16, |b| self.counters[16 * k + b].negative_overflow())
    }

    pub fn positive_overflow(&self, k: usize) -> u16 {
        word_of(16, |b| self.counters[16 * k + b].positive_overflow())
    }

    // 01, Gates: "The gate error bit is state 4."
    pub fn gate_error(&self) -> u16 {
        word_of(GATES, |g| self.gates[g].state == State::Error)
    }

    pub fn watchdog_error(&self, k: usize) -> u16 {
        word_of(16, |b| self.watchdogs.get(16 * k + b).is_some_and(|watchdog| watchdog.error))
    }

    fn gate_state_word(&self, k: usize) -> u16 {
        (0..4).fold(0, |word, j| word | (self.gates[4 * k + j].state as u16) << (4 * j))
    }

    fn group_word(&self, k: usize) -> u16 {
        (0..4).fold(0, |word, j| word | self.group[4 * k + j] << (4 * j))
    }

    /// Selected signals of output o by kind: negative and positive overflow,
    /// gate error, watchdog error, low forwarded gate input.
    pub fn selected_signals(&self, o: usize) -> [bool; 5] {
        let selection = &self.selection[o];
        let any = |start: usize, words: usize, signal: &dyn Fn(usize) -> u16| {
            (0..words).any(|k| selection[start + k] & signal(k) != 0)
        };
        [
            any(map::SELECT_NEGATIVE, 8, &|k| self.negative_overflow(k)),
            any(map::SELECT_POSITIVE, 8, &|k| self.positive_overflow(k)),
            any(map::SELECT_GATE_ERROR, 1, &|_| self.gate_error()),
            any(map::SELECT_WATCHDOG, 4, &|k| self.watchdog_error(k)),
            // Manual, 2.3.2: "Signals from gate inputs are pre-inverted"
            any(map::SELECT_FORWARD, 1, &|_| !self.last_gates),
        ]
    }

    // 01: "Interlock o is 1 exactly when no selected overflow, gate error,
    // watchdog error or low forwarded gate input exists."
    pub fn interlock(&self, o: usize) -> bool {
        !self.selected_signals(o).contains(&true)
    }
}

/// The register image: the words that reads give at 0x0600 to 0x19FF, 0 where refused.
pub fn image(device: &Crate, memory: &[u16]) -> Vec<u16> {
    (0x0600..=0x19FF).map(|address| device.read(memory, address).1).collect()
}
