//! Counts of what happens in long repeats, and in which of their ticks.

use super::{block_of, is_open, is_writable, test_rises, Table, STATES};
use crate::counter::{down_selection, gate_selection, up_selection};
use crate::gate::State;
use crate::generator::{Family, BLOCKS};
use crate::lines::{FIRST_TEST, TEST_KHZ, TEST_SIGNALS};
use crate::model::Crate;
use crate::numbers::*;
use crate::trace::{record, Record, Recorder, Report, Stop};

/// A repeat of so many ticks is a long one.
const LONG: u16 = 100;

/// Where in a long repeat a tick stands, or that it follows one.
const PLACES: [&str; 6] = [
    "first tick of a long repeat",
    "second tick of a long repeat",
    "midst of a long repeat",
    "last tick but one of a long repeat",
    "last tick of a long repeat",
    "first tick behind a long repeat",
];

const BEHIND: usize = 5;

/// What can happen in any tick of a repeat. Behind these come the test
/// signals that count up, then those that count down.
const TIMER: usize = 0;
const LATCH: usize = 1;
const LOADER_TAKES: usize = 2;
const LOADER_ENDS: usize = 3;
const UP: usize = 4;
const DOWN: usize = UP + TEST_SIGNALS;
const HAPPENINGS: usize = DOWN + TEST_SIGNALS;

/// Steps of a gate that the first, second and third tick of a repeat can take.
/// After them only a timer's end is left.
const STEPS: [&[(usize, usize)]; 3] = [
    &[(0, 1), (0, 4), (0, 6), (1, 2), (1, 4), (2, 3), (3, 0), (3, 4), (4, 5), (5, 0), (6, 0)],
    &[(0, 4), (0, 6), (1, 4), (3, 0), (4, 5), (5, 0)],
    &[(0, 4), (0, 6), (4, 5)],
];

/// States in which a gate can stay at this level of its input.
const STAYS: [(usize, bool); 10] = [
    (0, false), (1, false), (2, true), (3, false), (4, false), (4, true), (5, false), (5, true), (6, false), (6, true),
];

/// First and last length of a kind of repeat.
const LENGTHS: [(u16, u16); 15] = [
    (1, 1), (2, 2), (3, 3), (4, 4), (5, 5), (6, 6), (7, 7), (8, 8), (9, 9), (10, 10), (11, 99), (100, 999),
    (1_000, 9_999), (10_000, 65_534), (65_535, 65_535),
];

/// A class that stands alone, in the order of the table.
#[derive(Clone, Copy)]
enum Class {
    Refused,
    RefusedWithPulse,
    PreparePulse,
    RecoverPulse,
    LoaderBusy,
    RequestWaits,
    MemoryUnderLoader,
    GroupUnderLoader,
    SameLevels,
    InputRises,
    InputFalls,
    ResetSet,
    ResetCleared,
    ResetHolds,
    AutoresetClears,
    SameSignalTwice,
    TwoSignals,
    ClosedGate,
    LatchAt0,
    LatchAt1,
    LatchBelow10,
    LatchAbove,
    TwoTimers,
    TwoTimersInOneTick,
    Spent,
    BudgetUsed,
}

const CLASSES: [(Class, &str); 26] = [
    (Class::Refused, "refused 6, long repeat"),
    (Class::RefusedWithPulse, "refused 6, long repeat, a pulse waits"),
    (Class::PreparePulse, "prepare pulse waits for a long repeat"),
    (Class::RecoverPulse, "recover pulse waits for a long repeat"),
    (Class::LoaderBusy, "loader busy before a long repeat"),
    (Class::RequestWaits, "loader idle and a request waits before a long repeat"),
    (Class::MemoryUnderLoader, "memory written before a long repeat, loader busy"),
    (Class::GroupUnderLoader, "group written before a long repeat, loader busy"),
    (Class::SameLevels, "long repeat at the levels of the last tick"),
    (Class::InputRises, "long repeat begins with an input's rise"),
    (Class::InputFalls, "long repeat begins with an input's fall"),
    (Class::ResetSet, "RESET set between two long repeats"),
    (Class::ResetCleared, "RESET cleared between two long repeats"),
    (Class::ResetHolds, "RESET holds against a test signal in a long repeat"),
    (Class::AutoresetClears, "AUTORESET clears a count in the first tick of a long repeat"),
    (Class::SameSignalTwice, "test signal rises in a long repeat as UP and DOWN of one counter"),
    (Class::TwoSignals, "two test signals rise in one tick of a long repeat as UP and DOWN of one counter"),
    (Class::ClosedGate, "test signal rises in a long repeat before a closed gate"),
    (Class::LatchAt0, "watchdog latched in a long repeat, timeout 0"),
    (Class::LatchAt1, "watchdog latched in a long repeat, timeout 1"),
    (Class::LatchBelow10, "watchdog latched in a long repeat, timeout 2 to 9"),
    (Class::LatchAbove, "watchdog latched in a long repeat, timeout above 9"),
    (Class::TwoTimers, "two timers run out in one long repeat"),
    (Class::TwoTimersInOneTick, "two timers run out in one tick of a long repeat"),
    (Class::Spent, "SPENT before a long repeat"),
    (Class::BudgetUsed, "budget used to the last tick of a long repeat"),
];

/// A tick of a repeat.
#[derive(Clone, Copy)]
struct Tick {
    inputs: u64,
    gates: u16,
    repeat: u16,
    /// From 1 on.
    number: u16,
}

impl Tick {
    fn is_long(self) -> bool {
        self.repeat >= LONG
    }

    fn place(self) -> usize {
        match (self.number, self.repeat - self.number) {
            (1, _) => 0,
            (2, _) => 1,
            (_, 0) => 4,
            (_, 1) => 3,
            _ => 2,
        }
    }
}

pub struct RepeatCoverage {
    classes: [u64; CLASSES.len()],
    places: [[u64; PLACES.len()]; HAPPENINGS],
    steps: [[[u64; 7]; 7]; 3],
    /// At a low and at a high input.
    stays: [[u64; 2]; 7],
    lengths: [u64; LENGTHS.len()],
    block_written: [u64; BLOCKS.len()],
    commands: [u64; 16],
    /// Ticks of the present repeat so far.
    number: u16,
    /// The last tick record was a long repeat, and RESET was set.
    behind_long: bool,
    reset: bool,
    /// Writes and tags since the last tick record.
    between: Vec<Record>,
    /// Gates that have kept their state in the present repeat.
    keep: u16,
    timers: u64,
    last: Option<Crate>,
}

impl Recorder for RepeatCoverage {
    fn called(&mut self, called: &Record, answer: u8, now: &Crate) {
        let before = self.last.take().expect("a run begins with it");
        match *called {
            Record::Tick { repeat, .. } if answer == BAD_LEVEL => self.refused(repeat, now),
            Record::Tick { repeat, inputs, gates } => {
                self.number += 1;
                self.ticked(Tick { inputs, gates, repeat, number: self.number }, &before, now);
            }
            _ if answer == ACCEPTED => self.between.push(*called),
            _ => {}
        }
        self.last = Some(now.clone());
    }

    fn stopped(&mut self, bytes: &[u8], budget: u64, report: &Report) {
        if report.stop == Stop::Spent {
            let next = record(&bytes[report.next as usize..]);
            let long = matches!(next, Ok(Record::Tick { repeat, .. }) if repeat >= LONG);
            self.hit_if(long, Class::Spent);
        }
        self.hit_if(self.behind_long && report.ticks == budget, Class::BudgetUsed);
    }
}

/// What one call shows.
impl RepeatCoverage {
    fn refused(&mut self, repeat: u16, now: &Crate) {
        let pulse = now.gates.iter().any(|gate| gate.prepare_pulse || gate.recover_pulse);
        self.hit_if(repeat >= LONG, Class::Refused);
        self.hit_if(repeat >= LONG && pulse, Class::RefusedWithPulse);
    }

    fn ticked(&mut self, tick: Tick, before: &Crate, now: &Crate) {
        if tick.number == 1 {
            self.begins(tick, before);
        }
        self.gates(tick, before, now);
        self.watchdogs(tick, before, now);
        self.loader(tick, before, now);
        self.counting(tick, before, now);
        if tick.number == tick.repeat {
            self.ends(tick, now);
        }
    }

    /// Before the first tick of a repeat.
    fn begins(&mut self, tick: Tick, before: &Crate) {
        let kind = LENGTHS.iter().position(|(first, last)| (*first..=*last).contains(&tick.repeat));
        self.lengths[kind.expect("all lengths are there")] += 1;
        self.keep = GATE_BITS;
        self.timers = 0;
        let between = std::mem::take(&mut self.between);
        if !tick.is_long() {
            return;
        }
        if self.behind_long {
            between.iter().for_each(|called| self.between_repeats(*called));
            self.hit_if(!self.reset && resets(before), Class::ResetSet);
            self.hit_if(self.reset && !resets(before), Class::ResetCleared);
        }
        let (busy, waiting) = (before.loader.busy(), !before.loader.queue.is_empty());
        let wrote = |start: u16| between.iter().any(|called| writes_to_block(*called, start));
        self.hit_if(before.gates.iter().any(|gate| gate.prepare_pulse), Class::PreparePulse);
        self.hit_if(before.gates.iter().any(|gate| gate.recover_pulse), Class::RecoverPulse);
        self.hit_if(busy, Class::LoaderBusy);
        self.hit_if(!busy && waiting, Class::RequestWaits);
        self.hit_if(busy && wrote(0x8000), Class::MemoryUnderLoader);
        self.hit_if(busy && wrote(0x1600), Class::GroupUnderLoader);
        self.hit_if((tick.inputs, tick.gates) == (before.last_inputs, before.last_gates), Class::SameLevels);
        self.hit_if(tick.inputs & !before.last_inputs != 0, Class::InputRises);
        self.hit_if(!tick.inputs & before.last_inputs != 0, Class::InputFalls);
    }

    fn between_repeats(&mut self, called: Record) {
        match called {
            Record::Write { address, .. } => self.block_written[block_of(address)] += 1,
            Record::Event { tag } => self.commands[(tag >> 12 & 0xF) as usize] += 1,
            Record::Tick { .. } => {}
        }
    }

    fn ends(&mut self, tick: Tick, now: &Crate) {
        self.number = 0;
        self.behind_long = tick.is_long();
        self.reset = resets(now);
        if !tick.is_long() {
            return;
        }
        for g in (0..GATES).filter(|g| self.keep >> g & 1 == 1) {
            self.stays[now.gates[g].state as usize][usize::from(tick.gates >> g & 1)] += 1;
        }
        self.hit_if(self.timers > 1, Class::TwoTimers);
    }

    fn happens(&mut self, what: usize, tick: Tick) {
        if tick.is_long() {
            self.places[what][tick.place()] += 1;
        }
        if tick.number == 1 && self.behind_long {
            self.places[what][BEHIND] += 1;
        }
    }

    fn gates(&mut self, tick: Tick, before: &Crate, now: &Crate) {
        let mut ended = 0;
        for g in 0..GATES {
            let (from, to) = (before.gates[g].state, now.gates[g].state);
            if from == to {
                continue;
            }
            self.keep &= !(1 << g);
            if tick.is_long() && tick.number <= 3 {
                self.steps[usize::from(tick.number) - 1][from as usize][to as usize] += 1;
            }
            if (from, to) == (State::Prepare, State::Error) && before.gates[g].timer == 1 {
                ended += 1;
                self.happens(TIMER, tick);
            }
        }
        self.timers += ended;
        self.hit_if(tick.is_long() && ended > 1, Class::TwoTimersInOneTick);
    }

    fn watchdogs(&mut self, tick: Tick, before: &Crate, now: &Crate) {
        let latched = before.watchdogs.iter().zip(&now.watchdogs).any(|(was, is)| !was.error && is.error);
        if !latched {
            return;
        }
        self.happens(LATCH, tick);
        if tick.is_long() {
            self.hit(match now.watchdog_timeout {
                0 => Class::LatchAt0,
                1 => Class::LatchAt1,
                2..=9 => Class::LatchBelow10,
                _ => Class::LatchAbove,
            });
        }
    }

    fn loader(&mut self, tick: Tick, before: &Crate, now: &Crate) {
        match (before.loader.busy(), now.loader.busy()) {
            (false, true) => self.happens(LOADER_TAKES, tick),
            (true, false) => self.happens(LOADER_ENDS, tick),
            _ => {}
        }
    }

    fn counting(&mut self, tick: Tick, before: &Crate, now: &Crate) {
        let rises = test_rises(before, now);
        let has = |selection: u16| rises >> selection & 1 == 1;
        for (n, register) in now.input.into_iter().enumerate() {
            let (up, down) = (up_selection(register), down_selection(register));
            if is_open(now, register) {
                let opened = before.gates.get(gate_selection(register)).is_some_and(|gate| !gate.last_output);
                let cleared = now.counters_control == 2 && opened && before.counters[n].count != 0;
                self.hit_if(cleared && tick.is_long() && tick.number == 1, Class::AutoresetClears);
            }
            if has(up) || has(down) {
                self.one_count((up, down), (has(up), has(down)), is_open(now, register), tick, now);
            }
        }
    }

    /// A counter with a test signal that rises.
    fn one_count(&mut self, (up, down): (u16, u16), rises: (bool, bool), open: bool, tick: Tick, now: &Crate) {
        if !open {
            return self.hit_if(tick.is_long(), Class::ClosedGate);
        }
        if resets(now) {
            return self.hit_if(tick.is_long(), Class::ResetHolds);
        }
        if rises == (true, true) && tick.is_long() {
            self.hit(if up == down { Class::SameSignalTwice } else { Class::TwoSignals });
        }
        if rises == (true, false) {
            self.happens(UP + usize::from(up) - FIRST_TEST, tick);
        }
        if rises == (false, true) {
            self.happens(DOWN + usize::from(down) - FIRST_TEST, tick);
        }
    }
}

fn resets(device: &Crate) -> bool {
    device.counters_control & 1 != 0
}

/// Whether a record is a write to the block that begins with this address.
fn writes_to_block(called: Record, start: u16) -> bool {
    matches!(called, Record::Write { address, .. } if block_of(address) == block_of(start))
}

fn happening(what: usize) -> String {
    match what {
        TIMER => "timer of PREPARE runs out".to_string(),
        LATCH => "watchdog latched".to_string(),
        LOADER_TAKES => "loader takes a request".to_string(),
        LOADER_ENDS => "loader handles 127".to_string(),
        UP..DOWN => format!("{} kHz counts up", TEST_KHZ[what - UP]),
        _ => format!("{} kHz counts down", TEST_KHZ[what - DOWN]),
    }
}

/// The table.
impl RepeatCoverage {
    pub fn new() -> RepeatCoverage {
        RepeatCoverage {
            classes: [0; CLASSES.len()],
            places: [[0; PLACES.len()]; HAPPENINGS],
            steps: [[[0; 7]; 7]; 3],
            stays: [[0; 2]; 7],
            lengths: [0; LENGTHS.len()],
            block_written: [0; BLOCKS.len()],
            commands: [0; 16],
            number: 0,
            behind_long: false,
            reset: false,
            between: Vec::new(),
            keep: 0,
            timers: 0,
            last: None,
        }
    }

    fn hit(&mut self, class: Class) {
        self.classes[class as usize] += 1;
    }

    fn hit_if(&mut self, condition: bool, class: Class) {
        self.classes[class as usize] += u64::from(condition);
    }

    fn gate_rows(&self, rows: &mut Vec<(String, u64)>) {
        for (k, steps) in STEPS.iter().enumerate() {
            let tick = ["first", "second", "third"][k];
            rows.extend(steps.iter().map(|(from, to)| {
                let name = format!("gate {} to {} in the {tick} tick of a long repeat", STATES[*from], STATES[*to]);
                (name, self.steps[k][*from][*to])
            }));
        }
        for (state, high) in STAYS {
            let level = if high { "high" } else { "low" };
            let name = format!("gate in {} over a long repeat, input {level}", STATES[state]);
            rows.push((name, self.stays[state][usize::from(high)]));
        }
    }
}

impl Table for RepeatCoverage {
    const FAMILY: Family = Family::Repeats;

    fn begin(&mut self, device: &Crate, _budget: u64) {
        self.number = 0;
        self.behind_long = false;
        self.between.clear();
        self.last = Some(device.clone());
    }

    fn rows(&self) -> Vec<(String, u64)> {
        let mut rows: Vec<(String, u64)> = Vec::new();
        for (class, name) in CLASSES {
            rows.push((name.to_string(), self.classes[class as usize]));
        }
        for (what, counts) in self.places.iter().enumerate() {
            let named = |place: &&str| format!("{} in the {place}", happening(what));
            rows.extend(PLACES.iter().map(named).zip(counts.iter().copied()));
        }
        self.gate_rows(&mut rows);
        for ((first, last), n) in LENGTHS.iter().zip(self.lengths) {
            rows.push((format!("repeat of {first} to {last} ticks"), n));
        }
        for (block, n) in BLOCKS.iter().zip(self.block_written).filter(|row| is_writable(row.0 .1)) {
            rows.push((format!("{} written between two long repeats", block.0), n));
        }
        for command in 1..=4 {
            rows.push((format!("command {command:#x} between two long repeats"), self.commands[command]));
        }
        rows
    }
}

impl Default for RepeatCoverage {
    fn default() -> RepeatCoverage {
        RepeatCoverage::new()
    }
}
