//! Counts of what the generated traces reach.

pub mod repeats;
pub mod scans;

use crate::counter::{down_selection, gate_selection, up_selection};
use crate::generator::{Family, BLOCKS};
use crate::lines::{FIRST_TEST, TEST_KHZ, TEST_SIGNALS};
use crate::map;
use crate::model::Crate;
use crate::numbers::*;
use crate::trace::{record, run_recorded, Record, Recorder, Report, Stop};

const STATES: [&str; 7] = ["IDLE", "PREPARE", "GATE", "WAITING", "ERROR", "RECOVER", "DIRECT"];
const STEPS: [(usize, usize); 18] = [
    (0, 0), (0, 1), (0, 4), (0, 6), (1, 1), (1, 2), (1, 4), (2, 2), (2, 3),
    (3, 0), (3, 3), (3, 4), (4, 4), (4, 5), (5, 0), (5, 5), (6, 0), (6, 6),
];
const KINDS: [&str; 5] = ["negative overflow", "positive overflow", "gate error", "watchdog error", "low forwarded gate"];

/// A class that stands alone, in the order of the table.
#[derive(Clone, Copy)]
enum Class {
    WriteNotInMap,
    WriteReadOnly,
    WriteDataset,
    WriteQueueFull,
    TagDataset,
    TagQueueFull,
    TickBadInput,
    TickBadGate,
    TriggerHeldAboveDataset31,
    StopEnd,
    StopSpent,
    StopUnknownTag,
    StopWrongLength,
    StopHeaderCut,
    StopPayloadCut,
    StopRepeatZero,
    SpentByOneTick,
    BudgetUsedToTheLastTick,
    CallAfterTheLastTick,
    EmptyTrace,
    LoaderIdle,
    LoaderTakes,
    LoaderLoads,
    LoaderPassesOtherGroup,
    LoaderEnds,
    TakesDataset31,
    PositiveSet,
    PositiveCleared,
    NegativeSet,
    NegativeCleared,
    OverflowByLoading,
    WatchdogLatched,
    WatchdogHeldOverRise,
    WatchdogCleared,
    AutoresetClears,
    ResetWriteClears,
    ResetHolds,
    CommandClears,
    UpAndDownTogether,
    PatchedToHighLine,
    PrepareByEvent,
    PrepareByRegister,
    RecoverByEvent,
    RecoverByRegister,
    TimeoutRunsOut,
    MemoryWritten,
    WriteFirstRaw,
    WriteLastRaw,
    WriteAfterRaw,
    RefusedTickWithRise,
    RawOfHeldLevel,
    RawUnderReset,
    RawBehindClosedGate,
    RawNotSelected,
    RawAfterAutoreset,
    RawAfterResetWrite,
    RawAfterCommand,
    RawAfterWatchdogReset,
}

const CLASSES: [(Class, &str); 58] = [
    (Class::WriteNotInMap, "refused 2, write"),
    (Class::WriteReadOnly, "refused 3, write"),
    (Class::WriteDataset, "refused 4, write"),
    (Class::WriteQueueFull, "refused 5, write"),
    (Class::TagDataset, "refused 4, tag"),
    (Class::TagQueueFull, "refused 5, tag"),
    (Class::TickBadInput, "refused 6, input 54 or 55"),
    (Class::TickBadGate, "refused 6, gate 12 to 15"),
    (Class::TriggerHeldAboveDataset31, "dataset above 31 stored without a rise of TRIGGER"),
    (Class::StopEnd, "stop END"),
    (Class::StopSpent, "stop SPENT"),
    (Class::StopUnknownTag, "stop 7"),
    (Class::StopWrongLength, "stop 8"),
    (Class::StopHeaderCut, "stop 9, header"),
    (Class::StopPayloadCut, "stop 9, payload"),
    (Class::StopRepeatZero, "stop 10"),
    (Class::SpentByOneTick, "SPENT, repeat one more than left"),
    (Class::BudgetUsedToTheLastTick, "budget used to the last tick"),
    (Class::CallAfterTheLastTick, "record passed with no ticks left"),
    (Class::EmptyTrace, "empty trace"),
    (Class::LoaderIdle, "loader stays idle"),
    (Class::LoaderTakes, "loader takes a request"),
    (Class::LoaderLoads, "loader changes thresholds"),
    (Class::LoaderPassesOtherGroup, "loader passes a counter of another group"),
    (Class::LoaderEnds, "loader handles 127 and is idle"),
    (Class::TakesDataset31, "loader takes dataset 31"),
    (Class::PositiveSet, "positive overflow set"),
    (Class::PositiveCleared, "positive overflow cleared"),
    (Class::NegativeSet, "negative overflow set"),
    (Class::NegativeCleared, "negative overflow cleared"),
    (Class::OverflowByLoading, "overflow changed by loading alone"),
    (Class::WatchdogLatched, "watchdog latched"),
    (Class::WatchdogHeldOverRise, "watchdog error held over a rise"),
    (Class::WatchdogCleared, "watchdog cleared"),
    (Class::AutoresetClears, "AUTORESET clears a count"),
    (Class::ResetWriteClears, "RESET written clears a count"),
    (Class::ResetHolds, "RESET holds against a rise"),
    (Class::CommandClears, "command 0x4 clears a count"),
    (Class::UpAndDownTogether, "UP and DOWN rise together"),
    (Class::PatchedToHighLine, "open counter patched to a line that is high"),
    (Class::PrepareByEvent, "PREPARE reached by an event"),
    (Class::PrepareByRegister, "PREPARE reached by a register bit"),
    (Class::RecoverByEvent, "RECOVER reached by an event"),
    (Class::RecoverByRegister, "RECOVER reached by a register bit"),
    (Class::TimeoutRunsOut, "a timeout above 0 runs out"),
    (Class::MemoryWritten, "memory word written"),
    (Class::WriteFirstRaw, "refused 3, write to 0x1300"),
    (Class::WriteLastRaw, "refused 3, write to 0x136B"),
    (Class::WriteAfterRaw, "refused 2, write to 0x136C"),
    (Class::RefusedTickWithRise, "refused 6, an input high that was low"),
    (Class::RawOfHeldLevel, "input stays high, raw count stays"),
    (Class::RawUnderReset, "raw count gains while RESET is set"),
    (Class::RawBehindClosedGate, "raw count gains, all counters of the input behind low gates"),
    (Class::RawNotSelected, "raw count gains, no counter selects the input"),
    (Class::RawAfterAutoreset, "AUTORESET clears a count, raw count above 0 of its input stays"),
    (Class::RawAfterResetWrite, "RESET written clears a count, a raw count above 0 stays"),
    (Class::RawAfterCommand, "command 0x4 clears a count, a raw count above 0 stays"),
    (Class::RawAfterWatchdogReset, "watchdog cleared, raw count above 0 of its input stays"),
];

/// The classes of a family of traces, counted while they run.
pub trait Table: Recorder + Sized {
    const FAMILY: Family;

    fn begin(&mut self, device: &Crate, budget: u64);

    /// The name of each class, and how often it was reached.
    fn rows(&self) -> Vec<(String, u64)>;

    fn run_seed(&mut self, seed: u64) {
        let mut memory = vec![0; MEMORY_WORDS];
        let (_, mut device) = Crate::power_up(&mut memory);
        let (bytes, budget) = (Self::FAMILY.trace(seed), Self::FAMILY.budget(seed));
        self.begin(&device, budget);
        run_recorded(&mut device, &mut memory, &bytes, budget, self);
    }

    /// What must not occur, but did.
    fn broken(&self) -> Option<String> {
        None
    }

    fn never_reached(&self) -> Vec<String> {
        let missed = self.rows().into_iter().filter(|row| row.1 == 0).map(|row| row.0);
        missed.chain(self.broken()).collect()
    }

    fn text(&self) -> String {
        let rows = self.rows();
        let missing = self.never_reached();
        let mut text: String = rows.iter().map(|(name, n)| format!("{n:>12}  {name}\n")).collect();
        text += &format!("{} classes, {} never reached\n", rows.len(), missing.len());
        missing.iter().fold(text, |text, name| text + "never reached: " + name + "\n")
    }
}

pub struct Coverage {
    classes: [u64; CLASSES.len()],
    steps: [[u64; 7]; 7],
    reached: [[u64; 7]; GATES],
    block_written: [u64; BLOCKS.len()],
    block_refused: [u64; BLOCKS.len()],
    block_unused: [u64; BLOCKS.len()],
    /// Right key, wrong key, events off.
    commands: [[u64; 3]; 16],
    queue: [u64; QUEUE_PLACES + 1],
    test_up: [u64; TEST_SIGNALS],
    test_down: [u64; TEST_SIGNALS],
    trips: [[u64; 5]; OUTPUTS],
    /// Runs that end with a raw count above 0.
    raw: [u64; INPUTS],
    budget: u64,
    ticks: u64,
    last: Option<Crate>,
}

impl Recorder for Coverage {
    fn called(&mut self, called: &Record, answer: u8, now: &Crate) {
        let before = self.last.take().expect("a run begins with it");
        match *called {
            Record::Tick { inputs, gates, .. } => self.ticked(answer, inputs, gates, &before, now),
            Record::Write { address, word } => self.wrote(answer, address, word, &before, now),
            Record::Event { tag } => self.tagged(answer, tag, &before, now),
        }
        self.queue[now.loader.queue.len()] += 1;
        self.overflows(&before, now);
        self.interlocks(&before, now);
        self.last = Some(now.clone());
    }

    fn stopped(&mut self, bytes: &[u8], budget: u64, report: &Report) {
        let left = &bytes[report.next as usize..];
        let header = left.len() < 3;
        self.hit(match report.stop {
            Stop::End => Class::StopEnd,
            Stop::Spent => Class::StopSpent,
            Stop::Refused(UNKNOWN_TAG) => Class::StopUnknownTag,
            Stop::Refused(WRONG_LENGTH) => Class::StopWrongLength,
            Stop::Refused(CUT) if header => Class::StopHeaderCut,
            Stop::Refused(CUT) => Class::StopPayloadCut,
            Stop::Refused(_) => Class::StopRepeatZero,
        });
        if bytes.is_empty() {
            self.hit(Class::EmptyTrace);
        }
        if report.stop == Stop::Spent {
            let Ok(Record::Tick { repeat, .. }) = record(left) else {
                panic!("SPENT before something else than a tick record");
            };
            self.hit_if(u64::from(repeat) == budget - report.ticks + 1, Class::SpentByOneTick);
        }
        self.hit_if(budget > 0 && report.ticks == budget, Class::BudgetUsedToTheLastTick);
        let end = self.last.as_ref().expect("a run begins with it");
        for (n, raw) in self.raw.iter_mut().zip(end.raw_counts) {
            *n += u64::from(raw.0 > 0);
        }
    }
}

/// What one call shows.
impl Coverage {
    fn ticked(&mut self, answer: u8, inputs: u64, gates: u16, before: &Crate, now: &Crate) {
        self.hit_if(self.ticks == self.budget, Class::CallAfterTheLastTick);
        if answer == BAD_LEVEL {
            self.hit_if(inputs & !INPUT_BITS != 0, Class::TickBadInput);
            self.hit_if(gates & !GATE_BITS != 0, Class::TickBadGate);
            let rises = inputs & !before.last_inputs & INPUT_BITS;
            self.hit_if(rises != 0 && now.raw_counts == before.raw_counts, Class::RefusedTickWithRise);
            return;
        }
        self.ticks += 1;
        let rises = inputs & !before.last_inputs;
        self.gate_steps(before, now);
        self.counting(rises, before, now);
        self.raw_counts(inputs, before, now);
        self.watchdogs(rises, before, now);
        self.loading(before, now);
    }

    fn gate_steps(&mut self, before: &Crate, now: &Crate) {
        for g in 0..GATES {
            let (from, to) = (before.gates[g].state as usize, now.gates[g].state as usize);
            self.steps[from][to] += 1;
            self.reached[g][to] += 1;
            let pulse = &before.gates[g];
            if (from, to) == (0, 1) {
                self.hit_either(pulse.prepare_pulse, Class::PrepareByEvent, Class::PrepareByRegister);
            }
            if (from, to) == (4, 5) {
                self.hit_either(pulse.recover_pulse, Class::RecoverByEvent, Class::RecoverByRegister);
            }
            self.hit_if((from, to) == (1, 4) && pulse.timer == 1, Class::TimeoutRunsOut);
        }
    }

    fn counting(&mut self, rises: u64, before: &Crate, now: &Crate) {
        let rises = rises | test_rises(before, now);
        for n in 0..COUNTERS {
            if !is_open(now, now.input[n]) {
                continue;
            }
            let gate = gate_selection(now.input[n]);
            let (up, down) = (up_selection(now.input[n]), down_selection(now.input[n]));
            self.one_count(n, (up, down), rises, before, now);
            let opened = !before.gates[gate].last_output;
            let autoreset = now.counters_control == 2 && opened && before.counters[n].count != 0;
            self.hit_if(autoreset, Class::AutoresetClears);
            let raw = now.raw_counts.get(usize::from(up)).is_some_and(|raw| raw.0 > 0);
            self.hit_if(autoreset && raw, Class::RawAfterAutoreset);
        }
    }

    /// High words stay 0 here: 65,536 rises do not fit a trace of 65,536 bytes.
    fn raw_counts(&mut self, inputs: u64, before: &Crate, now: &Crate) {
        let held = inputs & before.last_inputs;
        for i in 0..INPUTS {
            let gain = now.raw_counts[i].0.wrapping_sub(before.raw_counts[i].0);
            self.hit_if(gain == 0 && held >> i & 1 == 1, Class::RawOfHeldLevel);
            if gain == 1 {
                self.one_raw_count(i, now);
            }
        }
    }

    /// Input i rises.
    fn one_raw_count(&mut self, i: usize, now: &Crate) {
        let selecting: Vec<u16> = now.input.into_iter().filter(|word| selects(*word, i)).collect();
        let open = selecting.iter().any(|word| is_open(now, *word));
        self.hit_if(now.counters_control & 1 != 0, Class::RawUnderReset);
        self.hit_if(selecting.is_empty(), Class::RawNotSelected);
        self.hit_if(!selecting.is_empty() && !open, Class::RawBehindClosedGate);
    }

    /// Counter n with its gate open.
    fn one_count(&mut self, n: usize, (up, down): (u16, u16), rises: u64, before: &Crate, now: &Crate) {
        let (goes_up, goes_down) = (rises >> up & 1 == 1, rises >> down & 1 == 1);
        if now.counters_control & 1 != 0 {
            self.hit_if(goes_up != goes_down, Class::ResetHolds);
            return;
        }
        self.hit_if(goes_up && goes_down, Class::UpAndDownTogether);
        if goes_up && usize::from(up) >= FIRST_TEST && now.counters[n].count != before.counters[n].count {
            self.test_up[usize::from(up) - FIRST_TEST] += 1;
        }
        if goes_down && usize::from(down) >= FIRST_TEST && now.counters[n].count != before.counters[n].count {
            self.test_down[usize::from(down) - FIRST_TEST] += 1;
        }
    }

    fn watchdogs(&mut self, rises: u64, before: &Crate, now: &Crate) {
        for i in 0..INPUTS {
            let (was, is) = (before.watchdogs[i].error, now.watchdogs[i].error);
            self.hit_if(!was && is, Class::WatchdogLatched);
            self.hit_if(was && is && rises >> i & 1 == 1, Class::WatchdogHeldOverRise);
        }
    }

    fn loading(&mut self, before: &Crate, now: &Crate) {
        let Some(work) = before.loader.work else {
            self.hit_either(now.loader.busy(), Class::LoaderTakes, Class::LoaderIdle);
            let takes_31 = now.loader.work.is_some_and(|work| work.request.dataset == 31);
            return self.hit_if(takes_31, Class::TakesDataset31);
        };
        let (old, new) = (before.counters[work.next], now.counters[work.next]);
        let changed = (old.positive, old.negative) != (new.positive, new.negative);
        self.hit_if(changed, Class::LoaderLoads);
        self.hit_if(now.group[work.next] != work.request.group, Class::LoaderPassesOtherGroup);
        self.hit_if(!now.loader.busy(), Class::LoaderEnds);
        let flipped = old.positive_overflow() != new.positive_overflow();
        self.hit_if(changed && flipped && old.count == new.count, Class::OverflowByLoading);
    }

    fn wrote(&mut self, answer: u8, address: u16, word: u16, before: &Crate, now: &Crate) {
        self.hit_if(self.ticks == self.budget, Class::CallAfterTheLastTick);
        let block = block_of(address);
        match answer {
            ACCEPTED => self.block_written[block] += 1,
            _ => self.block_refused[block] += 1,
        }
        let used = map::register(address).map_or(0xFFFF, map::used_bits);
        self.block_unused[block] += u64::from(answer == ACCEPTED && word & !used != 0);
        self.hit_if(answer == NOT_IN_MAP, Class::WriteNotInMap);
        self.hit_if(answer == READ_ONLY, Class::WriteReadOnly);
        self.hit_if(answer == DATASET_ABOVE_31, Class::WriteDataset);
        self.hit_if(answer == QUEUE_FULL, Class::WriteQueueFull);
        let held = answer == ACCEPTED && address == 0x0A02 && word & 0xFF > 31;
        self.hit_if(held && word & 0x1000 != 0, Class::TriggerHeldAboveDataset31);
        self.hit_if(address >= 0x8000 && answer == ACCEPTED, Class::MemoryWritten);
        let errors = |device: &Crate| device.watchdogs.iter().filter(|w| w.error).count();
        self.hit_if(errors(now) < errors(before), Class::WatchdogCleared);
        let reset = address == 0x0801 && counted(before) && !counted(now);
        self.hit_if(reset, Class::ResetWriteClears);
        self.hit_if(reset && raw_counted(now), Class::RawAfterResetWrite);
        self.raw_at_write(answer, address, before, now);
        if (0x1000..0x1080).contains(&address) {
            self.patched(usize::from(address - 0x1000), now);
        }
    }

    /// The ends of the raw counts' block, and a watchdog's reset.
    fn raw_at_write(&mut self, answer: u8, address: u16, before: &Crate, now: &Crate) {
        self.hit_if(answer == READ_ONLY && address == 0x1300, Class::WriteFirstRaw);
        self.hit_if(answer == READ_ONLY && address == 0x136B, Class::WriteLastRaw);
        self.hit_if(answer == NOT_IN_MAP && address == 0x136C, Class::WriteAfterRaw);
        let cleared = |i: usize| before.watchdogs[i].error && !now.watchdogs[i].error;
        let raw = (0..INPUTS).any(|i| cleared(i) && now.raw_counts[i].0 > 0);
        self.hit_if(raw, Class::RawAfterWatchdogReset);
    }

    fn patched(&mut self, n: usize, now: &Crate) {
        let open = is_open(now, now.input[n]);
        let up = now.last_inputs >> up_selection(now.input[n]) & 1 == 1;
        self.hit_if(open && up, Class::PatchedToHighLine);
    }

    fn tagged(&mut self, answer: u8, tag: u32, before: &Crate, now: &Crate) {
        self.hit_if(self.ticks == self.budget, Class::CallAfterTheLastTick);
        let command = (tag >> 12 & 0xF) as usize;
        let column = match (before.event_control, tag >> 16 == u32::from(before.event_key)) {
            (0, _) => 2,
            (_, false) => 1,
            (_, true) => 0,
        };
        self.commands[command][column] += 1;
        self.hit_if(answer == DATASET_ABOVE_31, Class::TagDataset);
        self.hit_if(answer == QUEUE_FULL, Class::TagQueueFull);
        let cleared = counted(before) && !counted(now);
        self.hit_if(cleared, Class::CommandClears);
        self.hit_if(cleared && raw_counted(now), Class::RawAfterCommand);
    }

    fn overflows(&mut self, before: &Crate, now: &Crate) {
        for (old, new) in before.counters.iter().zip(&now.counters) {
            if old == new {
                continue;
            }
            let (was, is) = (old.positive_overflow(), new.positive_overflow());
            self.hit_if(!was && is, Class::PositiveSet);
            self.hit_if(was && !is, Class::PositiveCleared);
            let (was, is) = (old.negative_overflow(), new.negative_overflow());
            self.hit_if(!was && is, Class::NegativeSet);
            self.hit_if(was && !is, Class::NegativeCleared);
        }
    }

    /// An output that falls because of one kind of signal alone.
    fn interlocks(&mut self, before: &Crate, now: &Crate) {
        for o in 0..OUTPUTS {
            if now.selection[o] == [0; map::SELECTION_WORDS] {
                continue;
            }
            let signals = now.selected_signals(o);
            let alone = signals.iter().filter(|signal| **signal).count() == 1;
            if alone && before.interlock(o) {
                let kind = signals.iter().position(|signal| *signal).expect("one is set");
                self.trips[o][kind] += 1;
            }
        }
    }
}

fn block_of(address: u16) -> usize {
    let block = BLOCKS.iter().position(|(_, first, last)| (*first..=*last).contains(&address));
    block.expect("the blocks cover all addresses")
}

fn is_writable(address: u16) -> bool {
    map::register(address).is_some_and(|register| !map::read_only(register))
}

/// Whether a register at this address drops bits of a written word.
fn has_unused(address: u16) -> bool {
    is_writable(address) && map::register(address).is_some_and(|register| map::used_bits(register) != 0xFFFF)
}

/// The test signals that rise in a tick, by selection value.
fn test_rises(before: &Crate, now: &Crate) -> u64 {
    let tests = (0..TEST_SIGNALS).filter(|k| now.tests.phases[*k] < before.tests.phases[*k]);
    tests.fold(0, |rises, k| rises | 1 << (FIRST_TEST + k))
}

/// Whether the gate of an input register is open.
fn is_open(device: &Crate, register: u16) -> bool {
    device.gates.get(gate_selection(register)).is_some_and(|gate| gate.last_output)
}

fn counted(device: &Crate) -> bool {
    device.counters.iter().any(|counter| counter.count != 0)
}

fn raw_counted(device: &Crate) -> bool {
    device.raw_counts.iter().any(|raw| raw.0 != 0)
}

/// Whether an input register has the input in UP or DOWN.
fn selects(register: u16, input: usize) -> bool {
    [up_selection(register), down_selection(register)].contains(&(input as u16))
}

/// The table.
impl Coverage {
    pub fn new() -> Coverage {
        Coverage {
            classes: [0; CLASSES.len()],
            steps: [[0; 7]; 7],
            reached: [[0; 7]; GATES],
            block_written: [0; BLOCKS.len()],
            block_refused: [0; BLOCKS.len()],
            block_unused: [0; BLOCKS.len()],
            commands: [[0; 3]; 16],
            queue: [0; QUEUE_PLACES + 1],
            test_up: [0; TEST_SIGNALS],
            test_down: [0; TEST_SIGNALS],
            trips: [[0; 5]; OUTPUTS],
            raw: [0; INPUTS],
            budget: 0,
            ticks: 0,
            last: None,
        }
    }

    fn hit(&mut self, class: Class) {
        self.classes[class as usize] += 1;
    }

    fn hit_if(&mut self, condition: bool, class: Class) {
        self.classes[class as usize] += u64::from(condition);
    }

    fn hit_either(&mut self, condition: bool, yes: Class, no: Class) {
        self.hit(if condition { yes } else { no });
    }

    /// Written where the map lets it, refused elsewhere.
    fn block_rows(&self, rows: &mut Vec<(String, u64)>) {
        for (k, (name, first, _)) in BLOCKS.iter().enumerate() {
            let (what, n) = match is_writable(*first) {
                true => ("written", self.block_written[k]),
                false => ("refused", self.block_refused[k]),
            };
            rows.push((format!("{name}, {what}"), n));
        }
        let outputs = BLOCKS.iter().position(|block| block.1 == 0x1100).expect("in the list");
        rows.push(("gaps between the output blocks, refused".to_string(), self.block_refused[outputs]));
        rows.extend(BLOCKS.iter().zip(self.block_unused).filter(|row| has_unused(row.0 .1)).map(|(block, n)| {
            (format!("{}, unused bits dropped", block.0), n)
        }));
    }

    /// Steps that 01 does not list must not occur at all.
    fn impossible_steps(&self) -> u64 {
        let all: u64 = self.steps.iter().flatten().sum();
        all - STEPS.iter().map(|(from, to)| self.steps[*from][*to]).sum::<u64>()
    }
}

impl Table for Coverage {
    const FAMILY: Family = Family::Scenes;

    fn begin(&mut self, device: &Crate, budget: u64) {
        self.budget = budget;
        self.ticks = 0;
        self.last = Some(device.clone());
    }

    fn rows(&self) -> Vec<(String, u64)> {
        let mut rows: Vec<(String, u64)> = Vec::new();
        for (class, name) in CLASSES {
            rows.push((name.to_string(), self.classes[class as usize]));
        }
        for (from, to) in STEPS {
            rows.push((format!("gate {} to {}", STATES[from], STATES[to]), self.steps[from][to]));
        }
        for (g, states) in self.reached.iter().enumerate() {
            rows.extend(STATES.iter().zip(states).map(|(name, n)| (format!("gate {g} in {name}"), *n)));
        }
        self.block_rows(&mut rows);
        for (command, counts) in self.commands.iter().enumerate() {
            let names = ["right key", "wrong key", "events off"];
            rows.extend(names.iter().zip(counts).map(|(name, n)| (format!("command {command:#x}, {name}"), *n)));
        }
        for (length, n) in self.queue.iter().enumerate() {
            rows.push((format!("queue of {length}"), *n));
        }
        for (k, khz) in TEST_KHZ.iter().enumerate() {
            rows.push((format!("{khz} kHz counts up"), self.test_up[k]));
            rows.push((format!("{khz} kHz counts down"), self.test_down[k]));
        }
        for (o, kinds) in self.trips.iter().enumerate() {
            rows.extend(KINDS.iter().zip(kinds).map(|(name, n)| (format!("output {o} tripped by {name} alone"), *n)));
        }
        for (i, n) in self.raw.iter().enumerate() {
            rows.push((format!("raw count of input {i} above 0 at the end"), *n));
        }
        rows
    }

    fn broken(&self) -> Option<String> {
        (self.impossible_steps() != 0).then(|| "no gate step outside 01's list".to_string())
    }
}

impl Default for Coverage {
    fn default() -> Coverage {
        Coverage::new()
    }
}
