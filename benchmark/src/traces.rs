//! The traces to be timed, built from fixed seeds.

use reference::generator::Dice;
use reference::map::SELECTION_WORDS;
use reference::numbers::{COUNTERS, GATE_BITS, INPUT_BITS, OUTPUTS};

const KEY: u16 = 0xB1A5;
/// Gates 0 to 5 work in DIRECT, gates 6 to 11 are opened by a prepare and held high.
const DIRECT_GATES: u16 = 0x003F;
const HELD_GATES: u16 = GATE_BITS & !DIRECT_GATES;
const DATASETS: u16 = 4;
const GROUND: u16 = 54;
/// The loader needs 129 ticks for a request.
const TICKS_A_REQUEST: u64 = 120;

/// The selection words of an output.
pub type Words = [u16; SELECTION_WORDS];

pub struct Trace {
    pub name: &'static str,
    pub bytes: Vec<u8>,
    pub ticks: u64,
}

pub fn all() -> [Trace; 5] {
    [idle(20_000_000), quiet(1_000_000), busy(300_000), repeat(300_000), records(100_000)]
}

/// Ticks one by one and in long repeats, few enough to count their instructions.
pub fn short() -> [Trace; 2] {
    [busy(30_000), repeat(10_000)]
}

/// Each output selects its words. Two signals exist, each at bit 0 of its word: counter 0 is below its negative
/// threshold (the first word), gate 0 is low (the last).
pub fn two_signals(selections: &[Words; OUTPUTS]) -> Trace {
    let mut trace = Trace::new("SCAN");
    trace.patch(0, GROUND, 0, 1);
    trace.write(0x0802, GATE_BITS);
    for (output, words) in (0..).zip(selections) {
        (0..).zip(words).for_each(|(k, word)| trace.write(0x1100 + 0x20 * output + k, *word));
    }
    trace.tick(1, 1, GATE_BITS & !1);
    trace
}

impl Trace {
    fn new(name: &'static str) -> Trace {
        Trace { name, bytes: Vec::new(), ticks: 0 }
    }

    fn write(&mut self, address: u16, word: u16) {
        self.bytes.extend([0x02, 0x00, 0x04]);
        self.bytes.extend(address.to_be_bytes());
        self.bytes.extend(word.to_be_bytes());
    }

    fn tag(&mut self, key: u16, code: u16) {
        self.bytes.extend([0x03, 0x00, 0x04]);
        self.bytes.extend(key.to_be_bytes());
        self.bytes.extend(code.to_be_bytes());
    }

    fn tick(&mut self, repeat: u16, inputs: u64, gates: u16) {
        self.bytes.extend([0x01, 0x00, 0x0B]);
        self.bytes.extend(repeat.to_be_bytes());
        self.bytes.extend(&inputs.to_be_bytes()[1..]);
        self.bytes.extend(gates.to_be_bytes());
        self.ticks += u64::from(repeat);
    }

    fn patch(&mut self, counter: u16, up: u16, down: u16, gate: u16) {
        self.write(0x1000 + counter, gate << 12 | down << 6 | up);
    }

    /// A rise of TRIGGER, or a tag.
    fn request(&mut self, dice: &mut Dice) {
        let request = (dice.word() & 0xF) << 8 | dice.below(DATASETS.into()) as u16;
        if dice.percent(50) {
            self.tag(KEY, 0x1000 | request);
        } else {
            self.write(0x0A02, request);
            self.write(0x0A02, 0x1000 | request);
        }
    }
}

/// All counters over all inputs and test signals, thresholds, groups, interlocks, short watchdogs, all gates.
fn patch_all(trace: &mut Trace, dice: &mut Dice) {
    for n in 0..COUNTERS as u16 {
        trace.patch(n, n % 64, (7 * n + 3) % 64, n % 12);
    }
    for k in 0..512 * DATASETS {
        // Low words first; the high words make small positive and small negative thresholds.
        let word = [dice.word() & 0x03FF, 0, !(dice.word() & 0x03FF), 0xFFFF][usize::from(k % 4)];
        trace.write(0x8000 + k, word);
    }
    (0..32).for_each(|k| trace.write(0x1600 + k, dice.word()));
    for k in (0..6 * 32).filter(|k| k % 32 < 22) {
        trace.write(0x1100 + k, dice.word());
    }
    trace.write(0x0800, 1);
    trace.write(0x0801, 2);
    trace.write(0x0A00, KEY);
    trace.write(0x0A01, 1);
    open_gates(trace);
}

fn open_gates(trace: &mut Trace) {
    trace.write(0x0802, DIRECT_GATES);
    (0..12).for_each(|g| trace.write(0x0804 + g, 1));
    trace.write(0x0A03, HELD_GATES);
    trace.tick(1, 0, 0);
    trace.tick(1, 0, GATE_BITS);
}

/// A falling reset bit of all watchdogs.
fn reset_watchdogs(trace: &mut Trace) {
    for word in [0xFFFF, 0x0000] {
        (0..4).for_each(|k| trace.write(0x0810 + k, word));
    }
}

/// Four counters, three of them on test signals, behind two open gates; the longest repeats and no event between them.
fn idle(ticks: u64) -> Trace {
    let mut trace = Trace::new("IDLE");
    trace.patch(0, 3, 9, 0);
    trace.patch(40, 55, 54, 0);
    trace.patch(41, 63, 61, 1);
    trace.patch(127, 59, 59, 1);
    trace.write(0x0802, 3);
    while trace.ticks < ticks {
        let repeat = (ticks - trace.ticks).min(u16::MAX.into());
        trace.tick(repeat as u16, 0, 3);
    }
    trace
}

/// Three counters on one gate; pulses one tick long, far apart.
fn quiet(ticks: u64) -> Trace {
    let mut trace = Trace::new("QUIET");
    let mut dice = Dice::new(1);
    trace.patch(0, 3, 9, 0);
    trace.patch(40, 9, 54, 0);
    trace.patch(127, 54, 21, 0);
    trace.write(0x0802, 1);
    while trace.ticks < ticks {
        trace.tick(1, 1 << dice.one_of(&[3, 9, 21, 33]), 1);
        trace.tick(200 + dice.below(1_800) as u16, 0, 1);
    }
    trace
}

/// Ticks at random levels, with the loader kept at work.
fn ticks_at_random(mut trace: Trace, ticks: u64, repeat: impl Fn(&mut Dice) -> u16) -> Trace {
    let mut dice = Dice::new(2);
    patch_all(&mut trace, &mut dice);
    let (mut next_request, mut next_reset) = (0, 0);
    while trace.ticks < ticks {
        while next_request <= trace.ticks {
            trace.request(&mut dice);
            next_request += TICKS_A_REQUEST;
        }
        if next_reset <= trace.ticks {
            reset_watchdogs(&mut trace);
            next_reset += 20 * TICKS_A_REQUEST;
        }
        let times = repeat(&mut dice);
        trace.tick(times, dice.roll() & INPUT_BITS, HELD_GATES | dice.word() & DIRECT_GATES);
    }
    trace
}

fn busy(ticks: u64) -> Trace {
    ticks_at_random(Trace::new("BUSY"), ticks, |dice| 1 + dice.below(3) as u16)
}

fn repeat(ticks: u64) -> Trace {
    ticks_at_random(Trace::new("REPEAT"), ticks, |dice| 300 + dice.below(1_200) as u16)
}

/// Mostly writes and tags, one tick in some forty records.
fn records(count: usize) -> Trace {
    let mut trace = Trace::new("RECORDS");
    let mut dice = Dice::new(3);
    patch_all(&mut trace, &mut dice);
    for _ in 0..count {
        match dice.below(40) {
            0 => trace.tick(1, dice.roll() & INPUT_BITS, HELD_GATES | dice.word() & DIRECT_GATES),
            1..=12 => any_tag(&mut trace, &mut dice),
            _ => any_write(&mut trace, &mut dice),
        }
    }
    trace
}

fn any_tag(trace: &mut Trace, dice: &mut Dice) {
    let key = if dice.percent(80) { KEY } else { dice.word() };
    let parameter = dice.word() & 0x0F1F;
    let command = dice.one_of(&[0x0, 0x1, 0x1, 0x1, 0x2, 0x2, 0x3, 0x3, 0x4, 0x7]);
    trace.tag(key, command << 12 | parameter);
}

/// Any kind of register; some are read-only or not in the map.
fn any_write(trace: &mut Trace, dice: &mut Dice) {
    let word = dice.word();
    match dice.below(16) {
        0..=3 => trace.write(0x1000 + word % 128, dice.word()),
        4..=6 => trace.write(0x8000 | word & 0x3FFF, dice.word()),
        7 => trace.write(0x1600 + word % 32, dice.word()),
        8 | 9 => trace.write(0x1100 + word % 192, dice.word()),
        10 => trace.write(0x0804 + word % 16, dice.word()),
        11 => trace.write(0x0A02, dice.word() & 0x1F1F),
        12 => trace.write(0x0A03 + word % 2, dice.word()),
        13 => trace.write(dice.one_of(&[0x0800, 0x0801, 0x0802]), word & 0x0FFE),
        14 => trace.write(0x0630 + word % 16, dice.word()),
        _ => trace.write(dice.one_of(&[0x0700, 0x0900, 0x1200, 0x1800, 0xC000, 0x0905, 0x0906]), word),
    }
}
