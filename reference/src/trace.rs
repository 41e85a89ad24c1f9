//! The trace run and its printed lines (01, Trace and printing program).

use crate::model::{bad_level, Crate};
use crate::numbers::*;

pub const PROGRAM_BYTES: usize = 65_536;
pub const PROGRAM_TICKS: u64 = 1_000_000;
const HEADER_BYTES: usize = 3;

#[derive(Clone, Copy, Debug, PartialEq, Eq)]
pub enum Stop {
    End,
    Spent,
    /// A refusal number: 1, or 7 to 10.
    Refused(u8),
}

#[derive(Clone, Copy, Debug, PartialEq, Eq)]
pub struct Report {
    pub stop: Stop,
    /// Offset of the next record.
    pub next: u64,
    pub ticks: u64,
    /// Records passed, refused ones included.
    pub records: u64,
    pub refused: u64,
}

impl Report {
    /// Of a run to its end, and of the run of the bytes behind it.
    pub fn followed_by(self, part: Report) -> Report {
        Report {
            stop: part.stop,
            next: self.next + part.next,
            ticks: self.ticks + part.ticks,
            records: self.records + part.records,
            refused: self.refused + part.refused,
        }
    }
}

#[derive(Clone, Copy, Debug, PartialEq, Eq)]
pub enum Record {
    Tick { repeat: u16, inputs: u64, gates: u16 },
    Write { address: u16, word: u16 },
    Event { tag: u32 },
}

impl Record {
    pub fn bytes(self) -> usize {
        match self {
            Record::Tick { .. } => HEADER_BYTES + 11,
            Record::Write { .. } | Record::Event { .. } => HEADER_BYTES + 4,
        }
    }
}

/// Looks on at a run without touching it. The empty one costs nothing.
pub trait Recorder {
    fn called(&mut self, _record: &Record, _answer: u8, _device: &Crate) {}
    fn stopped(&mut self, _bytes: &[u8], _budget: u64, _report: &Report) {}
}

pub struct NoRecorder;

impl Recorder for NoRecorder {}

/// High byte first.
fn number(bytes: &[u8]) -> u64 {
    bytes.iter().fold(0, |value, byte| value << 8 | u64::from(*byte))
}

/// The payload's length, None for an unknown record tag.
fn payload_length(tag: u8) -> Option<usize> {
    match tag {
        0x01 => Some(11),
        0x02 | 0x03 => Some(4),
        _ => None,
    }
}

/// The record at the start of what is left, or the number that stops the run.
// 01, Causes: "In a record: header cut, 7, 8, payload cut, 10, then 6, then the budget."
pub fn record(left: &[u8]) -> Result<Record, u8> {
    if left.len() < HEADER_BYTES {
        return Err(CUT);
    }
    let length = payload_length(left[0]).ok_or(UNKNOWN_TAG)?;
    if number(&left[1..3]) != length as u64 {
        return Err(WRONG_LENGTH);
    }
    let payload = left.get(HEADER_BYTES..HEADER_BYTES + length).ok_or(CUT)?;
    let record = decoded(left[0], payload);
    if matches!(record, Record::Tick { repeat: 0, .. }) {
        return Err(REPEAT_ZERO);
    }
    Ok(record)
}

fn decoded(tag: u8, payload: &[u8]) -> Record {
    match tag {
        0x01 => Record::Tick {
            repeat: number(&payload[0..2]) as u16,
            inputs: number(&payload[2..9]),
            gates: number(&payload[9..11]) as u16,
        },
        0x02 => Record::Write { address: number(&payload[0..2]) as u16, word: number(&payload[2..4]) as u16 },
        _ => Record::Event { tag: number(payload) as u32 },
    }
}

pub fn run(device: &mut Crate, memory: &mut [u16], bytes: &[u8], budget: u64) -> Report {
    run_recorded(device, memory, bytes, budget, &mut NoRecorder)
}

pub fn run_recorded(
    device: &mut Crate,
    memory: &mut [u16],
    bytes: &[u8],
    budget: u64,
    recorder: &mut impl Recorder,
) -> Report {
    let mut report = Report { stop: Stop::End, next: 0, ticks: 0, records: 0, refused: 0 };
    // 01, Causes: "a run the number and zeros in the rest of its report"
    if memory.len() != MEMORY_WORDS {
        report.stop = Stop::Refused(MEMORY_LENGTH);
        return report;
    }
    while (report.next as usize) < bytes.len() {
        if let Some(stop) = pass(device, memory, &bytes[report.next as usize..], budget, &mut report, recorder) {
            report.stop = stop;
            break;
        }
    }
    recorder.stopped(bytes, budget, &report);
    report
}

/// One record: either it stops the run or it is counted and passed.
fn pass(
    device: &mut Crate,
    memory: &mut [u16],
    left: &[u8],
    budget: u64,
    report: &mut Report,
    recorder: &mut impl Recorder,
) -> Option<Stop> {
    let record = match record(left) {
        Ok(record) => record,
        Err(number) => return Some(Stop::Refused(number)),
    };
    if does_not_fit(record, budget - report.ticks) {
        return Some(Stop::Spent);
    }
    let answer = call(device, memory, record, recorder);
    if let (Record::Tick { repeat, .. }, ACCEPTED) = (record, answer) {
        report.ticks += u64::from(repeat);
    }
    report.records += 1;
    report.refused += u64::from(answer != ACCEPTED);
    report.next += record.bytes() as u64;
    None
}

/// A bad level is looked at before the budget, so it never stops the run.
fn does_not_fit(record: Record, ticks_left: u64) -> bool {
    match record {
        Record::Tick { repeat, inputs, gates } => !bad_level(inputs, gates) && u64::from(repeat) > ticks_left,
        _ => false,
    }
}

/// A tick record with a bad level is refused once, whatever its repeat.
fn call(device: &mut Crate, memory: &mut [u16], record: Record, recorder: &mut impl Recorder) -> u8 {
    let Record::Tick { repeat, inputs, gates } = record else {
        let answer = match record {
            Record::Write { address, word } => device.write(memory, address, word),
            Record::Event { tag } => device.tag(memory, tag),
            Record::Tick { .. } => unreachable!("ticks are below"),
        };
        recorder.called(&record, answer, device);
        return answer;
    };
    for _ in 0..repeat {
        let answer = device.tick(memory, inputs, gates);
        recorder.called(&record, answer, device);
        if answer != ACCEPTED {
            return answer;
        }
    }
    ACCEPTED
}

fn stop_text(stop: Stop) -> String {
    match stop {
        Stop::End => "END".to_string(),
        Stop::Spent => "SPENT".to_string(),
        Stop::Refused(number) => number.to_string(),
    }
}

/// The first printed line.
pub fn report_line(report: &Report) -> String {
    format!(
        "STOP {} NEXT {} TICKS {} RECORDS {} REFUSED {}",
        stop_text(report.stop),
        report.next,
        report.ticks,
        report.records,
        report.refused
    )
}

/// All four lines, each with its line end.
pub fn printed(device: &Crate, memory: &[u16], report: &Report) -> String {
    let word = |address| device.read(memory, address).1;
    let block = |first: u16| (first..first + 8).map(|a| format!(" {:04x}", word(a))).collect::<String>();
    format!(
        "{}\nNEG{}\nPOS{}\nOUT {:02x}\n",
        report_line(report),
        block(0x0700),
        block(0x0708),
        word(0x0719)
    )
}

/// From power-up, on a memory of its own.
pub fn from_power_up(bytes: &[u8], budget: u64) -> (Crate, Vec<u16>, Report) {
    let mut memory = vec![0; MEMORY_WORDS];
    let (_, mut device) = Crate::power_up(&mut memory);
    let report = run(&mut device, &mut memory, bytes, budget);
    (device, memory, report)
}

/// What the printing program prints for these bytes.
pub fn rehearse(bytes: &[u8]) -> String {
    run_and_print(&bytes[..bytes.len().min(PROGRAM_BYTES)], PROGRAM_TICKS)
}

/// The four lines for a whole trace and any budget.
pub fn run_and_print(bytes: &[u8], budget: u64) -> String {
    let (device, memory, report) = from_power_up(bytes, budget);
    printed(&device, &memory, &report)
}
