//! The run of a trace.

use super::{Crate, Memory};
use mirvacula::{Report, Stop};
use reference::numbers::*;

const HEADER_BYTES: u64 = 3;
const IMAGE_WORDS: usize = 5_120;

enum Record {
    Ticks { repeat: u16, inputs: u64, gates: u16 },
    Write { address: u16, word: u16 },
    Tag(u32),
}

fn refused(cause: u8) -> Stop {
    Stop::Refused(u16::from(cause))
}

fn bad_level(inputs: u64, gates: u16) -> bool {
    inputs & !INPUT_BITS != 0 || gates & !GATE_BITS != 0
}

/// The record at the start and its payload's length. Causes in order: header cut, unknown tag, wrong length, payload
/// cut, repeat 0.
fn record(left: &[u8]) -> Result<(Record, u64), u8> {
    let &[tag, high, low, ref payload @ ..] = left else {
        return Err(CUT);
    };
    let length = match tag {
        0x01 => 11,
        0x02 | 0x03 => 4,
        _ => return Err(UNKNOWN_TAG),
    };
    if u16::from_be_bytes([high, low]) != length {
        return Err(WRONG_LENGTH);
    }
    let record = match (tag, payload) {
        (0x01, &[r1, r0, a, b, c, d, e, f, g, g1, g0, ..]) => Record::Ticks {
            repeat: u16::from_be_bytes([r1, r0]),
            inputs: u64::from_be_bytes([0, a, b, c, d, e, f, g]),
            gates: u16::from_be_bytes([g1, g0]),
        },
        (0x02, &[a1, a0, w1, w0, ..]) => {
            Record::Write { address: u16::from_be_bytes([a1, a0]), word: u16::from_be_bytes([w1, w0]) }
        }
        (0x03, &[a, b, c, d, ..]) => Record::Tag(u32::from_be_bytes([a, b, c, d])),
        _ => return Err(CUT),
    };
    Ok((record, u64::from(length)))
}

/// Powers up a crate on the lent memory and runs the trace with a budget of ticks: the report and the image.
pub fn run(memory: &mut [u16], trace: &[u8], budget: u64) -> (Report, Vec<u16>) {
    let mut report = Report { stop: Stop::End, next: 0, ticks: 0, records: 0, refused: 0 };
    let Ok(memory) = <&mut Memory>::try_from(memory) else {
        report.stop = refused(MEMORY_LENGTH);
        return (report, vec![0; IMAGE_WORDS]);
    };
    let mut device = Crate::power_up(memory);
    while (report.next as usize) < trace.len() {
        let left = &trace[report.next as usize..];
        if let Err(stop) = device.pass(memory, left, budget, &mut report) {
            report.stop = stop;
            break;
        }
    }
    let image = device.image(memory);
    (report, image)
}

impl Crate {
    /// One record: either it stops the run or it is counted and passed.
    #[inline]
    fn pass(&mut self, memory: &mut Memory, left: &[u8], budget: u64, report: &mut Report) -> Result<(), Stop> {
        let (record, length) = record(left).map_err(refused)?;
        let answer = match record {
            Record::Ticks { repeat: 0, .. } => return Err(refused(REPEAT_ZERO)),
            Record::Ticks { inputs, gates, .. } if bad_level(inputs, gates) => BAD_LEVEL,
            Record::Ticks { repeat, .. } if u64::from(repeat) > budget - report.ticks => return Err(Stop::Spent),
            Record::Ticks { repeat, inputs, gates } => {
                (0..repeat).for_each(|_| self.tick(memory, inputs, gates));
                report.ticks += u64::from(repeat);
                ACCEPTED
            }
            Record::Write { address, word } => self.write(memory, address, word),
            Record::Tag(tag) => self.tag(tag),
        };
        report.next += HEADER_BYTES + length;
        report.records += 1;
        report.refused += u64::from(answer != ACCEPTED);
        Ok(())
    }
}
