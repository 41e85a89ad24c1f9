//! Captures of the pulse recorder as traces of tick records (02, CR 2).

use crate::numbers::{BAD_LEVEL, NOT_FRAMES, NO_ROOM};
use crate::trace::{record, Record};

pub const FRAME_BYTES: usize = 9;
/// The most that two bytes hold.
pub const LARGEST_REPEAT: u16 = 65_535;

/// The levels of one tick: 7 bytes of inputs, 2 of gates.
pub type Frame = [u8; FRAME_BYTES];

#[derive(Clone, Copy, Debug, PartialEq, Eq)]
pub struct Refusal {
    pub number: u8,
    /// The first frame with a bad level, counted from 0; 0 where another number is given.
    pub frame: usize,
}

/// A tick record: so many ticks at the levels of a frame.
#[derive(Clone, Copy, Debug, PartialEq, Eq)]
pub struct Ticks {
    pub repeat: u16,
    pub frame: Frame,
}

/// The frame of these levels.
pub fn frame(inputs: u64, gates: u16) -> Frame {
    let mut frame = [0; FRAME_BYTES];
    frame[..7].copy_from_slice(&inputs.to_be_bytes()[1..]);
    frame[7..].copy_from_slice(&gates.to_be_bytes());
    frame
}

/// The trace of a capture, for an output with room for so many bytes.
// 02, CR 2: "capture length not a multiple of nine, 12, first; a bad level, 6; output too short, 13, last"
pub fn converted(capture: &[u8], room: usize) -> Result<Vec<u8>, Refusal> {
    let (frames, rest) = capture.as_chunks::<FRAME_BYTES>();
    if !rest.is_empty() {
        return Err(Refusal { number: NOT_FRAMES, frame: 0 });
    }
    if let Some(frame) = frames.iter().position(has_bad_level) {
        return Err(Refusal { number: BAD_LEVEL, frame });
    }
    let trace = rendered(&joined(frames, LARGEST_REPEAT));
    if trace.len() > room {
        return Err(Refusal { number: NO_ROOM, frame: 0 });
    }
    Ok(trace)
}

/// Inputs 54 and 55 are the top of the first byte, gates 12 to 15 the top of the eighth.
fn has_bad_level(frame: &Frame) -> bool {
    frame[0] & 0xC0 != 0 || frame[7] & 0xF0 != 0
}

/// Each stretch of equal frames, cut from its start into repeats up to the largest.
// 02, CR 2: "joining equal neighbours into the longest repeats that fit two bytes"
pub fn joined(frames: &[Frame], largest: u16) -> Vec<Ticks> {
    let stretches = frames.chunk_by(|frame, next| frame == next);
    let parts = stretches.flat_map(|stretch| stretch.chunks(largest.into()));
    parts.map(|part| Ticks { repeat: part.len() as u16, frame: part[0] }).collect()
}

/// The bytes of tick records.
pub fn rendered(records: &[Ticks]) -> Vec<u8> {
    let bytes = |ticks: &Ticks| [&[0x01, 0x00, 0x0B][..], &ticks.repeat.to_be_bytes(), &ticks.frame].concat();
    records.iter().flat_map(bytes).collect()
}

/// The capture that a trace of tick records comes from, `None` where it has any other bytes.
pub fn read_back(trace: &[u8]) -> Option<Vec<u8>> {
    let (mut capture, mut at) = (Vec::new(), 0);
    while at < trace.len() {
        let found = record(&trace[at..]).ok()?;
        let Record::Tick { repeat, inputs, gates } = found else { return None };
        capture.extend(frame(inputs, gates).repeat(repeat.into()));
        at += found.bytes();
    }
    Some(capture)
}
