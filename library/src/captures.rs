//! Captures of the pulse recorder as traces.

use std::error::Error;
use std::fmt::{self, Display, Formatter};

/// A frame of a capture: the levels of one tick, 7 bytes of inputs and 2 of gates.
pub const FRAME_BYTES: usize = 9;
/// A tick record of a trace.
pub const TICK_BYTES: usize = 14;
const ANSWER_WORDS: usize = 2;

const BAD_LEVEL: u16 = 6;
const NOT_FRAMES: u16 = 12;
const NO_ROOM: u16 = 13;

extern "C" {
    fn mirvacula_convert(
        capture: *const u8,
        capture_bytes: usize,
        out: *mut u8,
        out_bytes: usize,
        answer: *mut u64,
        answer_words: usize,
    ) -> u16;
}

/// Why a capture is refused, in the order of the checks.
#[derive(Clone, Copy, Debug, PartialEq, Eq)]
pub enum NotConverted {
    /// 12: the capture's length is not a multiple of nine.
    Ragged,
    /// 6: a level on a line that does not exist, input 54 or 55 or gate 12 to 15; the first such frame, counted from 0.
    Level { frame: u64 },
    /// 13: the output is shorter than the trace.
    NoRoom,
}

impl NotConverted {
    /// The number of the refusal.
    pub fn number(self) -> u16 {
        match self {
            NotConverted::Ragged => NOT_FRAMES,
            NotConverted::Level { .. } => BAD_LEVEL,
            NotConverted::NoRoom => NO_ROOM,
        }
    }
}

impl Display for NotConverted {
    fn fmt(&self, f: &mut Formatter) -> fmt::Result {
        match self {
            NotConverted::Ragged => write!(f, "the capture is not of whole frames of nine bytes")?,
            NotConverted::Level { frame } => write!(f, "frame {frame}: a line that does not exist")?,
            NotConverted::NoRoom => write!(f, "the output is shorter than the trace")?,
        }
        write!(f, " ({})", self.number())
    }
}

impl Error for NotConverted {}

/// Writes the trace of a capture from the output's start on and returns its length in bytes. Equal neighbouring frames
/// are one tick record, with a repeat up to 65,535; no trace of tick records for these frames has fewer records. Bytes past
/// the trace stay, and where the capture is refused the whole output stays. `TICK_BYTES` for each frame are always enough.
pub fn convert(capture: &[u8], out: &mut [u8]) -> Result<usize, NotConverted> {
    let mut answer = [0; ANSWER_WORDS];
    let number = convert_by_numbers(capture, out, &mut answer);
    let [bytes, frame] = answer;
    match number {
        0 => Ok(bytes as usize),
        NOT_FRAMES => Err(NotConverted::Ragged),
        BAD_LEVEL => Err(NotConverted::Level { frame }),
        NO_ROOM => Err(NotConverted::NoRoom),
        other => unreachable!("a conversion never answers {other}"),
    }
}

/// `mirvacula_convert` itself: an answer of any length can be lent.
#[doc(hidden)]
pub fn convert_by_numbers(capture: &[u8], out: &mut [u8], answer: &mut [u64]) -> u16 {
    // SAFETY: each pointer comes from a slice that is borrowed for the call, with its length; none of them overlap.
    unsafe {
        mirvacula_convert(
            capture.as_ptr(),
            capture.len(),
            out.as_mut_ptr(),
            out.len(),
            answer.as_mut_ptr(),
            answer.len(),
        )
    }
}

/// The trace of a capture, as [`convert`] writes it. There is always room for it.
pub fn trace_of(capture: &[u8]) -> Result<Vec<u8>, NotConverted> {
    let mut trace = vec![0; TICK_BYTES * (capture.len() / FRAME_BYTES)];
    let bytes = convert(capture, &mut trace)?;
    trace.truncate(bytes);
    trace.shrink_to_fit();
    Ok(trace)
}
