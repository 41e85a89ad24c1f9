//! Rehearses a patching of a beam loss counter crate: a trace is run from power-up, and its report and the registers
//! or the interlock outputs that it leaves are handed back. The words that patch a counter are made. A capture of the pulse
//! recorder becomes such a trace. Samples of a count are summed over a sliding window.

mod captures;
mod patching;
mod scans;
mod sums;

#[doc(hidden)]
pub use captures::convert_by_numbers;
pub use captures::{convert, trace_of, NotConverted, FRAME_BYTES, TICK_BYTES};
pub use patching::{group_word, input_word, GROUND, NO_GATE};
#[doc(hidden)]
pub use patching::{group_word_by_numbers, input_word_by_numbers};
#[doc(hidden)]
pub use scans::scan_by_numbers;
pub use scans::{scan, Output, Scan, OUTPUTS};
#[doc(hidden)]
pub use sums::{sum_sample_by_numbers, sum_start_by_numbers};
pub use sums::{BadWindow, SlidingSum, LARGEST_WINDOW};

pub const MEMORY_WORDS: usize = 16_384;
pub const IMAGE_START: u16 = 0x0600;
const IMAGE_WORDS: usize = 5_120;
const REPORT_WORDS: usize = 5;
const SPENT: u16 = 254;

extern "C" {
    fn mirvacula_run(
        memory: *mut u16,
        memory_words: usize,
        trace: *const u8,
        trace_bytes: usize,
        budget: u64,
        report: *mut u64,
        report_words: usize,
        image: *mut u16,
        image_words: usize,
    ) -> u16;
}

/// `mirvacula_run`, the same function of another archive, or `mirvacula_scan`.
#[doc(hidden)]
pub type EntryPoint =
    unsafe extern "C" fn(*mut u16, usize, *const u8, usize, u64, *mut u64, usize, *mut u16, usize) -> u16;

/// Why a run stopped.
#[derive(Clone, Copy, Debug, PartialEq, Eq)]
pub enum Stop {
    /// The end of the trace.
    End,
    /// A tick record exceeds the ticks left.
    Spent,
    /// A refusal: 1 for a memory that is not of 16,384 words, 7 to 10 for a malformed record.
    Refused(u16),
}

/// What a run reports.
#[derive(Clone, Copy, Debug, PartialEq, Eq)]
pub struct Report {
    pub stop: Stop,
    /// Offset of the next record.
    pub next: u64,
    pub ticks: u64,
    /// Records passed, refused ones included.
    pub records: u64,
    pub refused: u64,
}

impl Report {
    /// Of the stop that a run returns and the numbers that it fills in; the first of them is that stop again.
    fn new(stop: u16, numbers: [u64; REPORT_WORDS]) -> Report {
        let stop = match stop {
            0 => Stop::End,
            SPENT => Stop::Spent,
            cause => Stop::Refused(cause),
        };
        let [_, next, ticks, records, refused] = numbers;
        Report { stop, next, ticks, records, refused }
    }
}

/// A report and the registers that the run leaves.
#[derive(Clone, Debug, PartialEq, Eq)]
pub struct Rehearsal {
    pub report: Report,
    image: Vec<u16>,
}

impl Rehearsal {
    /// The words of the registers from 0x0600 to 0x19FF, 0 where a read is refused.
    pub fn image(&self) -> &[u16] {
        &self.image
    }

    /// The word of a register below the threshold memory; `None` outside 0x0600 to 0x19FF.
    pub fn register(&self, address: u16) -> Option<u16> {
        let place = address.checked_sub(IMAGE_START)?;
        self.image.get(usize::from(place)).copied()
    }
}

/// Powers up a crate on the lent memory (which is cleared) and runs the trace with a budget of ticks.
pub fn run(memory: &mut [u16], trace: &[u8], budget: u64) -> Rehearsal {
    // SAFETY: the archive's function is what mirvacula.h says.
    unsafe { run_by(mirvacula_run, memory, trace, budget) }
}

/// A run by another archive's function.
///
/// # Safety
///
/// The function has to be what mirvacula.h says of `mirvacula_run`.
#[doc(hidden)]
pub unsafe fn run_by(entry_point: EntryPoint, memory: &mut [u16], trace: &[u8], budget: u64) -> Rehearsal {
    let mut report = [0; REPORT_WORDS];
    let mut image = vec![0; IMAGE_WORDS];
    // SAFETY: the caller's promise.
    let stop = unsafe { call(entry_point, memory, trace, budget, &mut report, &mut image) };
    Rehearsal { report: Report::new(stop, report), image }
}

/// Lends slices to a function of an archive: `shown` is the image, or the outputs. Report and `shown` may be of any length.
///
/// # Safety
///
/// The function has to be what mirvacula.h says.
unsafe fn call(
    entry_point: EntryPoint,
    memory: &mut [u16],
    trace: &[u8],
    budget: u64,
    report: &mut [u64],
    shown: &mut [u16],
) -> u16 {
    // SAFETY: each pointer comes from a slice that is borrowed for the call, with its length; none of them overlap.
    unsafe {
        entry_point(
            memory.as_mut_ptr(),
            memory.len(),
            trace.as_ptr(),
            trace.len(),
            budget,
            report.as_mut_ptr(),
            report.len(),
            shown.as_mut_ptr(),
            shown.len(),
        )
    }
}
