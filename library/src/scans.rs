//! The six interlock outputs of the crate that a run leaves, and how far their selections had to be read.

use crate::{call, Report, REPORT_WORDS};

/// Interlock outputs.
pub const OUTPUTS: usize = 6;
const SCAN_WORDS: usize = 2 * OUTPUTS;

extern "C" {
    fn mirvacula_scan(
        memory: *mut u16,
        memory_words: usize,
        trace: *const u8,
        trace_bytes: usize,
        budget: u64,
        report: *mut u64,
        report_words: usize,
        outputs: *mut u16,
        outputs_words: usize,
    ) -> u16;
}

/// What the scan of an interlock output gives.
#[derive(Clone, Copy, Debug, PartialEq, Eq)]
pub struct Output {
    /// `false` where a selected signal exists.
    pub level: bool,
    /// Selection words read, from the lowest address to the first by which those read make the level 0; all 22 where it is 1.
    pub words: u16,
}

/// A report and the scan of the outputs that the run leaves.
#[derive(Clone, Copy, Debug, PartialEq, Eq)]
pub struct Scan {
    pub report: Report,
    /// All at level 0 with no words read where the memory is not of 16,384 words.
    pub outputs: [Output; OUTPUTS],
}

/// Powers up a crate on the lent memory (which is cleared), runs the trace with a budget of ticks and scans the outputs.
pub fn scan(memory: &mut [u16], trace: &[u8], budget: u64) -> Scan {
    let mut report = [0; REPORT_WORDS];
    let mut outputs = [0; SCAN_WORDS];
    let stop = scan_by_numbers(memory, trace, budget, &mut report, &mut outputs);
    let (levels, words) = outputs.split_at(OUTPUTS);
    Scan {
        report: Report::new(stop, report),
        outputs: std::array::from_fn(|o| Output { level: levels[o] == 1, words: words[o] }),
    }
}

/// `mirvacula_scan` itself: a report and outputs of any length can be lent.
#[doc(hidden)]
pub fn scan_by_numbers(memory: &mut [u16], trace: &[u8], budget: u64, report: &mut [u64], outputs: &mut [u16]) -> u16 {
    // SAFETY: the archive's function is what mirvacula.h says.
    unsafe { call(mirvacula_scan, memory, trace, budget, report, outputs) }
}
