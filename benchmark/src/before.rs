//! The library of an earlier revision, its functions renamed.

use mirvacula::Rehearsal;

extern "C" {
    fn mirvacula_run_before(
        memory: *mut u16,
        memory_words: usize,
        trace: *const u8,
        trace_bytes: usize,
        budget: u64,
        report: *mut u64,
        report_words: usize,
        image: *mut u16,
        image_words: usize,
    ) -> u16;
}

pub fn run(memory: &mut [u16], trace: &[u8], budget: u64) -> Rehearsal {
    // SAFETY: `mirvacula_run` of another revision, and its header is the same.
    unsafe { mirvacula::run_by(mirvacula_run_before, memory, trace, budget) }
}
