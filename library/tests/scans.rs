//! The library's scan of the interlock outputs against the reference model, on random traces.
mod common;

use common::{all_agree, expected, number_of};
use mirvacula::{run, scan, scan_by_numbers, Output, Scan, Stop, MEMORY_WORDS};
use reference::generator::Family;
use reference::trace::from_power_up;

const SCANS: u64 = 5_000;
const BAD_MEMORY: u16 = 1;
const BAD_BUFFER: u16 = 255;
const FILLED: u16 = 0x5555;
/// Counter 0 positive for output 0, gate 2 forwarded to output 5, and a memory word; a tick that counter 0 counts; last a
/// write that is refused.
const TRACE: [u8; 56] = [
    2, 0, 4, 0x10, 0, 0x0D, 0x80, 2, 0, 4, 0x08, 0x02, 0, 1, 2, 0, 4, 0x11, 0x08, 0, 1, 2, 0, 4, 0x11, 0xB5, 0, 4, //
    2, 0, 4, 0x80, 0, 0, 7, 1, 0, 11, 0, 1, 0, 0, 0, 0, 0, 0, 1, 0, 1, 2, 0, 4, 0xC0, 0, 0, 0,
];

/// The memory is filled before.
fn scanned(memory_words: usize, trace: &[u8], budget: u64) -> (Scan, Vec<u16>) {
    let mut memory = vec![FILLED; memory_words];
    let scan = scan(&mut memory, trace, budget);
    (scan, memory)
}

fn compare_seed(family: Family, seed: u64) -> Result<(), String> {
    let (trace, budget) = (family.trace(seed), family.budget(seed));
    let (device, words, report) = from_power_up(&trace, budget);
    let (_, outputs) = device.scan(&words);
    let outputs = outputs.map(|output| Output { level: output.level, words: output.words as u16 });
    let wanted = Scan { report: expected(report), outputs };
    let (is, memory) = scanned(MEMORY_WORDS, &trace, budget);
    if is != wanted {
        return Err(format!("{family:?}, seed {seed}: {is:?}, expected {wanted:?}"));
    }
    if memory != words {
        return Err(format!("{family:?}, seed {seed}: a memory word differs"));
    }
    Ok(())
}

#[test]
fn random_scans_agree() {
    all_agree(number_of("SCANS", SCANS), |seed| compare_seed(Family::Scans, seed));
}

#[test]
fn scans_of_other_random_traces_agree() {
    all_agree((number_of("SCANS", SCANS) / 10).max(1), |seed| compare_seed(Family::Scenes, seed));
    all_agree((number_of("SCANS", SCANS) / 100).max(1), |seed| compare_seed(Family::Repeats, seed));
}

/// The same report and memory as a run, and the levels that 0x0719 has.
fn run_and_scan(seed: u64) -> Result<(), String> {
    let (trace, budget) = (Family::Scans.trace(seed), Family::Scans.budget(seed));
    let mut memory = vec![FILLED; MEMORY_WORDS];
    let rehearsal = run(&mut memory, &trace, budget);
    let (scan, scanned_memory) = scanned(MEMORY_WORDS, &trace, budget);
    let levels = scan.outputs.iter().rev().fold(0, |bits, output| bits << 1 | u16::from(output.level));
    if scan.report != rehearsal.report || scanned_memory != memory || rehearsal.register(0x0719) != Some(levels) {
        return Err(format!("seed {seed}: {scan:?}, the run has {:?}", rehearsal.report));
    }
    Ok(())
}

#[test]
fn a_scan_runs_as_a_run_does() {
    all_agree((number_of("SCANS", SCANS) / 4).max(1), run_and_scan);
}

#[test]
fn an_output_is_read_up_to_its_signal() {
    let (scan, memory) = scanned(MEMORY_WORDS, &TRACE, 10);
    let free = Output { level: true, words: 22 };
    let (early, last) = (Output { level: false, words: 9 }, Output { level: false, words: 22 });
    assert_eq!(scan.outputs, [early, free, free, free, free, last]);
    assert_eq!((scan.report.stop, scan.report.next, scan.report.ticks), (Stop::End, 56, 1));
    assert_eq!((scan.report.records, scan.report.refused), (7, 1));
    assert_eq!((memory[0], memory[1]), (7, 0));
}

#[test]
fn a_memory_of_another_length_is_refused_and_left() {
    for words in [0, 1, 16_383, 16_385] {
        let (scan, memory) = scanned(words, &TRACE, 10);
        assert_eq!(scan.report.stop, Stop::Refused(BAD_MEMORY));
        assert_eq!((scan.report.next, scan.report.ticks, scan.report.records, scan.report.refused), (0, 0, 0, 0));
        assert_eq!(scan.outputs, [Output { level: false, words: 0 }; 6]);
        assert_eq!(memory, vec![FILLED; words]);
    }
}

/// The function's return, the memory, the report and the outputs, all of them filled before.
fn called(memory_words: usize, report_words: usize, outputs_words: usize) -> (u16, Vec<u16>, Vec<u64>, Vec<u16>) {
    let mut memory = vec![FILLED; memory_words];
    let (mut report, mut outputs) = (vec![u64::MAX; report_words], vec![FILLED; outputs_words]);
    let number = scan_by_numbers(&mut memory, &TRACE, 10, &mut report, &mut outputs);
    (number, memory, report, outputs)
}

#[test]
fn buffers_of_another_length_are_left() {
    let wrong = [(0, 12), (4, 12), (6, 12), (5, 0), (5, 6), (5, 11), (5, 13), (12, 5), (0, 0)];
    for (report, outputs) in wrong {
        // a memory of another length comes first
        for (memory, number) in [(MEMORY_WORDS, BAD_BUFFER), (0, BAD_MEMORY), (16_383, BAD_MEMORY), (16_385, BAD_MEMORY)] {
            let left = (number, vec![FILLED; memory], vec![u64::MAX; report], vec![FILLED; outputs]);
            assert_eq!(called(memory, report, outputs), left);
        }
    }
}

#[test]
fn every_word_of_report_and_outputs_is_written() {
    let (number, memory, report, outputs) = called(MEMORY_WORDS, 5, 12);
    assert_eq!((number, report), (0, vec![0, 56, 1, 7, 1]));
    assert_eq!(outputs, [0, 1, 1, 1, 1, 0, 9, 22, 22, 22, 22, 22]);
    assert_eq!((memory[0], memory[16_383]), (7, 0));
    let (number, memory, report, outputs) = called(16_383, 5, 12);
    assert_eq!((number, report, outputs), (1, vec![1, 0, 0, 0, 0], vec![0; 12]));
    assert_eq!(memory, vec![FILLED; 16_383]);
}
