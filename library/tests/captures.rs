//! The library's conversion of captures against the reference model, on random captures.
mod common;

use common::{all_agree, number_of};
use mirvacula::{convert, convert_by_numbers, run, trace_of, NotConverted, Rehearsal, Stop, MEMORY_WORDS};
use reference::capture::{converted, rendered, Refusal, Ticks};
use reference::generator::{captures, Family};

const CAPTURES: u64 = 20_000;
const BAD_BUFFER: u16 = 255;

/// Bytes of which no neighbours are equal.
fn pattern(length: usize) -> Vec<u8> {
    (0..length).map(|k| (k % 251) as u8).collect()
}

fn refusal(expected: Refusal) -> NotConverted {
    match expected.number {
        6 => NotConverted::Level { frame: expected.frame as u64 },
        12 => NotConverted::Ragged,
        _ => NotConverted::NoRoom,
    }
}

/// What a conversion has to return, and the output that it has to leave.
fn expected(capture: &[u8], room: usize) -> (Result<usize, NotConverted>, Vec<u8>) {
    let mut out = pattern(room);
    let length = converted(capture, room).map_err(refusal).map(|trace| {
        out[..trace.len()].copy_from_slice(&trace);
        trace.len()
    });
    (length, out)
}

fn compare_seed(seed: u64) -> Result<(), String> {
    let (capture, room) = (captures::capture(seed), captures::room(seed));
    let (wanted, wanted_out) = expected(&capture, room);
    let mut out = pattern(room);
    let length = convert(&capture, &mut out);
    if length != wanted {
        return Err(format!("seed {seed}: {length:?}, expected {wanted:?}"));
    }
    if let Some(k) = out.iter().zip(&wanted_out).position(|(is, wanted)| is != wanted) {
        return Err(format!("seed {seed}: byte {k} of the output is {}, expected {}", out[k], wanted_out[k]));
    }
    if trace_of(&capture) != converted(&capture, usize::MAX).map_err(refusal) {
        return Err(format!("seed {seed}: the trace in an output of its own differs"));
    }
    Ok(())
}

#[test]
fn random_captures_agree() {
    all_agree(number_of("CAPTURES", CAPTURES), compare_seed);
}

/// One record for each frame.
fn tick_by_tick(capture: &[u8]) -> Vec<u8> {
    let (frames, _) = capture.as_chunks();
    let records: Vec<Ticks> = frames.iter().map(|frame| Ticks { repeat: 1, frame: *frame }).collect();
    rendered(&records)
}

fn rehearse(parts: &[&[u8]]) -> (Rehearsal, Vec<u16>) {
    let mut memory = vec![0xAAAA; MEMORY_WORDS];
    let rehearsal = run(&mut memory, &parts.concat(), u64::MAX);
    (rehearsal, memory)
}

/// The records of a random trace up to one that is malformed.
fn patching(seed: u64) -> Vec<u8> {
    let mut trace = Family::Scenes.trace(seed);
    let (rehearsal, _) = rehearse(&[&trace]);
    trace.truncate(rehearsal.report.next as usize);
    trace
}

/// A crate in use cannot tell a capture's trace from its frames tick by tick.
fn run_both(seed: u64) -> Result<(), String> {
    let capture = captures::capture(seed);
    let Ok(trace) = trace_of(&capture) else { return Ok(()) };
    let patching = patching(seed);
    let (joined, memory) = rehearse(&[&patching, &trace]);
    let (single, single_memory) = rehearse(&[&patching, &tick_by_tick(&capture)]);
    let (r, s) = (joined.report, single.report);
    if (r.stop, s.stop) != (Stop::End, Stop::End) || (r.ticks, r.refused) != (s.ticks, s.refused) {
        return Err(format!("seed {seed}: {r:?}, tick by tick {s:?}"));
    }
    if joined.image() != single.image() || memory != single_memory {
        return Err(format!("seed {seed}: a register or a memory word differs"));
    }
    Ok(())
}

#[test]
fn a_trace_runs_as_its_frames_do() {
    all_agree(number_of("CAPTURES", CAPTURES) / 10, run_both);
}

/// The function's return, the output and the answer, all of them filled before.
fn called(capture: &[u8], room: usize, answer_words: usize) -> (u16, Vec<u8>, Vec<u64>) {
    let (mut out, mut answer) = (pattern(room), vec![u64::MAX; answer_words]);
    let number = convert_by_numbers(capture, &mut out, &mut answer);
    (number, out, answer)
}

#[test]
fn an_answer_of_another_length_is_left_with_the_output() {
    let frames = [[0; 9], [1; 9], [0xFF; 9]].concat();
    for words in [0, 1, 3, 100] {
        // a capture that is not of whole frames comes first
        for (capture, number) in [(&frames[..18], BAD_BUFFER), (&frames, BAD_BUFFER), (&[], BAD_BUFFER), (&frames[..8], 12)] {
            assert_eq!(called(capture, 42, words), (number, pattern(42), vec![u64::MAX; words]));
        }
    }
}

#[test]
fn both_words_of_the_answer_are_written() {
    let good = [[0; 9], [0; 9], [1; 9]].concat();
    let bad = [[0; 9], [0; 9], [0xFF; 9]].concat();
    let answer = |capture: &[u8], room| {
        let (number, _, answer) = called(capture, room, 2);
        (number, answer)
    };
    assert_eq!(answer(&good, 28), (0, vec![28, 0]));
    assert_eq!(answer(&[], 28), (0, vec![0, 0]));
    assert_eq!(answer(&bad, 28), (6, vec![0, 2]));
    assert_eq!(answer(&good[..26], 28), (12, vec![0, 0]));
    assert_eq!(answer(&good, 27), (13, vec![0, 0]));
}

#[test]
fn a_refusal_says_why() {
    let told = |refusal: NotConverted| (refusal.number(), refusal.to_string());
    let text = |number, text: &str| (number, text.to_string());
    assert_eq!(told(NotConverted::Ragged), text(12, "the capture is not of whole frames of nine bytes (12)"));
    assert_eq!(told(NotConverted::Level { frame: 17 }), text(6, "frame 17: a line that does not exist (6)"));
    assert_eq!(told(NotConverted::NoRoom), text(13, "the output is shorter than the trace (13)"));
}
