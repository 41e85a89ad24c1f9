//! 02, CR 2: captures of the pulse recorder.

use reference::capture::{converted, joined, read_back, rendered, Frame, Refusal, Ticks, LARGEST_REPEAT};
use reference::generator::captures::{capture, room};
use reference::trace::{record, Record};
use reference::Crate;
use std::collections::BTreeSet;

const A: Frame = [0, 0, 0, 0, 0, 0, 1, 0, 1];
const B: Frame = [0x3F, 0xFF, 0xFF, 0xFF, 0xFF, 0xFF, 0xFF, 0x0F, 0xFF];
/// Differs from A by one gate.
const C: Frame = [0, 0, 0, 0, 0, 0, 1, 0, 0];

fn refused(number: u8, frame: usize) -> Result<Vec<u8>, Refusal> {
    Err(Refusal { number, frame })
}

/// The repeats of a trace of tick records.
fn repeats(trace: &[u8]) -> Vec<u16> {
    let repeat = |bytes: &[u8]| match record(bytes) {
        Ok(Record::Tick { repeat, .. }) => repeat,
        other => panic!("not a tick: {other:?}"),
    };
    trace.chunks(14).map(repeat).collect()
}

fn repeats_of_equal(frames: usize) -> Vec<u16> {
    let capture = A.repeat(frames);
    let trace = converted(&capture, usize::MAX).unwrap();
    assert_eq!(read_back(&trace), Some(capture));
    repeats(&trace)
}

#[test]
fn an_empty_capture_is_an_empty_trace() {
    assert_eq!(converted(&[], 0), Ok(vec![]));
    assert_eq!(converted(&[], 100), Ok(vec![]));
}

#[test]
fn one_frame_is_one_record() {
    let trace = [1, 0, 11, 0, 1, 0, 0, 0, 0, 0, 0, 1, 0, 1];
    assert_eq!(converted(&A, 14), Ok(trace.to_vec()));
    let capture = [A, A, B, A].concat();
    assert_eq!(repeats(&converted(&capture, 42).unwrap()), [2, 1, 1]);
}

#[test]
fn a_repeat_ends_at_65535() {
    assert_eq!(repeats_of_equal(65_534), [65_534]);
    assert_eq!(repeats_of_equal(65_535), [65_535]);
    assert_eq!(repeats_of_equal(65_536), [65_535, 1]);
    assert_eq!(repeats_of_equal(131_070), [65_535, 65_535]);
    assert_eq!(repeats_of_equal(131_071), [65_535, 65_535, 1]);
}

#[test]
fn a_length_that_is_not_of_frames_is_refused_first() {
    for bytes in (0..28).filter(|bytes| bytes % 9 != 0) {
        assert_eq!(converted(&vec![0; bytes], 1_000), refused(12, 0));
        assert_eq!(converted(&vec![0xFF; bytes], 0), refused(12, 0));
    }
}

#[test]
fn a_bad_level_is_refused_before_the_room() {
    let mut last_bad = [A, B, B, A].concat();
    last_bad[27] |= 0x40;
    assert_eq!(converted(&last_bad, 0), refused(6, 3));
    assert_eq!(converted(&last_bad, 1_000), refused(6, 3));
    last_bad[16] |= 0x80;
    assert_eq!(converted(&last_bad, 0), refused(6, 1));
}

#[test]
fn an_output_that_is_a_byte_too_short_is_refused_last() {
    let capture = [A, A, B].concat();
    assert_eq!(converted(&capture, 0), refused(13, 0));
    assert_eq!(converted(&capture, 27), refused(13, 0));
    assert_eq!(converted(&capture, 28).unwrap().len(), 28);
}

// 02, CR 2: "Bad line levels are refused as in a tick."
#[test]
fn each_level_is_taken_as_in_a_tick() {
    let mut memory = vec![0; 16_384];
    let (_, mut device) = Crate::power_up(&mut memory);
    for bit in 0..72 {
        let levels: u128 = 1 << bit;
        let answer = device.tick(&memory, (levels >> 16) as u64, levels as u16);
        let number = converted(&levels.to_be_bytes()[7..], 14).map_or_else(|refusal| refusal.number, |_| 0);
        assert_eq!(number, answer, "bit {bit}");
    }
}

/// Every capture of so many frames.
fn captures(frames: u32, alphabet: &[Frame]) -> impl Iterator<Item = Vec<Frame>> + '_ {
    let letters = alphabet.len();
    (0..letters.pow(frames)).map(move |k| (0..frames).map(|place| alphabet[k / letters.pow(place) % letters]).collect())
}

/// The frames in parts: bit k of the cuts parts frame k from the next.
fn parted(frames: &[Frame], cuts: u32) -> Vec<Vec<Frame>> {
    let mut parts: Vec<Vec<Frame>> = Vec::new();
    for (k, frame) in frames.iter().enumerate() {
        match parts.last_mut() {
            Some(part) if cuts >> (k - 1) & 1 == 0 => part.push(*frame),
            _ => parts.push(vec![*frame]),
        }
    }
    parts
}

/// Every list of tick records of these frames, with repeats up to the largest.
fn groupings(frames: &[Frame], largest: u16) -> Vec<Vec<Ticks>> {
    let places = frames.len().saturating_sub(1);
    let fits = |part: &Vec<Frame>| part.len() <= usize::from(largest) && part.iter().all(|frame| *frame == part[0]);
    let ticks = |part: &Vec<Frame>| Ticks { repeat: part.len() as u16, frame: part[0] };
    let all = (0..1 << places).map(|cuts| parted(frames, cuts)).filter(|parts| parts.iter().all(fits));
    all.map(|parts| parts.iter().map(ticks).collect()).collect()
}

/// No list of records is shorter, and of the shortest it has the longest repeats first.
fn is_best(frames: &[Frame], largest: u16) {
    let given = joined(frames, largest);
    let repeats = |records: &Vec<Ticks>| -> Vec<u16> { records.iter().map(|ticks| ticks.repeat).collect() };
    let all = groupings(frames, largest);
    let fewest = all.iter().map(Vec::len).min().unwrap();
    let best = all.iter().filter(|records| records.len() == fewest).max_by_key(|records| repeats(records)).unwrap();
    assert_eq!(&given, best, "{frames:?}, repeats up to {largest}");
    assert_eq!(read_back(&rendered(&given)), Some(frames.concat()));
}

fn all_are_best(longest: u32, alphabet: &[Frame]) {
    for frames in (0..=longest).flat_map(|frames| captures(frames, alphabet)) {
        for largest in [1, 2, 3, 4, LARGEST_REPEAT] {
            is_best(&frames, largest);
        }
    }
}

// 02, CR 2: "Reading the result back gives the frames, and among all tick-record traces of those frames none has fewer
// records."
#[test]
fn no_trace_of_two_frames_has_fewer_records() {
    all_are_best(9, &[A, C]);
}

#[test]
fn no_trace_of_three_frames_has_fewer_records() {
    all_are_best(6, &[A, B, C]);
}

#[test]
fn only_tick_records_read_back() {
    assert_eq!(read_back(&[]), Some(vec![]));
    let tick = rendered(&[Ticks { repeat: 2, frame: B }]);
    assert_eq!(read_back(&tick), Some([B, B].concat()));
    assert_eq!(read_back(&tick[..13]), None);
    assert_eq!(read_back(&[tick.clone(), vec![3, 0, 4, 0, 0, 0, 0]].concat()), None);
    assert_eq!(read_back(&rendered(&[Ticks { repeat: 0, frame: B }])), None);
}

#[test]
fn random_captures_read_back() {
    for seed in 0..2_000 {
        if let Ok(trace) = converted(&capture(seed), usize::MAX) {
            assert_eq!(read_back(&trace), Some(capture(seed)), "seed {seed}");
        }
    }
}

fn outcome(seed: u64) -> &'static str {
    let (capture, room) = (capture(seed), room(seed));
    match converted(&capture, room) {
        Ok(trace) if trace.is_empty() => "empty",
        Ok(trace) if repeats(&trace).contains(&LARGEST_REPEAT) => "the largest repeat",
        Ok(trace) if trace.len() == room => "just room enough",
        Ok(_) => "room to spare",
        Err(Refusal { number: 12, .. }) => "not frames",
        Err(Refusal { number: 6, .. }) => "a bad level",
        Err(_) if converted(&capture, room + 1).is_ok() => "a byte too short",
        Err(_) => "too short",
    }
}

#[test]
fn random_captures_have_every_outcome() {
    let outcomes: BTreeSet<&str> = (0..20_000).map(outcome).collect();
    assert_eq!(outcomes.len(), 8, "{outcomes:?}");
}
