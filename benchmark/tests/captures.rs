//! The plain conversion against the reference model, on random captures.
use benchmark::conversion::convert;
use mirvacula::NotConverted;
use reference::capture::{converted, Refusal};
use reference::generator::captures;

const CAPTURES: u64 = 5_000;
const FILLED: u8 = 0xAA;

fn refusal(expected: Refusal) -> NotConverted {
    match expected.number {
        6 => NotConverted::Level { frame: expected.frame as u64 },
        12 => NotConverted::Ragged,
        _ => NotConverted::NoRoom,
    }
}

#[test]
fn random_captures_agree() {
    for seed in 0..CAPTURES {
        let (capture, room) = (captures::capture(seed), captures::room(seed));
        let (mut out, mut wanted) = (vec![FILLED; room], vec![FILLED; room]);
        let expected = converted(&capture, room).map_err(refusal);
        if let Ok(trace) = &expected {
            wanted[..trace.len()].copy_from_slice(trace);
        }
        assert_eq!(convert(&capture, &mut out), expected.map(|trace| trace.len()), "seed {seed}");
        assert!(out == wanted, "seed {seed}: the output differs");
    }
}
