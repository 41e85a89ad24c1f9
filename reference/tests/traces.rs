//! 01, Trace and printing program, and the order of a record's checks.

use reference::trace::{from_power_up, rehearse, run, Report, Stop};
use reference::Crate;

const EXAMPLE: [u8; 35] = [
    0x02, 0x00, 0x04, 0x10, 0x00, 0x0D, 0x80, 0x02, 0x00, 0x04, 0x08, 0x02, 0x00, 0x01, 0x02, 0x00, 0x04, 0x11, 0x08,
    0x00, 0x01, 0x01, 0x00, 0x0B, 0x00, 0x01, 0x00, 0x00, 0x00, 0x00, 0x00, 0x00, 0x01, 0x00, 0x01,
];

const PRINTED: &str = "STOP END NEXT 35 TICKS 1 RECORDS 4 REFUSED 0
NEG 0000 0000 0000 0000 0000 0000 0000 0000
POS 0001 0000 0000 0000 0000 0000 0000 0000
OUT 3e
";

fn tick(repeat: u16, inputs: u64, gates: u16) -> Vec<u8> {
    let mut bytes = vec![0x01, 0x00, 0x0B];
    bytes.extend(repeat.to_be_bytes());
    bytes.extend(&inputs.to_be_bytes()[1..]);
    bytes.extend(gates.to_be_bytes());
    bytes
}

fn write(address: u16, word: u16) -> Vec<u8> {
    let mut bytes = vec![0x02, 0x00, 0x04];
    bytes.extend(address.to_be_bytes());
    bytes.extend(word.to_be_bytes());
    bytes
}

fn event(tag: u32) -> Vec<u8> {
    let mut bytes = vec![0x03, 0x00, 0x04];
    bytes.extend(tag.to_be_bytes());
    bytes
}

fn report(bytes: &[u8], budget: u64) -> Report {
    from_power_up(bytes, budget).2
}

fn expect(stop: Stop, next: u64, ticks: u64, records: u64, refused: u64) -> Report {
    Report { stop, next, ticks, records, refused }
}

#[test]
fn the_example_prints_the_four_lines() {
    assert_eq!(rehearse(&EXAMPLE), PRINTED);
}

#[test]
fn only_the_first_65536_bytes_are_run() {
    // 9362 writes of 7 bytes are 65,534 bytes; two bytes of the next are left.
    let long: Vec<u8> = (0..9_400).flat_map(|_| write(0x8000, 1)).collect();
    let text = rehearse(&long);
    assert!(text.starts_with("STOP 9 NEXT 65534 TICKS 0 RECORDS 9362 REFUSED 0\n"), "{text}");
}

#[test]
fn an_empty_trace_ends_at_once() {
    assert_eq!(report(&[], 0), expect(Stop::End, 0, 0, 0, 0));
}

#[test]
fn each_malformed_record_after_a_good_one() {
    let damaged: [(&[u8], u8); 14] = [
        (&[0x01], 9),
        (&[0x02, 0x00], 9),
        (&[0xFF], 9),
        (&[0xFF, 0x00], 9),
        (&[0x00, 0x00, 0x04], 7),
        (&[0x04, 0x00, 0x02, 0x00, 0x00], 7),
        (&[0xFF, 0xFF, 0xFF], 7),
        (&[0x01, 0x00, 0x04, 0x00, 0x00, 0x00, 0x00], 8),
        (&[0x02, 0x00, 0x0B], 8),
        (&[0x03, 0x04, 0x00], 8),
        (&[0x03, 0x00, 0x04, 0x00, 0x00, 0x00], 9),
        (&[0x02, 0x00, 0x04], 9),
        (&[0x01, 0x00, 0x0B, 0x00, 0x00, 0xFF, 0xFF, 0xFF, 0xFF, 0xFF, 0xFF, 0xFF, 0xFF], 9),
        (&[0x01, 0x00, 0x0B, 0x00, 0x00, 0xFF, 0xFF, 0xFF, 0xFF, 0xFF, 0xFF, 0xFF, 0xFF, 0xFF], 10),
    ];
    let good = write(0x0630, 0xFFFF);
    let (before, _, _) = from_power_up(&good, 10);
    for (bytes, number) in damaged {
        let trace = [&good[..], bytes].concat();
        let (device, _, found) = from_power_up(&trace, 10);
        assert_eq!(found, expect(Stop::Refused(number), 7, 0, 1, 0), "{bytes:02x?}");
        assert_eq!(device, before);
    }
}

#[test]
fn a_refused_tick_record_counts_once_and_uses_no_ticks() {
    let trace = [tick(0xFFFF, 1 << 54, 0), tick(2, 1 << 55, 0), tick(7, 0, 1 << 12), tick(3, 0, 0)].concat();
    assert_eq!(report(&trace, 3), expect(Stop::End, 56, 3, 4, 3));
    let (device, _, _) = from_power_up(&trace, 3);
    let (plain, _, _) = from_power_up(&tick(3, 0, 0), 3);
    assert_eq!(device, plain);
}

#[test]
fn spent_only_before_a_tick_record_that_does_not_fit() {
    let trace = [tick(5, 0, 0), write(0x0801, 1), tick(1, 0, 0x8000), event(0), tick(5, 0, 0)].concat();
    assert_eq!(report(&trace, 10), expect(Stop::End, 56, 10, 5, 1));
    assert_eq!(report(&trace, 9), expect(Stop::Spent, 42, 5, 4, 1));
    assert_eq!(report(&trace, 5), expect(Stop::Spent, 42, 5, 4, 1));
    assert_eq!(report(&trace, 4), expect(Stop::Spent, 0, 0, 0, 0));
}

#[test]
fn a_malformed_record_is_told_before_the_budget() {
    let trace = [tick(1, 0, 0), tick(0, 0, 0)].concat();
    assert_eq!(report(&trace, 1), expect(Stop::Refused(10), 14, 1, 1, 0));
}

#[test]
fn each_refusal_counts_once() {
    let requests: Vec<u8> = (0..17).flat_map(|_| event(0x1000)).collect();
    let trace = [
        write(0xC000, 0),
        write(0x0700, 0),
        write(0x0A02, 0x1020),
        write(0x0A01, 1),
        requests,
        event(0x1020),
        tick(1, 0, 0x1000),
    ]
    .concat();
    let found = report(&trace, 0);
    assert_eq!((found.stop, found.records, found.refused), (Stop::End, 23, 6));
}

#[test]
fn tags_passed_over_are_no_refusals() {
    let trace = [event(0x10FF), write(0x0A01, 1), event(0x0001_10FF)].concat();
    let (device, _, found) = from_power_up(&trace, 0);
    assert_eq!((found.records, found.refused), (3, 0));
    assert_eq!((device.tag_low, device.tag_high, device.code), (0x10FF, 1, 0));
}

#[test]
fn a_run_without_its_memory_changes_nothing() {
    let mut memory = vec![9; 16_383];
    let (answer, mut device) = Crate::power_up(&mut memory);
    assert_eq!((answer, &memory), (1, &vec![9; 16_383]));
    let before = device.clone();
    let found = run(&mut device, &mut memory, &EXAMPLE, 10);
    assert_eq!(found, expect(Stop::Refused(1), 0, 0, 0, 0));
    assert_eq!((device, memory), (before, vec![9; 16_383]));
}

#[test]
fn a_run_in_two_parts_is_a_run_in_one() {
    let first = [write(0x1000, 0x0D80), write(0x0802, 1), tick(3, 1, 1)].concat();
    let second = [tick(2, 0, 1), tick(1, 1, 1), write(0x8004, 3)].concat();
    let (whole, whole_memory, report) = from_power_up(&[&first[..], &second[..]].concat(), 100);
    let (mut device, mut memory, passed) = from_power_up(&first, 100);
    let part = run(&mut device, &mut memory, &second, 100 - passed.ticks);
    assert_eq!((whole, whole_memory, report), (device, memory, passed.followed_by(part)));
}
