//! 02, CR 1: raw pulses for each input.

mod common;

use common::{new_crate, ticks, word, writes};
use reference::raw::RawCount;
use reference::trace::from_power_up;
use reference::Crate;

const FIRST: u16 = 0x1300;
const LAST: u16 = 0x136B;
const ALL_INPUTS: u64 = (1 << 54) - 1;

/// High for one tick and low for one, so many times.
fn pulses(device: &mut Crate, memory: &[u16], number: usize, inputs: u64, gates: u16) {
    for _ in 0..number {
        ticks(device, memory, 1, inputs, gates);
        ticks(device, memory, 1, 0, gates);
    }
}

/// The raw count of an input as its two words read.
fn raw(device: &Crate, memory: &[u16], input: u16) -> u32 {
    let (low, high) = (FIRST + 2 * input, FIRST + 2 * input + 1);
    u32::from(word(device, memory, low)) | u32::from(word(device, memory, high)) << 16
}

fn all_raw(device: &Crate, memory: &[u16]) -> Vec<u32> {
    (0..54).map(|input| raw(device, memory, input)).collect()
}

#[test]
fn all_are_0_at_power_up() {
    let (device, memory) = new_crate();
    assert_eq!(all_raw(&device, &memory), [0; 54]);
}

#[test]
fn each_rise_counts_one() {
    let (mut device, memory) = new_crate();
    let mut seen = Vec::new();
    // Low before the first tick, so a high level there is a rise.
    for level in [1, 0, 1, 1, 0, 0, 1, 0] {
        ticks(&mut device, &memory, 1, level << 5, 0);
        seen.push(raw(&device, &memory, 5));
    }
    assert_eq!(seen, [1, 1, 2, 2, 2, 2, 3, 3]);
    assert_eq!(all_raw(&device, &memory).iter().sum::<u32>(), 3);
}

#[test]
fn each_input_has_its_own_words() {
    let (mut device, memory) = new_crate();
    // Input i rises i + 1 times.
    for turn in 0..54 {
        pulses(&mut device, &memory, 1, ALL_INPUTS >> turn << turn, 0);
    }
    let expected: Vec<u32> = (1..55).collect();
    assert_eq!(all_raw(&device, &memory), expected);
    assert_eq!((word(&device, &memory, 0x1300), word(&device, &memory, 0x136A)), (1, 54));
}

#[test]
fn a_level_that_stays_high_counts_once() {
    let (mut device, memory) = new_crate();
    ticks(&mut device, &memory, 1_000, ALL_INPUTS, 0);
    assert_eq!(all_raw(&device, &memory), [1; 54]);
}

#[test]
fn reset_neither_clears_nor_stops_it() {
    let (mut device, mut memory) = new_crate();
    writes(&mut device, &mut memory, &[(0x0802, 1), (0x1000, 0x0D80)]);
    pulses(&mut device, &memory, 3, 1, 1);
    assert_eq!((word(&device, &memory, 0x1200), raw(&device, &memory, 0)), (3, 3));
    writes(&mut device, &mut memory, &[(0x0801, 1)]);
    assert_eq!((word(&device, &memory, 0x1200), raw(&device, &memory, 0)), (0, 3));
    pulses(&mut device, &memory, 2, 1, 1);
    assert_eq!((word(&device, &memory, 0x1200), raw(&device, &memory, 0)), (0, 5));
    writes(&mut device, &mut memory, &[(0x0801, 0)]);
    pulses(&mut device, &memory, 1, 1, 1);
    assert_eq!((word(&device, &memory, 0x1200), raw(&device, &memory, 0)), (1, 6));
}

#[test]
fn autoreset_does_not_clear_it() {
    let (mut device, mut memory) = new_crate();
    writes(&mut device, &mut memory, &[(0x0802, 1), (0x1000, 0x0D80), (0x0801, 2)]);
    pulses(&mut device, &memory, 4, 1, 1);
    ticks(&mut device, &memory, 1, 0, 0);
    ticks(&mut device, &memory, 1, 1, 1);
    assert_eq!((word(&device, &memory, 0x1200), raw(&device, &memory, 0)), (1, 5));
}

#[test]
fn command_4_does_not_clear_it() {
    let (mut device, mut memory) = new_crate();
    writes(&mut device, &mut memory, &[(0x0802, 1), (0x1000, 0x0D80), (0x0A01, 1)]);
    pulses(&mut device, &memory, 4, 1, 1);
    assert_eq!(device.tag(&memory, 0x4000), 0);
    assert_eq!((word(&device, &memory, 0x1200), raw(&device, &memory, 0)), (0, 4));
}

#[test]
fn a_watchdog_reset_does_not_clear_it() {
    let (mut device, mut memory) = new_crate();
    writes(&mut device, &mut memory, &[(0x0800, 0)]);
    pulses(&mut device, &memory, 2, ALL_INPUTS, 0);
    for block in 0x0810..0x0814 {
        writes(&mut device, &mut memory, &[(block, 0xFFFF), (block, 0x0000)]);
    }
    let errors: Vec<u16> = (0x0711..0x0715).map(|address| word(&device, &memory, address)).collect();
    assert_eq!(errors, [0; 4]);
    assert_eq!(all_raw(&device, &memory), [2; 54]);
}

#[test]
fn no_write_and_no_tag_changes_it() {
    let (mut device, mut memory) = new_crate();
    for (i, raw) in device.raw_counts.iter_mut().enumerate() {
        *raw = RawCount(0x0101_0101 * (i as u32 + 1));
    }
    let before = device.raw_counts;
    for word in [0xFFFF, 0x0000] {
        for address in 0..=0xFFFF {
            device.write(&mut memory, address, word);
        }
    }
    writes(&mut device, &mut memory, &[(0x0A01, 1)]);
    for code in 0..=0xFFFF {
        device.tag(&memory, code);
    }
    assert_eq!(device.download(&mut memory, 0, &[7; 512]), 0);
    assert_eq!(device.raw_counts, before);
}

#[test]
fn a_write_to_it_is_refused_3_and_changes_nothing() {
    let (mut device, mut memory) = new_crate();
    pulses(&mut device, &memory, 3, ALL_INPUTS, 0);
    let (before, before_memory) = (device.clone(), memory.clone());
    for address in FIRST..=LAST {
        for word in [0x0000, 0x0001, 0xFFFF] {
            assert_eq!(device.write(&mut memory, address, word), 3, "{address:#06x}");
        }
    }
    assert_eq!((device, memory), (before, before_memory));
}

#[test]
fn a_closed_gate_does_not_matter() {
    let (mut device, mut memory) = new_crate();
    // Counter 0 on gate 0 in DIRECT, counter 1 on a gate that does not exist.
    writes(&mut device, &mut memory, &[(0x0802, 1), (0x1000, 54 << 6 | 7), (0x1001, 0xF000 | 54 << 6 | 8)]);
    pulses(&mut device, &memory, 2, 0b11 << 7, 0);
    assert_eq!((word(&device, &memory, 0x1200), word(&device, &memory, 0x1202)), (0, 0));
    assert_eq!((raw(&device, &memory, 7), raw(&device, &memory, 8)), (2, 2));
    pulses(&mut device, &memory, 1, 0b11 << 7, 1);
    assert_eq!((word(&device, &memory, 0x1200), word(&device, &memory, 0x1202)), (1, 0));
    assert_eq!((raw(&device, &memory, 7), raw(&device, &memory, 8)), (3, 3));
}

#[test]
fn a_selection_does_not_matter() {
    let (mut device, mut memory) = new_crate();
    // Input 9 up on three counters, down on two and on both sides of one; input 10 on none.
    let up = [(0x1000, 54 << 6 | 9), (0x1001, 54 << 6 | 9), (0x1002, 54 << 6 | 9)];
    let down = [(0x1003, 9 << 6 | 54), (0x1004, 9 << 6 | 54), (0x1005, 9 << 6 | 9)];
    writes(&mut device, &mut memory, &up);
    writes(&mut device, &mut memory, &down);
    writes(&mut device, &mut memory, &[(0x0802, 1)]);
    pulses(&mut device, &memory, 5, 0b11 << 9, 1);
    let counts: Vec<i32> = device.counters[..6].iter().map(|counter| counter.count).collect();
    assert_eq!(counts, [5, 5, 5, -5, -5, 0]);
    assert_eq!((raw(&device, &memory, 9), raw(&device, &memory, 10)), (5, 5));
}

#[test]
fn a_new_patching_makes_no_raw_pulse() {
    let (mut device, mut memory) = new_crate();
    writes(&mut device, &mut memory, &[(0x0802, 1), (0x1000, 54 << 6)]);
    ticks(&mut device, &memory, 2, 0b10, 1);
    writes(&mut device, &mut memory, &[(0x1000, 54 << 6 | 1)]);
    ticks(&mut device, &memory, 2, 0b10, 1);
    assert_eq!((raw(&device, &memory, 0), raw(&device, &memory, 1)), (0, 1));
}

#[test]
fn a_refused_tick_counts_nothing_and_keeps_no_level() {
    let (mut device, memory) = new_crate();
    // Refused for an input, for a gate and for the memory's length.
    assert_eq!(device.tick(&memory, 1 << 54 | 1, 0), 6);
    assert_eq!(device.tick(&memory, 1, 1 << 12), 6);
    assert_eq!(device.tick(&memory[1..], 1, 0), 1);
    assert_eq!(all_raw(&device, &memory), [0; 54]);
    // Low at the last accepted tick, so this is the rise.
    ticks(&mut device, &memory, 1, 1, 0);
    assert_eq!(raw(&device, &memory, 0), 1);
    // A refused low tick lies between two high ones.
    assert_eq!(device.tick(&memory, 0, 1 << 15), 6);
    ticks(&mut device, &memory, 1, 1, 0);
    assert_eq!(raw(&device, &memory, 0), 1);
}

#[test]
fn test_signals_and_ground_have_no_raw_count() {
    let (mut device, mut memory) = new_crate();
    for selection in 54..64 {
        writes(&mut device, &mut memory, &[(0x1000 + selection, 54 << 6 | selection)]);
    }
    writes(&mut device, &mut memory, &[(0x0802, 1)]);
    ticks(&mut device, &memory, 12_500, 0, 1);
    assert_eq!((device.counters[54].count, device.counters[55].count, device.counters[63].count), (0, 1, 2_500));
    assert_eq!(all_raw(&device, &memory), [0; 54]);
}

#[test]
fn it_wraps_to_0_and_its_words_are_unsigned() {
    let (mut device, memory) = new_crate();
    device.raw_counts[0] = RawCount(0xFFFF_FFFF);
    device.raw_counts[1] = RawCount(0x0000_FFFF);
    device.raw_counts[52] = RawCount(0x7FFF_FFFF);
    device.raw_counts[53] = RawCount(0xFFFF_FFFE);
    ticks(&mut device, &memory, 1, ALL_INPUTS, 0);
    let words = |low: u16| (word(&device, &memory, low), word(&device, &memory, low + 1));
    assert_eq!(words(0x1300), (0x0000, 0x0000));
    assert_eq!(words(0x1302), (0x0000, 0x0001));
    assert_eq!(words(0x1304), (0x0001, 0x0000));
    assert_eq!(words(0x1368), (0x0000, 0x8000));
    assert_eq!(words(0x136A), (0xFFFF, 0xFFFF));
}

#[test]
fn the_low_word_comes_first() {
    let (mut device, memory) = new_crate();
    device.raw_counts[0] = RawCount(0x1234_5678);
    device.raw_counts[53] = RawCount(0x9ABC_DEF0);
    let words = [0x1300, 0x1301, 0x136A, 0x136B].map(|address| word(&device, &memory, address));
    assert_eq!(words, [0x5678, 0x1234, 0xDEF0, 0x9ABC]);
    assert!((0x1302..0x136A).all(|address| word(&device, &memory, address) == 0));
}

#[test]
fn ends_of_the_block() {
    let (mut device, mut memory) = new_crate();
    device.counters[127].count = 0x0102_0304;
    device.raw_counts[0] = RawCount(0x0506_0708);
    device.raw_counts[53] = RawCount(0x090A_0B0C);
    let expected = [
        (0x12FF, (0, 0x0102), 3),
        (0x1300, (0, 0x0708), 3),
        (0x136B, (0, 0x090A), 3),
        (0x136C, (2, 0), 2),
        (0x15FF, (2, 0), 2),
    ];
    for (address, read, write) in expected {
        assert_eq!(device.read(&memory, address), read, "{address:#06x}");
        assert_eq!(device.write(&mut memory, address, 0), write, "{address:#06x}");
    }
    assert_eq!(device.read(&memory[1..], 0x1300), (1, 0));
    assert_eq!(device.write(&mut memory[1..], 0x1300, 0), 1);
}

fn tick(repeat: u16, inputs: u64) -> Vec<u8> {
    let mut bytes = vec![0x01, 0x00, 0x0B];
    bytes.extend(repeat.to_be_bytes());
    bytes.extend(&inputs.to_be_bytes()[1..]);
    bytes.extend([0, 0]);
    bytes
}

#[test]
fn a_repeated_tick_is_one_rise_and_refused_writes_are_counted() {
    let writes = [0x02, 0x00, 0x04, 0x13, 0x00, 0x00, 0x00, 0x02, 0x00, 0x04, 0x13, 0x6C, 0x00, 0x00];
    let trace = [tick(500, 1), writes.to_vec(), tick(2, 0), tick(0xFFFF, 1 << 54 | 1), tick(3, 1)].concat();
    let (device, memory, report) = from_power_up(&trace, 1_000);
    assert_eq!((report.ticks, report.records, report.refused), (505, 6, 3));
    assert_eq!(raw(&device, &memory, 0), 2);
}

#[test]
fn the_65536th_rise_reaches_the_high_word() {
    let trace = [tick(1, 1 << 30), tick(1, 0)].concat().repeat(65_536);
    let (device, memory, report) = from_power_up(&trace, 131_072);
    assert_eq!(report.ticks, 131_072);
    assert_eq!((word(&device, &memory, 0x133C), word(&device, &memory, 0x133D)), (0, 1));
}
