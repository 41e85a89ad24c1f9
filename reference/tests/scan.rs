//! 02, CR 3: interlocks stop looking sooner.

mod common;

use common::{new_crate, ticks, word, writes};
use reference::generator::Family;
use reference::scan::Scanned;
use reference::trace::from_power_up;
use reference::Crate;

const WORDS: usize = 22;
const FREE: Scanned = Scanned { level: true, words: WORDS };

fn tripped(words: usize) -> Scanned {
    Scanned { level: false, words }
}

/// The first address of an output's selection.
fn selection(output: u16) -> u16 {
    0x1100 + 0x20 * output
}

fn scan(device: &Crate, memory: &[u16]) -> [Scanned; 6] {
    let (answer, outputs) = device.scan(memory);
    assert_eq!(answer, 0);
    outputs
}

/// A new crate with these words written, after a tick with all gates high and in DIRECT.
fn crate_with(list: &[(u16, u16)]) -> (Crate, Vec<u16>) {
    let (mut device, mut memory) = new_crate();
    writes(&mut device, &mut memory, &[(0x0802, 0x0FFF)]);
    writes(&mut device, &mut memory, list);
    ticks(&mut device, &memory, 1, 0, 0x0FFF);
    (device, memory)
}

/// Every signal but the forwarded gates: all counters over by one sign each, all watchdogs and gates in error.
fn crate_in_trouble() -> (Crate, Vec<u16>) {
    let (mut device, mut memory) = new_crate();
    for counter in 0..128 {
        let patch = if counter < 64 { 0x0D80 } else { 54 };
        writes(&mut device, &mut memory, &[(0x1000 + counter, patch)]);
    }
    writes(&mut device, &mut memory, &[(0x0802, 1), (0x0800, 0)]);
    ticks(&mut device, &memory, 1, 1, 0x0FFF);
    writes(&mut device, &mut memory, &[(0x0802, 0)]);
    ticks(&mut device, &memory, 2, 0, 0x0FFF);
    (device, memory)
}

#[test]
fn all_words_are_read_where_nothing_is_selected() {
    let (device, memory) = new_crate();
    assert_eq!(scan(&device, &memory), [FREE; 6]);
    let (device, memory) = crate_in_trouble();
    assert_eq!(scan(&device, &memory), [FREE; 6]);
}

#[test]
fn all_words_are_read_where_no_selected_signal_exists() {
    let everything: Vec<(u16, u16)> = (0..6).flat_map(|o| (0..22).map(move |k| (selection(o) + k, 0xFFFF))).collect();
    let (device, memory) = crate_with(&everything);
    assert_eq!(scan(&device, &memory), [FREE; 6]);
    assert_eq!(word(&device, &memory, 0x0719), 0x3F);
}

#[test]
fn the_crate_in_trouble_has_every_signal_but_a_low_gate() {
    let (device, memory) = crate_in_trouble();
    let status: Vec<u16> = (0x0700..=0x0714).chain([0x0717]).map(|address| word(&device, &memory, address)).collect();
    let overflows = [[0; 4], [0xFFFF; 4], [0xFFFF; 4], [0; 4]].concat();
    assert_eq!(status[..16], overflows);
    assert_eq!(status[16..], [0x0FFF, 0xFFFF, 0xFFFF, 0xFFFF, 0x003F, 0x0FFF]);
}

/// Each output alone selects each signal alone.
#[test]
fn the_word_with_the_signal_is_the_last_one_read() {
    let (mut device, mut memory) = crate_in_trouble();
    for (output, k, bit) in (0..6).flat_map(|o| (0..21).flat_map(move |k| (0..16).map(move |bit| (o, k, bit)))) {
        writes(&mut device, &mut memory, &[(selection(output) + k, 1 << bit)]);
        let exists = word(&device, &memory, 0x0700 + k) >> bit & 1 == 1;
        let mut expected = [FREE; 6];
        if exists {
            expected[usize::from(output)] = tripped(usize::from(k) + 1);
        }
        assert_eq!(scan(&device, &memory), expected, "output {output}, word {k:#x}, bit {bit}");
        writes(&mut device, &mut memory, &[(selection(output) + k, 0)]);
    }
}

#[test]
fn a_low_forwarded_gate_is_found_in_the_last_word() {
    for (gate, output) in (0..12).map(|gate| (gate, gate % 6)) {
        let (mut device, memory) = crate_with(&[(selection(output) + 0x15, 1 << gate)]);
        assert_eq!(scan(&device, &memory), [FREE; 6]);
        ticks(&mut device, &memory, 1, 0, 0x0FFF & !(1 << gate));
        let mut expected = [FREE; 6];
        expected[usize::from(output)] = tripped(22);
        assert_eq!(scan(&device, &memory), expected, "gate {gate}");
        ticks(&mut device, &memory, 1, 0, 1 << gate);
        assert_eq!(scan(&device, &memory), [FREE; 6]);
    }
}

#[test]
fn the_first_word_that_trips_counts() {
    let (mut device, mut memory) = crate_in_trouble();
    let base = selection(3);
    // Counter 0 is not over its negative threshold, counter 64 is.
    writes(&mut device, &mut memory, &[(base, 1), (base + 0x15, 1)]);
    ticks(&mut device, &memory, 1, 0, 0);
    for (word, words) in [(0x14, 21), (0x11, 18), (0x10, 17), (0x08, 9), (0x04, 5)] {
        writes(&mut device, &mut memory, &[(base + word, 1)]);
        assert_eq!(scan(&device, &memory)[3], tripped(words));
    }
    // And up again, as the words below are cleared.
    for (word, words) in [(0x04, 9), (0x08, 17), (0x10, 18), (0x11, 21), (0x14, 22)] {
        writes(&mut device, &mut memory, &[(base + word, 0)]);
        assert_eq!(scan(&device, &memory)[3], tripped(words));
    }
}

#[test]
fn a_tripped_output_leaves_the_others_to_be_read() {
    let (mut device, mut memory) = crate_in_trouble();
    let words = [0x04, 0x0B, 0x10, 0x11, 0x14];
    for (output, k) in (0..).zip(words) {
        writes(&mut device, &mut memory, &[(selection(output) + k, 0x0021)]);
    }
    let expected = [tripped(5), tripped(12), tripped(17), tripped(18), tripped(21), FREE];
    assert_eq!(scan(&device, &memory), expected);
}

// 02, CR 3: "refused 1, it returns the number and zeros"
#[test]
fn a_memory_of_another_length_is_refused() {
    for (device, _) in [new_crate(), crate_in_trouble()] {
        let before = device.clone();
        for length in [0, 1, 16_383, 16_385] {
            let memory = vec![0x5555; length];
            assert_eq!(device.scan(&memory), (1, [tripped(0); 6]));
        }
        assert_eq!(device, before);
    }
}

/// The crates that these seeds leave.
fn crates(family: Family, seeds: u64) -> impl Iterator<Item = (Crate, Vec<u16>)> {
    (0..seeds).map(move |seed| {
        let (device, memory, _) = from_power_up(&family.trace(seed), family.budget(seed));
        (device, memory)
    })
}

/// An output as 0x0719 shows it once only its first so many words select anything.
fn level_by(device: &Crate, memory: &mut [u16], output: u16, words: usize) -> bool {
    let mut device = device.clone();
    for k in words..WORDS {
        writes(&mut device, memory, &[(selection(output) + k as u16, 0)]);
    }
    word(&device, memory, 0x0719) >> output & 1 == 1
}

fn agrees_with_the_register(device: &Crate, memory: &mut [u16]) {
    for (output, scanned) in (0..).zip(scan(device, memory)) {
        assert_eq!(scanned.level, level_by(device, memory, output, WORDS));
        assert_eq!(scanned.level, level_by(device, memory, output, scanned.words));
        if scanned.level {
            assert_eq!(scanned.words, WORDS);
        }
        for words in 0..scanned.words {
            assert!(level_by(device, memory, output, words), "output {output} is 0 by {words} words");
        }
    }
}

#[test]
fn random_crates_agree_with_their_register() {
    for (device, mut memory) in crates(Family::Scans, 300).chain(crates(Family::Scenes, 100)) {
        agrees_with_the_register(&device, &mut memory);
    }
}

#[test]
fn every_level_is_that_of_the_register() {
    for (device, memory) in crates(Family::Scans, 5_000) {
        let levels = scan(&device, &memory).iter().rev().fold(0, |bits, scanned| bits << 1 | u16::from(scanned.level));
        assert_eq!(levels, word(&device, &memory, 0x0719));
    }
}
