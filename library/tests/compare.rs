//! The library against the reference model, on random traces.
mod common;

use common::{all_agree, expected, number_of};
use mirvacula::{run, Rehearsal, Stop, IMAGE_START, MEMORY_WORDS};
use reference::generator::{self, Family};
use reference::trace::{self, from_power_up};
use reference::Crate;

/// The library's run, held to the reference model's report, crate and memory.
fn compare(bytes: &[u8], budget: u64, report: trace::Report, device: &Crate, words: &[u16]) -> Result<(), String> {
    let mut memory = vec![0xAAAA; MEMORY_WORDS];
    let ours = run(&mut memory, bytes, budget);
    let (is, wanted) = (ours.report, expected(report));
    if is != wanted {
        return Err(format!("{is:?}, expected {wanted:?}"));
    }
    let image = reference::image(device, words);
    if let Some(k) = ours.image().iter().zip(&image).position(|(is, wanted)| is != wanted) {
        let (address, is, wanted) = (usize::from(IMAGE_START) + k, ours.image()[k], image[k]);
        return Err(format!("register {address:#06x} is {is:#06x}, expected {wanted:#06x}"));
    }
    if memory != words {
        return Err("a memory word differs".to_string());
    }
    Ok(())
}

/// The reference model goes on from one look to the next; the library runs from power-up to each.
fn compare_seed(family: Family, seed: u64) -> Result<(), String> {
    let (bytes, budget) = (family.trace(seed), family.budget(seed));
    let (mut device, mut memory, mut report) = from_power_up(&[], budget);
    for look in family.looks(seed) {
        let part = &bytes[report.next as usize..look];
        report = report.followed_by(trace::run(&mut device, &mut memory, part, budget - report.ticks));
        let compared = compare(&bytes[..look], budget, report, &device, &memory);
        compared.map_err(|difference| format!("{family:?}, seed {seed}, {look} bytes: {difference}"))?;
        if report.stop != trace::Stop::End {
            break;
        }
    }
    Ok(())
}

#[test]
fn random_traces_agree() {
    all_agree(number_of("TRACES", 20_000), |seed| compare_seed(Family::Scenes, seed));
}

#[test]
fn random_traces_of_long_repeats_agree() {
    all_agree(number_of("REPEATS", 2_000), |seed| compare_seed(Family::Repeats, seed));
}

#[test]
fn raw_counts_past_their_low_word_agree() {
    let (trace, budget) = generator::long_pulses();
    let (device, memory, report) = from_power_up(&trace, budget);
    assert_eq!(compare(&trace, budget, report, &device, &memory), Ok(()));
    let (rehearsal, _) = rehearse(MEMORY_WORDS, &trace, budget);
    let words = [0x1300, 0x1301, 0x133C, 0x133D, 0x136A, 0x136B].map(|address| rehearsal.register(address));
    assert_eq!(words, [32_770, 0, 1, 0, 4, 1].map(Some));
}

fn rehearse(memory_words: usize, bytes: &[u8], budget: u64) -> (Rehearsal, Vec<u16>) {
    let mut memory = vec![0x5555; memory_words];
    let rehearsal = run(&mut memory, bytes, budget);
    (rehearsal, memory)
}

#[test]
fn a_memory_of_another_length_is_refused_and_left() {
    for words in [0, 1, 16_383, 16_385] {
        let (rehearsal, memory) = rehearse(words, &[2, 0, 4, 0x80, 0, 0, 1], 10);
        assert_eq!(rehearsal.report.stop, Stop::Refused(1));
        assert_eq!(rehearsal.report.records, 0);
        assert!(rehearsal.image().iter().all(|word| *word == 0));
        assert!(memory.iter().all(|word| *word == 0x5555));
    }
}

#[test]
fn an_empty_trace_shows_power_up() {
    let (rehearsal, memory) = rehearse(MEMORY_WORDS, &[], 0);
    assert_eq!(rehearsal.report.stop, Stop::End);
    assert_eq!(rehearsal.register(0x0719), Some(0x3F));
    assert_eq!(rehearsal.register(0x1000), Some(0xFDB6));
    assert_eq!(rehearsal.register(0x1A00), None);
    assert_eq!(rehearsal.register(0x05FF), None);
    assert!(memory.iter().all(|word| *word == 0));
}
