//! The crate in place against the reference model, on random traces.
use benchmark::inplace::{run, Crate};
use mirvacula::{Stop, MEMORY_WORDS};
use reference::generator::{self, Family};
use reference::trace::{from_power_up, Stop as Expected};

/// How many random traces: `TRACES=n` sets another number.
fn traces() -> u64 {
    std::env::var("TRACES").ok().and_then(|n| n.parse().ok()).unwrap_or(10_000)
}

fn same_stop(stop: Stop, expected: Expected) -> bool {
    match (stop, expected) {
        (Stop::End, Expected::End) | (Stop::Spent, Expected::Spent) => true,
        (Stop::Refused(cause), Expected::Refused(number)) => cause == u16::from(number),
        _ => false,
    }
}

fn compare(name: &str, bytes: &[u8], budget: u64) -> Result<(), String> {
    let mut memory = vec![0xAAAA; MEMORY_WORDS];
    let (r, image) = run(&mut memory, bytes, budget);
    let (device, expected_memory, expected) = from_power_up(bytes, budget);
    if !same_stop(r.stop, expected.stop) {
        return Err(format!("{name}: stop {:?}, expected {:?}", r.stop, expected.stop));
    }
    let counts = [r.next, r.ticks, r.records, r.refused];
    let wanted = [expected.next, expected.ticks, expected.records, expected.refused];
    if counts != wanted {
        return Err(format!("{name}: next, ticks, records, refused {counts:?}, expected {wanted:?}"));
    }
    if image != reference::image(&device, &expected_memory) {
        return Err(format!("{name}: a register differs"));
    }
    if memory != expected_memory[..] {
        return Err(format!("{name}: a memory word differs"));
    }
    Ok(())
}

fn compare_seed(seed: u64) -> Result<(), String> {
    compare(&format!("seed {seed}"), &Family::Scenes.trace(seed), Family::Scenes.budget(seed))
}

#[test]
fn random_traces_agree() {
    let differences: Vec<String> = (0..traces()).filter_map(|seed| compare_seed(seed).err()).collect();
    assert!(differences.is_empty(), "{} differences:\n{}", differences.len(), differences.join("\n"));
}

#[test]
fn raw_counts_past_their_low_word_agree() {
    let (trace, budget) = generator::long_pulses();
    assert_eq!(compare("raw counts", &trace, budget), Ok(()));
    let (_, image) = run(&mut vec![0; MEMORY_WORDS], &trace, budget);
    let word = |address: usize| image[address - 0x0600];
    let words = [0x1300, 0x1301, 0x133C, 0x133D, 0x136A, 0x136B].map(word);
    assert_eq!(words, [32_770, 0, 1, 0, 4, 1]);
}

/// A report does not tell the number of a refused write.
#[test]
fn answers_to_writes_agree() {
    let mut memory = [0xAAAA; MEMORY_WORDS];
    let mut device = Crate::power_up(&mut memory);
    let mut expected_memory = vec![0xAAAA; MEMORY_WORDS];
    let (_, mut expected) = reference::Crate::power_up(&mut expected_memory);
    for address in 0..=0xFFFF {
        for word in [0xFFFF, 0x0000] {
            let wanted = expected.write(&mut expected_memory, address, word);
            assert_eq!(device.write(&mut memory, address, word), wanted, "{address:#06x}");
        }
    }
    assert_eq!(device.image(&memory), reference::image(&expected, &expected_memory));
}

#[test]
fn a_memory_of_another_length_is_refused_and_left() {
    for words in [0, 1, 16_383, 16_385] {
        let mut memory = vec![0x5555; words];
        let (report, image) = run(&mut memory, &[2, 0, 4, 0x80, 0, 0, 1], 10);
        assert_eq!(report.stop, Stop::Refused(1));
        assert_eq!(report.records, 0);
        assert!(image.len() == 5_120 && image.iter().all(|word| *word == 0));
        assert!(memory.iter().all(|word| *word == 0x5555));
    }
}
