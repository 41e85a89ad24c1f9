//! The generator: same seed, same bytes; its traces reach every class.

use reference::coverage::{repeats::RepeatCoverage, scans::ScanCoverage, Coverage, Table};
use reference::generator::Family;
use reference::trace::{from_power_up, Stop, PROGRAM_BYTES};

fn each_family(seeds: u64) -> impl Iterator<Item = (Family, u64)> {
    let families = [Family::Scenes, Family::Repeats, Family::Scans];
    families.into_iter().flat_map(move |family| (0..seeds).map(move |seed| (family, seed)))
}

#[test]
fn a_seed_gives_the_same_trace_and_budget_each_time() {
    for (family, seed) in each_family(200) {
        assert_eq!(family.trace(seed), family.trace(seed));
        assert_eq!(family.budget(seed), family.budget(seed));
        assert!(family.trace(seed).len() <= PROGRAM_BYTES);
    }
}

#[test]
fn short_medium_and_long_traces_come() {
    let lengths: Vec<usize> = (0..300).map(|seed| Family::Scenes.trace(seed).len()).collect();
    assert!(lengths.iter().any(|length| *length <= 60));
    assert!(lengths.iter().any(|length| (100..1000).contains(length)));
    assert!(lengths.iter().any(|length| *length > 2000));
}

#[test]
fn reports_agree_with_themselves() {
    for (family, seed) in each_family(300) {
        let (bytes, budget) = (family.trace(seed), family.budget(seed));
        let (_, _, report) = from_power_up(&bytes, budget);
        assert!(report.ticks <= budget && report.refused <= report.records);
        assert_eq!(report.stop == Stop::End, report.next == bytes.len() as u64);
    }
}

/// What a run passed and no more gives the same crate and memory again.
#[test]
fn the_passed_part_alone_ends_in_the_same_state() {
    for (family, seed) in each_family(300) {
        let (bytes, budget) = (family.trace(seed), family.budget(seed));
        let (device, memory, report) = from_power_up(&bytes, budget);
        let passed = &bytes[..report.next as usize];
        let (again, again_memory, second) = from_power_up(passed, report.ticks);
        assert_eq!((again, again_memory), (device, memory), "{family:?}, seed {seed}");
        assert_eq!((second.stop, second.records), (Stop::End, report.records));
    }
}

fn reaches_every_class(mut table: impl Table, seeds: u64) {
    (0..seeds).for_each(|seed| table.run_seed(seed));
    assert_eq!(table.never_reached(), Vec::<String>::new());
}

#[test]
fn three_thousand_seeds_reach_every_class() {
    reaches_every_class(Coverage::new(), 3000);
}

#[test]
fn a_thousand_seeds_of_long_repeats_reach_every_class() {
    reaches_every_class(RepeatCoverage::new(), 1000);
}

#[test]
fn five_thousand_seeds_of_scans_reach_every_class() {
    reaches_every_class(ScanCoverage::new(), 5000);
}
