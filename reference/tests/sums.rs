//! 02, CR 4: sliding loss sums.

use reference::generator::sums::{foreign, start, Foreign, Start};
use reference::sums::{sampled, sums_by_totals, Samples, State, REFUSED_START};
use std::collections::BTreeSet;

const SEEDS: u64 = 20_000;
const BAD_SUM: u8 = 14;

/// Started on a ring of just the window's words.
fn started(window: u64) -> Samples {
    Samples::start(window, window as usize).unwrap()
}

/// The sums after each of these samples.
fn sums(window: u64, samples: &[i32]) -> Vec<i64> {
    let mut all = started(window);
    let after = |sample: &i32| {
        all.sample(*sample);
        all.sum()
    };
    samples.iter().map(after).collect()
}

/// What a sample gives on a state, and the ring that it leaves.
fn step(state: (u64, u64, i64), ring: &[i64], sample: i32) -> (Result<State, u8>, Vec<i64>) {
    let ((window, place, sum), mut ring) = (state, ring.to_vec());
    (sampled(State { window, place, sum }, &mut ring, sample), ring)
}

fn good(window: u64, place: u64, sum: i64) -> Result<State, u8> {
    Ok(State { window, place, sum })
}

#[test]
fn a_window_is_from_1_to_65536() {
    let start = |window| Samples::start(window, usize::MAX).map(|samples| samples.state());
    for window in [1, 2, 65_535, 65_536] {
        assert_eq!(start(window), good(window, 0, 0));
    }
    for window in [0, 65_537, 1 << 32 | 1, u64::MAX] {
        assert_eq!(start(window), Err(BAD_SUM), "window {window}");
    }
}

#[test]
fn a_ring_has_at_least_the_window() {
    for window in [1, 2, 7, 65_535, 65_536] {
        let words = window as usize;
        for (ring, taken) in [(0, false), (words - 1, false), (words, true), (words + 1, true), (usize::MAX, true)] {
            assert_eq!(Samples::start(window, ring).is_ok(), taken, "window {window}, ring of {ring}");
        }
    }
}

#[test]
fn a_window_of_3_is_added_up() {
    assert_eq!(sums(3, &[5, -2, 7, 1, 1, -9]), [5, 3, 10, 6, 9, -7]);
    let mut all = started(3);
    assert_eq!((all.ring(), all.state()), (vec![0, 0, 0], State { window: 3, place: 0, sum: 0 }));
    [5, -2].into_iter().for_each(|sample| all.sample(sample));
    assert_eq!((all.ring(), all.state()), (vec![5, -2, 0], State { window: 3, place: 2, sum: 3 }));
    [7, 1, 1].into_iter().for_each(|sample| all.sample(sample));
    assert_eq!((all.ring(), all.state()), (vec![1, 1, 7], State { window: 3, place: 2, sum: 9 }));
}

#[test]
fn a_window_of_1_is_the_sample() {
    let samples = [3, 0, i32::MIN, i32::MAX, -1];
    assert_eq!(sums(1, &samples), samples.map(i64::from));
    let mut all = started(1);
    all.sample(8);
    all.sample(-4);
    assert_eq!((all.ring(), all.state()), (vec![-4], State { window: 1, place: 0, sum: -4 }));
}

/// After that many times the same sample, and after once more.
fn full_sums(sample: i32) -> [i64; 2] {
    let mut all = started(65_536);
    (0..65_536).for_each(|_| all.sample(sample));
    let full = all.sum();
    all.sample(sample);
    [full, all.sum()]
}

#[test]
fn the_longest_window_does_not_wrap() {
    assert_eq!(full_sums(i32::MIN), [-140_737_488_355_328; 2]);
    assert_eq!(full_sums(i32::MAX), [140_737_488_289_792; 2]);
}

#[test]
fn a_sample_replaces_the_word_at_the_place() {
    let ring = [10, 20, 30, 40];
    assert_eq!(step((3, 0, 100), &ring, 1), (good(3, 1, 91), vec![1, 20, 30, 40]));
    assert_eq!(step((3, 1, 100), &ring, 1), (good(3, 2, 81), vec![10, 1, 30, 40]));
    assert_eq!(step((3, 2, 100), &ring, -1), (good(3, 0, 69), vec![10, 20, -1, 40]));
}

#[test]
fn a_bad_state_is_refused_and_the_ring_left() {
    let ring = [10, 20, 30, 40];
    let bad_place = [(3, 3), (3, 4), (3, 1 << 32), (3, u64::MAX), (4, 4), (1, 1)];
    let bad_window = [(0, 0), (65_537, 0), (u64::MAX, 0), (1 << 32 | 3, 0)];
    let short_ring = [(5, 0), (5, 4), (65_536, 0)];
    for (window, place) in bad_place.into_iter().chain(bad_window).chain(short_ring) {
        assert_eq!(step((window, place, 7), &ring, 1), (Err(BAD_SUM), ring.to_vec()), "window {window}, place {place}");
    }
    assert_eq!(step((65_537, 0, 7), &[1; 70_000], 1), (Err(BAD_SUM), vec![1; 70_000]));
    assert_eq!(step((1, 0, 7), &[], 1), (Err(BAD_SUM), vec![]));
}

#[test]
fn every_sample_after_a_refused_start_is_refused() {
    for words in [0, 1, 65_536, 65_537] {
        let mut ring = vec![5; words];
        assert_eq!(sampled(REFUSED_START, &mut ring, 1), Err(BAD_SUM));
        assert_eq!(ring, vec![5; words]);
    }
}

#[test]
fn foreign_sums_wrap_at_64_bits() {
    let sum = |sum, word, sample| step((1, 0, sum), &[word], sample).0.map(|state| state.sum);
    // Up.
    assert_eq!(sum(i64::MAX, 0, 1), Ok(i64::MIN));
    assert_eq!(sum(i64::MAX, -1, 0), Ok(i64::MIN));
    assert_eq!(sum(0, i64::MIN, 0), Ok(i64::MIN));
    assert_eq!(sum(i64::MAX, i64::MIN, i32::MAX), Ok(2_147_483_646));
    // Down.
    assert_eq!(sum(i64::MIN, 0, -1), Ok(i64::MAX));
    assert_eq!(sum(i64::MIN, 1, 0), Ok(i64::MAX));
    assert_eq!(sum(i64::MIN, i64::MAX, i32::MIN), Ok(-2_147_483_647));
    // Back from where it would wrap if it were taken off last.
    assert_eq!(sum(i64::MAX, 1, 1), Ok(i64::MAX));
    assert_eq!(sum(i64::MIN, -1, -1), Ok(i64::MIN));
}

/// A list above this goes round a large window, which takes seconds to be added up afresh.
const LONG_LIST: usize = 5_000;

/// A step at a time on a ring gives what is added up afresh.
fn steps_agree(seed: u64) {
    let Start { window, mut ring, samples } = start(seed);
    let Ok(mut all) = Samples::start(window, ring.len()) else { return };
    if samples.len() > LONG_LIST {
        return;
    }
    ring[..window as usize].fill(0);
    let past = ring[window as usize..].to_vec();
    let mut state = all.state();
    for sample in samples {
        all.sample(sample);
        state = sampled(state, &mut ring, sample).unwrap();
        assert_eq!(state, all.state(), "seed {seed}");
    }
    assert!(ring == [all.ring(), past].concat(), "seed {seed}: the ring differs");
}

#[test]
fn sums_by_steps_are_those_added_up_afresh() {
    (0..SEEDS / 2).for_each(steps_agree);
}

fn totals_agree(case: &Start) {
    let wanted = sums(case.window, &case.samples);
    assert!(sums_by_totals(case.window as usize, &case.samples) == wanted, "window {}: a sum differs", case.window);
}

#[test]
fn sums_by_totals_are_those_added_up_afresh() {
    let is_long = |case: &Start| case.samples.len() > LONG_LIST;
    let (long, short): (Vec<Start>, Vec<Start>) = good_starts(SEEDS / 4).partition(is_long);
    short.iter().for_each(totals_agree);
    totals_agree(long.iter().max_by_key(|case| case.window).unwrap());
}

fn good_starts(seeds: u64) -> impl Iterator<Item = Start> {
    (0..seeds).map(start).filter(|case| Samples::start(case.window, case.ring.len()).is_ok())
}

fn window_class(window: u64) -> &'static str {
    match window {
        0 => "0",
        1 => "1",
        2 => "2",
        3..=65_534 => "between",
        65_535 => "65,535",
        65_536 => "65,536",
        65_537 => "65,537",
        _ => "far too long",
    }
}

fn ring_class(window: u64, ring: &[i64]) -> &'static str {
    match ring.len() as u64 {
        0 => "empty",
        words if words > window => "longer",
        words if words == window => "just long enough",
        words if words + 1 == window => "one short",
        _ => "shorter",
    }
}

fn list_class(window: u64, samples: &[i32]) -> &'static str {
    match (window, samples.len() as u64 / window) {
        (_, 0) => "not once round",
        (301.., _) => "round a large window",
        (_, 1 | 2) => "once or twice round",
        _ => "round and round",
    }
}

#[test]
fn random_starts_have_windows_and_rings_of_every_kind() {
    let kind = |case: Start| (window_class(case.window), ring_class(case.window, &case.ring));
    let kinds: BTreeSet<_> = (0..SEEDS).map(start).map(kind).collect();
    // Windows 0 and far too long have two kinds of ring, 1 has three, 2 four, the others all.
    assert_eq!(kinds.len(), 2 + 2 + 3 + 4 + 4 * 5, "{kinds:?}");
}

#[test]
fn random_starts_have_lists_of_every_kind() {
    let kind = |case: Start| (window_class(case.window), list_class(case.window, &case.samples));
    let kinds: BTreeSet<_> = good_starts(SEEDS).map(kind).collect();
    // Windows 1 and 2 have three kinds, 65,535 and 65,536 two, those between all.
    assert_eq!(kinds.len(), 3 + 3 + 2 + 2 + 4, "{kinds:?}");
}

/// Whether a whole window is of the same sample.
fn is_full_of(case: &Start, sample: i32) -> bool {
    let full = |window: &[i32]| window.iter().all(|each| *each == sample);
    (3..100).contains(&case.window) && case.samples.windows(case.window as usize).any(full)
}

#[test]
fn random_samples_fill_windows_and_reach_both_ends() {
    for sample in [i32::MIN, i32::MAX, 0] {
        assert!(good_starts(SEEDS).any(|case| is_full_of(&case, sample)), "{sample}");
    }
    let large = |case: &Start| case.window >= 65_535 && case.samples.len() as u64 > case.window;
    let both_ends = |case: &Start| case.samples.contains(&i32::MIN) && case.samples.contains(&i32::MAX);
    assert!(good_starts(SEEDS).any(|case| large(&case) && both_ends(&case)));
}

fn place_class(state: State) -> &'static str {
    let State { window, place, .. } = state;
    match place.checked_sub(window) {
        None if place + 1 == window => "last",
        None => "within",
        Some(0) => "at the window",
        Some(1..1_000_000) => "above it",
        Some(_) => "far above it",
    }
}

/// How the first sample on a good foreign state moves the sum.
fn sum_class(case: &Foreign) -> &'static str {
    let State { place, sum, .. } = case.state;
    let oldest = case.ring[place as usize];
    match i128::from(sum) + i128::from(case.samples[0]) - i128::from(oldest) {
        exact if exact > i64::MAX.into() => "wraps up",
        exact if exact < i64::MIN.into() => "wraps down",
        _ if [i64::MIN, i64::MAX].contains(&sum) => "stays, from an end",
        _ => "stays",
    }
}

fn foreign_class(case: &Foreign) -> (u8, &'static str) {
    if case.samples.is_empty() {
        return (0, "no sample");
    }
    match sampled(case.state, &mut case.ring.clone(), case.samples[0]) {
        Ok(_) => (0, sum_class(case)),
        Err(number) => (number, place_class(case.state)),
    }
}

#[test]
fn random_foreign_states_are_of_every_kind() {
    let (mut kinds, mut windows) = (BTreeSet::new(), BTreeSet::new());
    for case in (0..SEEDS).map(foreign) {
        kinds.insert(foreign_class(&case));
        windows.insert(window_class(case.state.window));
    }
    // Five ways for a sum, and the five kinds of place where the sample is refused.
    assert_eq!(kinds.len(), 5 + 5, "{kinds:?}");
    assert_eq!(windows.len(), 8, "{windows:?}");
}

#[test]
fn random_foreign_states_are_also_refused_for_the_place_alone() {
    let could_start = |case: &Foreign| Samples::start(case.state.window, case.ring.len()).is_ok();
    let cases = (0..SEEDS / 4).map(foreign).filter(could_start);
    let places: BTreeSet<_> = cases.map(|case| place_class(case.state)).collect();
    assert_eq!(places.len(), 5, "{places:?}");
}
