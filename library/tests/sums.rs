//! The library's sliding sums against the reference model, on random lists of samples, states and rings.
mod common;

use common::{all_agree, number_of};
use mirvacula::{sum_sample_by_numbers, sum_start_by_numbers, BadWindow, SlidingSum};
use reference::generator::sums::{foreign, start, Foreign, Start};
use reference::sums::{sampled, sums_by_totals, Samples, State, REFUSED_START};
use std::fmt::Debug;

const SUMS: u64 = 20_000;
const BAD_SUM: u16 = 14;
const BAD_BUFFER: u16 = 255;
const FILLED: i64 = 0x5555;
/// Of a longer ring the words around the place are compared after each sample, and all of them at the end.
const SHORT_RING: usize = 1_000;
/// Over a longer window the model does not add up each sum afresh.
const SHORT_WINDOW: u64 = 1_000;

fn words(state: State) -> [u64; 3] {
    [state.window, state.place, state.sum as u64]
}

/// The words of a ring to compare after a sample at this place.
fn around(place: u64, ring: &[i64]) -> &[i64] {
    if ring.len() <= SHORT_RING {
        return ring;
    }
    let place = place.min(ring.len() as u64) as usize;
    &ring[place.saturating_sub(2)..(place + 3).min(ring.len())]
}

fn same<T: PartialEq + Debug>(what: &str, is: T, wanted: T) -> Result<(), String> {
    if is == wanted { Ok(()) } else { Err(format!("{what}: {is:?}, expected {wanted:?}")) }
}

/// Tells the first word that differs, as a ring can be long.
fn same_ring(is: &[i64], wanted: &[i64]) -> Result<(), String> {
    match is.iter().zip(wanted).position(|(is, wanted)| is != wanted) {
        None => same("words of the ring", is.len(), wanted.len()),
        Some(k) => Err(format!("word {k} of those compared in the ring is {}, expected {}", is[k], wanted[k])),
    }
}

/// What a sample gives.
#[derive(Debug, PartialEq, Eq)]
struct Given {
    number: u16,
    sum: i64,
    state: [u64; 3],
}

/// A state and a ring lent to the library.
struct Lent {
    state: [u64; 3],
    ring: Vec<i64>,
}

impl Lent {
    fn sample(&mut self, sample: i32) -> Given {
        let mut sum = [FILLED];
        let number = sum_sample_by_numbers(&mut self.state, &mut self.ring, sample, &mut sum);
        Given { number, sum: sum[0], state: self.state }
    }
}

/// Samples after a start that the model has taken too.
fn list_agrees(lent: &mut Lent, mut model: Samples, samples: &[i32]) -> Result<(), String> {
    let window = model.state().window;
    let mut ring = lent.ring.clone();
    for (sample, sum) in samples.iter().zip(sums_by_totals(window as usize, samples)) {
        let place = model.place();
        model.sample(*sample);
        ring[place] = model.word(place);
        let sum = if window <= SHORT_WINDOW { model.sum() } else { sum };
        let state = [window, model.place() as u64, sum as u64];
        same("sample", lent.sample(*sample), Given { number: 0, sum, state })?;
        same_ring(around(place as u64, &lent.ring), around(place as u64, &ring))?;
    }
    let past = &ring[window as usize..];
    same_ring(&lent.ring, &[&model.ring(), past].concat())
}

/// Samples on any state and ring, each as a step of the model.
fn steps_agree(lent: &mut Lent, mut state: State, samples: &[i32]) -> Result<(), String> {
    let mut ring = lent.ring.clone();
    for sample in samples {
        let place = state.place;
        let step = sampled(state, &mut ring, *sample);
        state = step.unwrap_or(state);
        let (number, sum) = step.map_or_else(|number| (number.into(), 0), |next| (0, next.sum));
        same("sample", lent.sample(*sample), Given { number, sum, state: words(state) })?;
        same_ring(around(place, &lent.ring), around(place, &ring))?;
    }
    same_ring(&lent.ring, &ring)
}

/// A start, good or refused, and the samples that follow it.
fn start_agrees(case: Start) -> Result<(), String> {
    let Start { window, ring, samples } = case;
    let mut lent = Lent { state: [u64::MAX; 3], ring: ring.clone() };
    let number = sum_start_by_numbers(&mut lent.state, &mut lent.ring, window);
    match Samples::start(window, ring.len()) {
        Ok(model) => {
            same("start", (number, lent.state), (0, words(model.state())))?;
            same_ring(&lent.ring, &[&model.ring(), &ring[window as usize..]].concat())?;
            list_agrees(&mut lent, model, &samples)
        }
        Err(refusal) => {
            same("start", (number, lent.state), (refusal.into(), words(REFUSED_START)))?;
            same_ring(&lent.ring, &ring)?;
            steps_agree(&mut lent, REFUSED_START, &samples)
        }
    }
}

fn foreign_agrees(case: Foreign) -> Result<(), String> {
    let Foreign { state, ring, samples } = case;
    steps_agree(&mut Lent { state: words(state), ring }, state, &samples)
}

/// Compares the cases of seeds 0, 1 and so on.
fn cases_agree<T>(seeds: u64, case: fn(u64) -> T, agrees: fn(T) -> Result<(), String>) {
    all_agree(seeds, |seed| agrees(case(seed)).map_err(|difference| format!("seed {seed}: {difference}")));
}

#[test]
fn random_starts_agree() {
    cases_agree(number_of("SUMS", SUMS), start, start_agrees);
}

#[test]
fn random_foreign_states_agree() {
    cases_agree(number_of("SUMS", SUMS), foreign, foreign_agrees);
}

/// In the middle of the list a copy takes another sample, which the sums that follow do not have.
fn wrapper_agrees(window: usize, samples: &[i32]) -> Result<(), String> {
    let mut sliding = SlidingSum::new(window).map_err(|refusal| refusal.to_string())?;
    same("before the first sample", (sliding.sum(), sliding.window()), (0, window))?;
    let sums = sums_by_totals(window, samples);
    for (k, (sample, sum)) in samples.iter().zip(&sums).enumerate() {
        if k == samples.len() / 2 {
            same("copy", sliding.clone().sample(0), sum - i64::from(*sample))?;
        }
        same("sample", (sliding.sample(*sample), sliding.sum(), sliding.window()), (*sum, *sum, window))?;
    }
    Ok(())
}

fn sliding_sum_agrees(case: Start) -> Result<(), String> {
    let window = case.window as usize;
    match Samples::start(case.window, usize::MAX) {
        Ok(_) => wrapper_agrees(window, &case.samples),
        Err(_) => same("refusal", SlidingSum::new(window).err(), Some(BadWindow { window })),
    }
}

#[test]
fn random_sliding_sums_agree() {
    cases_agree(number_of("SUMS", SUMS) / 2, start, sliding_sum_agrees);
}

#[test]
fn a_window_of_3_is_added_up() {
    let mut sliding = SlidingSum::new(3).unwrap();
    let sums = [5, -2, 7, 1, 1, -9].map(|sample| sliding.sample(sample));
    assert_eq!(sums, [5, 3, 10, 6, 9, -7]);
}

#[test]
fn the_longest_window_does_not_wrap() {
    for (sample, sum) in [(i32::MIN, -140_737_488_355_328), (i32::MAX, 140_737_488_289_792)] {
        let mut sliding = SlidingSum::new(65_536).unwrap();
        let sums: Vec<i64> = (0..65_537).map(|_| sliding.sample(sample)).collect();
        assert_eq!((sums[0], sums[65_535], sums[65_536]), (sample.into(), sum, sum));
    }
}

#[test]
fn a_bad_window_says_why() {
    for (window, text) in [
        (0, "a window of 0 samples is not from 1 to 65,536 (14)"),
        (65_537, "a window of 65537 samples is not from 1 to 65,536 (14)"),
    ] {
        let refusal = SlidingSum::new(window).unwrap_err();
        assert_eq!((refusal.number(), refusal.to_string()), (BAD_SUM, text.to_string()));
    }
    assert_eq!(SlidingSum::new(usize::MAX).err(), Some(BadWindow { window: usize::MAX }));
}

/// The words of a state, cut or lengthened.
fn resized(state: [u64; 3], words: usize) -> Vec<u64> {
    state.into_iter().chain([7; 100]).take(words).collect()
}

// The bad windows show that a wrong length is seen before what is refused by 14.
#[test]
fn a_start_leaves_a_state_of_another_length() {
    for window in [1, 4, 0, 5, 65_537] {
        for words in [0, 1, 2, 4, 100] {
            let (mut state, mut ring) = (resized([3, 1, 9], words), vec![FILLED; 4]);
            assert_eq!(sum_start_by_numbers(&mut state, &mut ring, window), BAD_BUFFER);
            assert_eq!((state, ring), (resized([3, 1, 9], words), vec![FILLED; 4]));
        }
    }
}

// The bad states likewise.
#[test]
fn a_sample_leaves_buffers_of_another_length() {
    for state in [[4, 1, 9], [0, 0, 0], [5, 1, 9], [65_537, 1, 9], [4, 4, 9]] {
        for (words, sum_words) in [(0, 1), (2, 1), (4, 1), (100, 1), (3, 0), (3, 2), (3, 3), (1, 3), (0, 0), (4, 2)] {
            let (mut lent, mut ring, mut sum) = (resized(state, words), vec![FILLED; 4], vec![8; sum_words]);
            assert_eq!(sum_sample_by_numbers(&mut lent, &mut ring, 1, &mut sum), BAD_BUFFER);
            assert_eq!((lent, ring, sum), (resized(state, words), vec![FILLED; 4], vec![8; sum_words]));
        }
    }
}

#[test]
fn every_word_of_state_and_sum_is_written() {
    let mut lent = Lent { state: [u64::MAX; 3], ring: vec![FILLED; 3] };
    assert_eq!(sum_start_by_numbers(&mut lent.state, &mut lent.ring, 2), 0);
    assert_eq!((lent.state, &lent.ring), ([2, 0, 0], &vec![0, 0, FILLED]));
    assert_eq!(lent.sample(-5), Given { number: 0, sum: -5, state: [2, 1, -5_i64 as u64] });
    assert_eq!(sum_start_by_numbers(&mut lent.state, &mut lent.ring, 4), BAD_SUM);
    assert_eq!((lent.state, &lent.ring), ([0, 0, 0], &vec![-5, 0, FILLED]));
    assert_eq!(lent.sample(1), Given { number: BAD_SUM, sum: 0, state: [0, 0, 0] });
    assert_eq!(lent.ring, [-5, 0, FILLED]);
}
