//! The plain ring against the reference model, on random starts.
use benchmark::ring::Ring;
use reference::generator::sums::{start, Start};
use reference::sums::{sums_by_totals, Samples};

const STARTS: u64 = 5_000;

fn compare(seed: u64) {
    let Start { window, ring: words, samples } = start(seed);
    let past = words.iter().skip(window as usize).copied().collect();
    let (ring, model) = (Ring::start(words.clone(), window as usize), Samples::start(window, words.len()));
    assert_eq!(ring.is_none(), model.is_err(), "seed {seed}");
    let (Some(mut ring), Ok(mut model)) = (ring, model) else { return };
    for (sample, sum) in samples.iter().zip(sums_by_totals(window as usize, &samples)) {
        model.sample(*sample);
        assert_eq!(ring.sample(*sample), Some(sum), "seed {seed}");
    }
    assert!(ring.words() == [model.ring(), past].concat(), "seed {seed}: the ring differs");
}

#[test]
fn random_starts_agree() {
    (0..STARTS).for_each(compare);
}
