//! Times samples of sliding sums, by the library and in plain Rust, and compares what they give.

use crate::{clock, line, ratio_text};
use benchmark::ring::Ring;
use mirvacula::SlidingSum;
use reference::generator::Dice;
use reference::sums::sums_by_totals;

const WINDOWS: [usize; 3] = [1, 128, 65_536];
/// So many that a start, which clears the ring, does not count.
const SAMPLES: usize = 2_000_000;
/// For a count of instructions: some rounds of the longest window.
const COUNTED_SAMPLES: usize = 200_000;
const ROUNDS: usize = 31;
/// The part of the plain ring's speed that the library has to reach.
const LEAST_SPEED: f64 = 2.0 / 3.0;

/// The total of the sums that samples give, modulo 2^64, so that none is left out.
type Total = fn(usize, &[i32]) -> i64;

const IMPLEMENTATIONS: [(&str, Total); 3] = [("library", by_library), ("plain", by_ring), ("inline", inline)];
const COLUMNS: [&str; 5] = ["library", "plain", "inline", "plain:library", "inline:library"];

fn samples(number: usize) -> Vec<i32> {
    let mut dice = Dice::new(7);
    (0..number).map(|_| dice.roll() as i32).collect()
}

fn total(sums: impl Iterator<Item = i64>) -> i64 {
    sums.fold(0, i64::wrapping_add)
}

fn by_library(window: usize, samples: &[i32]) -> i64 {
    let mut sliding = SlidingSum::new(window).expect("a good window");
    total(samples.iter().map(|sample| sliding.sample(*sample)))
}

fn by_ring(window: usize, samples: &[i32]) -> i64 {
    let mut ring = Ring::start(vec![0; window], window).expect("a good window");
    total(samples.iter().map(|sample| ring.sample(*sample).expect("a good state")))
}

/// A ring without those checks and without a call, written out where the sums are used.
fn inline(window: usize, samples: &[i32]) -> i64 {
    let mut ring = vec![0; window];
    let (mut place, mut sum, mut total) = (0, 0_i64, 0_i64);
    for sample in samples {
        let oldest = std::mem::replace(&mut ring[place], i64::from(*sample));
        sum = sum.wrapping_add(i64::from(*sample)).wrapping_sub(oldest);
        place = if place + 1 == window { 0 } else { place + 1 };
        total = total.wrapping_add(sum);
    }
    total
}

/// All implementations give the reference model's sums.
fn check(window: usize, samples: &[i32]) -> Result<(), String> {
    let expected = total(sums_by_totals(window, samples).into_iter());
    let other = IMPLEMENTATIONS.iter().find(|(_, total)| total(window, samples) != expected);
    match other {
        None => Ok(()),
        Some((name, _)) => Err(format!("window {window}: {name}: other sums than the reference has")),
    }
}

/// A row of the table, and the library's speed by the plain ring's.
fn row(window: usize, samples: &[i32]) -> (String, f64) {
    let times = clock::times(ROUNDS, IMPLEMENTATIONS.len(), |k| IMPLEMENTATIONS[k].1(window, samples));
    let speed = |k: usize| format!("{:.0}", samples.len() as f64 / clock::median(times[k].clone()) / 1e6);
    let [plain, inline] = [1, 2].map(|k| clock::median_ratio(&times[k], &times[0]));
    let texts = [speed(0), speed(1), speed(2), ratio_text(plain), ratio_text(inline)];
    (line(format!("{window:>6}{SAMPLES:>9}  M samples "), &COLUMNS, &texts), plain)
}

/// Prints the library's speed beside that of the plain rings; an error where it is too low.
pub fn time() -> Result<(), String> {
    println!();
    println!("{}", line("window  samples  per second".to_string(), &COLUMNS, &COLUMNS.map(String::from)));
    let samples = samples(SAMPLES);
    let mut slow = Vec::new();
    for window in WINDOWS {
        check(window, &samples)?;
        let (row, speed) = row(window, &samples);
        println!("{row}");
        if speed < LEAST_SPEED {
            slow.push(window.to_string());
        }
    }
    println!("Medians of {ROUNDS} rounds of processor time, ratios too; the sums agree.");
    println!("plain:library is the library's speed by that of a plain ring with the same checks behind a call; below 2/3 the");
    println!("run fails. inline:library is its speed by that of a ring without them, written out in the loop.");
    match slow[..] {
        [] => Ok(()),
        _ => Err(format!("below 2/3 of the plain ring's speed: windows {}", slow.join(", "))),
    }
}

/// Samples by the library over one window. Prints their number.
pub fn once(window: &str) -> Result<(), String> {
    let window = window.parse().map_err(|_| format!("no such window: {window}"))?;
    let samples = samples(COUNTED_SAMPLES);
    let expected = total(sums_by_totals(window, &samples).into_iter());
    if by_library(window, &samples) != expected {
        return Err(format!("window {window}: other sums than the reference has"));
    }
    println!("{COUNTED_SAMPLES}");
    Ok(())
}
