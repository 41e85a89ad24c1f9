//! Times conversions of captures, by the library and in plain Rust, and compares what they give.

use crate::{clock, line, ratio_text};
use benchmark::conversion;
use mirvacula::{NotConverted, FRAME_BYTES, TICK_BYTES};
use reference::capture::{converted, frame, Frame};
use reference::generator::Dice;
use reference::numbers::{GATE_BITS, INPUT_BITS};

const FRAMES: usize = 500_000;
const ROUNDS: usize = 25;
/// The part of the plain conversion's speed that the library has to reach.
const LEAST_SPEED: f64 = 0.6;
/// A long output, which should cost nothing, has so many times what is always enough.
const LONG_OUTPUT: usize = 10;
const FILLED: u8 = 0xAA;

type Convert = fn(&[u8], &mut [u8]) -> Result<usize, NotConverted>;

const LIBRARY: Convert = mirvacula::convert;
const IMPLEMENTATIONS: [(&str, Convert); 2] = [("library", LIBRARY), ("plain", conversion::convert)];

/// So many frames of a kind.
type Frames = fn(usize) -> Vec<Frame>;

const KINDS: [(&str, Frames); 3] = [("EQUAL", equal), ("DIFFERENT", different), ("RUNS", runs)];

fn any_frame(dice: &mut Dice) -> Frame {
    frame(dice.roll() & INPUT_BITS, dice.word() & GATE_BITS)
}

fn equal(frames: usize) -> Vec<Frame> {
    vec![any_frame(&mut Dice::new(4)); frames]
}

fn different(frames: usize) -> Vec<Frame> {
    let mut dice = Dice::new(5);
    (0..frames).map(|_| any_frame(&mut dice)).collect()
}

/// A frame stands 1 to 10 times.
fn runs(frames: usize) -> Vec<Frame> {
    let mut dice = Dice::new(6);
    let mut all = Vec::new();
    while all.len() < frames {
        let times = 1 + dice.below(10) as usize;
        all.extend(vec![any_frame(&mut dice); times]);
    }
    all.truncate(frames);
    all
}

/// A capture, its trace by the reference model, and an output for it.
struct Conversion {
    name: &'static str,
    capture: Vec<u8>,
    trace: Vec<u8>,
    out: Vec<u8>,
}

impl Conversion {
    /// Into an output that is just long enough.
    fn new(name: &'static str, frames: Vec<Frame>) -> Conversion {
        let capture = frames.concat();
        let trace = converted(&capture, usize::MAX).expect("the levels are good");
        let out = vec![FILLED; trace.len()];
        Conversion { name, capture, trace, out }
    }

    fn into_output_of(self, bytes: usize) -> Conversion {
        Conversion { out: vec![FILLED; bytes], ..self }
    }

    fn frames(&self) -> usize {
        self.capture.len() / FRAME_BYTES
    }

    /// All implementations give the trace and leave the bytes past it.
    fn check(&mut self) -> Result<(), String> {
        for (name, convert) in IMPLEMENTATIONS {
            self.out.fill(FILLED);
            let length = convert(&self.capture, &mut self.out);
            let (trace, past) = self.out.split_at(self.trace.len());
            if length != Ok(self.trace.len()) || trace != self.trace || past.iter().any(|byte| *byte != FILLED) {
                return Err(format!("{}: {name}: another trace than the reference has", self.name));
            }
        }
        Ok(())
    }

    fn run(&mut self, convert: Convert) -> Result<usize, NotConverted> {
        convert(&self.capture, &mut self.out)
    }
}

const SPEEDS: [&str; 3] = ["library", "plain", "plain:library"];

fn speed_row(conversion: &Conversion, times: &[f64]) -> String {
    let (name, frames, records) = (conversion.name, conversion.frames(), conversion.trace.len() / TICK_BYTES);
    let speed = |seconds| format!("{:.0}", conversion.capture.len() as f64 / seconds / 1e6);
    let texts = [speed(times[0]), speed(times[1]), ratio_text(times[1] / times[0])];
    line(format!("{name:9}{frames:>8}{records:>9}  M bytes   "), &SPEEDS, &texts)
}

/// Prints the library's speed beside the plain conversion's; an error where it is too low.
fn compare_speeds() -> Result<(), String> {
    println!("{}", line("capture    frames  records  per second".to_string(), &SPEEDS, &SPEEDS.map(String::from)));
    let mut slow = Vec::new();
    for (name, frames) in KINDS {
        let mut conversion = Conversion::new(name, frames(FRAMES));
        conversion.check()?;
        let times = clock::medians(ROUNDS, IMPLEMENTATIONS.len(), |k| conversion.run(IMPLEMENTATIONS[k].1));
        println!("{}", speed_row(&conversion, &times));
        if times[1] / times[0] < LEAST_SPEED {
            slow.push(name);
        }
    }
    println!("Medians of {ROUNDS} rounds of processor time; the traces agree.");
    println!("plain:library is the library's speed by the plain conversion's; below {LEAST_SPEED} the run fails.");
    match slow[..] {
        [] => Ok(()),
        _ => Err(format!("below {LEAST_SPEED} of the plain conversion's speed: {}", slow.join(", "))),
    }
}

const SIZES: [&str; 4] = ["half", "whole", "twice", "long output"];

/// Of one kind, in the order of their names.
fn sizes(name: &'static str, frames: Frames) -> [Conversion; SIZES.len()] {
    let of = |number| Conversion::new(name, frames(number));
    let long = of(FRAMES).into_output_of(LONG_OUTPUT * TICK_BYTES * FRAMES);
    [of(FRAMES / 2), of(FRAMES), of(2 * FRAMES), long]
}

/// Prints the library's time a frame, which the lengths of capture and output should not change.
fn compare_sizes() -> Result<(), String> {
    println!("{}", line("capture    library, ns a frame".to_string(), &SIZES, &SIZES.map(String::from)));
    for (name, frames) in KINDS {
        let mut conversions = sizes(name, frames);
        conversions.iter_mut().try_for_each(Conversion::check)?;
        let times = clock::medians(ROUNDS, SIZES.len(), |k| conversions[k].run(LIBRARY));
        let a_frame = |k: usize| format!("{:.2}", 1e9 * times[k] / conversions[k].frames() as f64);
        println!("{}", line(format!("{name:30}"), &SIZES, &[0, 1, 2, 3].map(a_frame)));
    }
    let (half, twice, bytes) = (FRAMES / 2, 2 * FRAMES, LONG_OUTPUT * TICK_BYTES);
    println!("{half}, {FRAMES} and {twice} frames into an output as long as the trace;");
    println!("{FRAMES} into a long output, of {bytes} bytes for each frame.");
    Ok(())
}

pub fn time() -> Result<(), String> {
    println!();
    let speeds = compare_speeds();
    println!();
    compare_sizes().and(speeds)
}
