//! Scans of the six outputs and register images, which have 0x0719, for a count of their instructions: their traces
//! differ in what they write to the selections alone, so that the runs themselves cost the same.

use crate::traces::{self, Words};
use crate::Run;
use mirvacula::{scan, Output, IMAGE_START, MEMORY_WORDS, OUTPUTS};
use reference::map::SELECT_FORWARD;

/// The register of the outputs.
const REGISTER: u16 = 0x0719;

const HIGH: Output = Output { level: true, words: 22 };

fn low(words: u16) -> Output {
    Output { level: false, words }
}

/// All bits of every word, less bit 0 of these words.
fn all_but(signals: &[usize]) -> Words {
    std::array::from_fn(|k| if signals.contains(&k) { 0xFFFE } else { 0xFFFF })
}

fn only(selected: &[usize]) -> Words {
    std::array::from_fn(|k| if selected.contains(&k) { 0xFFFF } else { 0 })
}

/// What the outputs select, and what the scan of each gives.
fn selections(name: &str) -> Result<([Words; OUTPUTS], Output), String> {
    let (nothing, absent) = (only(&[]), all_but(&[0, SELECT_FORWARD]));
    match name {
        "FIRST" => Ok(([all_but(&[]); OUTPUTS], low(1))),
        "NOTHING" => Ok(([nothing; OUTPUTS], HIGH)),
        "SOME" => Ok(([only(&[3, 9, 17]); OUTPUTS], HIGH)),
        "LAST" => Ok(([all_but(&[0]); OUTPUTS], low(22))),
        "ALL" => Ok(([absent; OUTPUTS], HIGH)),
        "ONE" => Ok(([nothing, nothing, nothing, nothing, nothing, absent], HIGH)),
        _ => Err(format!("no such scan: {name}")),
    }
}

/// One scan by the library. Prints the words that it read of an output.
pub fn once(name: &str) -> Result<(), String> {
    let (words, expected) = selections(name)?;
    let trace = traces::two_signals(&words);
    let outputs = scan(&mut [0; MEMORY_WORDS], &trace.bytes, trace.ticks).outputs;
    if outputs != [expected; OUTPUTS] {
        return Err(format!("{name}: {outputs:?}, expected {expected:?} six times"));
    }
    println!("{}", expected.words);
    Ok(())
}

/// One run with its image. Prints the outputs, as their register has them.
pub fn image(name: &str, run: Run) -> Result<(), String> {
    let (words, expected) = selections(name)?;
    let outputs = run(&traces::two_signals(&words)).image[usize::from(REGISTER - IMAGE_START)];
    if outputs != if expected.level { 0x3F } else { 0 } {
        return Err(format!("{name}: outputs {outputs:#04x}, expected {expected:?} six times"));
    }
    println!("{outputs}");
    Ok(())
}
