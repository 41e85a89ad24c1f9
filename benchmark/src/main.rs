//! Times the library, the reference model and the crate in place on the same traces, in turn, and compares what they
//! give. With the feature `before` the library of an earlier revision is among them. Then it times conversions of
//! captures and samples of sliding sums. With an argument it runs one thing once, for a count of instructions.

#[cfg(feature = "before")]
mod before;
mod captures;
mod clock;
mod scans;
mod sums;
mod traces;

use mirvacula::{Rehearsal, Report, Stop, MEMORY_WORDS};
use reference::trace::{self, from_power_up};
use std::process::ExitCode;
use traces::Trace;

const ROUNDS: usize = 9;
/// Of a long trace one round takes the reference seconds.
const LONG_TICKS: u64 = 10_000_000;
const LONG_ROUNDS: usize = 3;

/// What a run gives: the report, the image and the memory.
#[derive(PartialEq, Eq)]
struct Given {
    report: Report,
    image: Vec<u16>,
    memory: Vec<u16>,
}

type Run = fn(&Trace) -> Given;

const IMPLEMENTATIONS: &[(&str, Run)] = &[
    ("library", by_library),
    #[cfg(feature = "before")]
    ("before", by_library_before),
    ("reference", by_reference),
    ("in place", in_place),
];

/// Whose time the library's is divided by.
const RATIOS: &[&str] = &[
    "in place",
    #[cfg(feature = "before")]
    "before",
];

fn by_library(trace: &Trace) -> Given {
    by_archive(mirvacula::run, trace)
}

#[cfg(feature = "before")]
fn by_library_before(trace: &Trace) -> Given {
    by_archive(before::run, trace)
}

fn by_archive(run: fn(&mut [u16], &[u8], u64) -> Rehearsal, trace: &Trace) -> Given {
    let mut memory = vec![0xAAAA; MEMORY_WORDS];
    let rehearsal = run(&mut memory, &trace.bytes, trace.ticks);
    Given { report: rehearsal.report, image: rehearsal.image().to_vec(), memory }
}

fn by_reference(trace: &Trace) -> Given {
    let (device, memory, report) = from_power_up(&trace.bytes, trace.ticks);
    let stop = match report.stop {
        trace::Stop::End => Stop::End,
        trace::Stop::Spent => Stop::Spent,
        trace::Stop::Refused(number) => Stop::Refused(number.into()),
    };
    let trace::Report { next, ticks, records, refused, .. } = report;
    let report = Report { stop, next, ticks, records, refused };
    Given { report, image: reference::image(&device, &memory), memory }
}

fn in_place(trace: &Trace) -> Given {
    let mut memory = vec![0xAAAA; MEMORY_WORDS];
    let (report, image) = benchmark::inplace::run(&mut memory, &trace.bytes, trace.ticks);
    Given { report, image, memory }
}

/// What differs from the reference, in words.
fn difference(name: &str, trace: &Trace, given: &Given, expected: &Given) -> Option<String> {
    let what = if given.report != expected.report {
        format!("report {:?}, the reference has {:?}", given.report, expected.report)
    } else if let Some(k) = (0..expected.image.len()).find(|k| given.image.get(*k) != expected.image.get(*k)) {
        format!("register {:#06x} is {:#06x}, the reference has {:#06x}", 0x0600 + k, given.image[k], expected.image[k])
    } else if given != expected {
        "a memory word differs from the reference".to_string()
    } else {
        return None;
    };
    Some(format!("{}: {name}: {what}", trace.name))
}

/// The report, if the trace runs to its end and all implementations give the same.
fn check(trace: &Trace) -> Result<Report, String> {
    let expected = by_reference(trace);
    let whole = expected.report.stop == Stop::End && expected.report.ticks == trace.ticks;
    if !whole {
        return Err(format!("{}: not run to its end: {:?}", trace.name, expected.report));
    }
    let differences = IMPLEMENTATIONS.iter().filter_map(|(name, run)| difference(name, trace, &run(trace), &expected));
    match differences.reduce(|all, next| format!("{all}\n{next}")) {
        None => Ok(expected.report),
        Some(differences) => Err(differences),
    }
}

fn rounds(trace: &Trace) -> usize {
    if trace.ticks < LONG_TICKS { ROUNDS } else { LONG_ROUNDS }
}

/// The median seconds of each implementation.
fn medians(trace: &Trace) -> Vec<f64> {
    clock::medians(rounds(trace), IMPLEMENTATIONS.len(), |k| IMPLEMENTATIONS[k].1(trace))
}

/// Three digits that count.
fn ratio_text(ratio: f64) -> String {
    let places = (2.0 - ratio.log10().floor()).max(1.0) as usize;
    format!("{ratio:.places$}")
}

/// A column as wide as its name asks for.
fn column(name: &str, text: &str) -> String {
    format!("{text:>width$}", width = (name.len() + 2).max(10))
}

/// A line of a table, each text in the column of its name.
fn line(start: String, names: &[&str], texts: &[String]) -> String {
    names.iter().zip(texts).fold(start, |line, (name, text)| line + &column(name, text))
}

fn header() -> String {
    let names = IMPLEMENTATIONS.iter().map(|(name, _)| name.to_string());
    let columns = names.chain(RATIOS.iter().map(|name| format!("library:{name}")));
    columns.fold("trace       ticks  records  per second".to_string(), |row, name| row + &column(&name, &name))
}

fn row(trace: &Trace, report: &Report) -> String {
    let by_ticks = report.ticks >= report.records;
    let (what, number) = if by_ticks { ("ticks", report.ticks) } else { ("records", report.records) };
    let times = medians(trace);
    let (name, ticks, records) = (trace.name, report.ticks, report.records);
    let mut row = format!("{name:8}{ticks:>9}{records:>9}  M {what:8}");
    for ((name, _), seconds) in IMPLEMENTATIONS.iter().zip(&times) {
        row += &column(name, &format!("{:.2}", number as f64 / seconds / 1e6));
    }
    for rival in RATIOS {
        let k = IMPLEMENTATIONS.iter().position(|(name, _)| name == rival).expect("all rivals are timed");
        row += &column(&format!("library:{rival}"), &ratio_text(times[0] / times[k]));
    }
    row
}

/// Runs the library once on each short trace and prints their ticks: for a count of instructions.
fn once() -> Result<(), String> {
    let ticks: u64 = traces::short().iter().map(|trace| by_library(trace).report.ticks).sum();
    println!("{ticks}");
    Ok(())
}

/// Prints the table of the traces.
fn time_traces() -> Result<(), String> {
    println!("{}", header());
    for trace in traces::all() {
        let report = check(&trace)?;
        println!("{}", row(&trace, &report));
    }
    let long = LONG_TICKS / 1_000_000;
    println!("Medians of {ROUNDS} rounds of processor time, of {LONG_ROUNDS} for {long} million ticks or more;");
    println!("reports, images and memories agree.");
    Ok(())
}

fn main() -> ExitCode {
    let words: Vec<String> = std::env::args().skip(1).collect();
    let words: Vec<&str> = words.iter().map(String::as_str).collect();
    let done = match words[..] {
        ["once"] => once(),
        ["scan", name] => scans::once(name),
        ["image", name] => scans::image(name, by_library),
        #[cfg(feature = "before")]
        ["image-before", name] => scans::image(name, by_library_before),
        ["sum", window] => sums::once(window),
        [] => time_traces().and_then(|()| captures::time()).and_then(|()| sums::time()),
        _ => Err(format!("no such run: {}", words.join(" "))),
    };
    match done {
        Ok(()) => ExitCode::SUCCESS,
        Err(problem) => {
            eprintln!("{problem}");
            ExitCode::FAILURE
        }
    }
}
