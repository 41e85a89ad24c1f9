//! Commands of the reference model.
#![forbid(unsafe_code)]

use reference::coverage::{repeats::RepeatCoverage, scans::ScanCoverage, Coverage, Table};
use reference::generator::Family;
use reference::image;
use reference::trace::{from_power_up, rehearse, run_and_print, report_line, PROGRAM_BYTES};
use std::fs::File;
use std::io::{self, Read, Write};
use std::os::fd::AsFd;
use std::process::ExitCode;

const USAGE: &str = "reference run
reference run --budget N FILE
reference trace SEED
reference budget SEED
reference coverage FIRST COUNT
reference store FIRST COUNT
reference print FIRST COUNT
reference repeats ...: any of the last five, for traces of long repeats
reference scans ...: the same, for traces that end in a crate worth a scan";

fn main() -> ExitCode {
    let words: Vec<String> = std::env::args().skip(1).collect();
    let words: Vec<&str> = words.iter().map(String::as_str).collect();
    match command(&words) {
        Ok(code) => code,
        Err(problem) => {
            eprintln!("{problem}");
            ExitCode::from(2)
        }
    }
}

fn command(words: &[&str]) -> Result<ExitCode, String> {
    match words {
        ["run"] => print(&rehearse(&standard_input()?))?,
        ["run", "--budget", budget, file] => {
            let bytes = std::fs::read(file).map_err(|e| format!("{file}: {e}"))?;
            print(&run_and_print(&bytes, number(budget)?))?
        }
        ["repeats", words @ ..] => return of_family(Family::Repeats, words),
        ["scans", words @ ..] => return of_family(Family::Scans, words),
        words => return of_family(Family::Scenes, words),
    }
    Ok(ExitCode::SUCCESS)
}

fn of_family(family: Family, words: &[&str]) -> Result<ExitCode, String> {
    match words {
        ["trace", seed] => write_out(&family.trace(number(seed)?)),
        ["budget", seed] => print(&format!("{}\n", family.budget(number(seed)?))),
        ["coverage", first, count] => return coverage(family, number(first)?, number(count)?),
        ["store", first, count] => write_out(&stored(family, number(first)?, number(count)?)),
        ["print", first, count] => print_lines(family, number(first)?, number(count)?),
        _ => Err(USAGE.to_string()),
    }?;
    Ok(ExitCode::SUCCESS)
}

fn number(text: &str) -> Result<u64, String> {
    text.parse().map_err(|_| format!("not a number: {text}"))
}

fn write_out(bytes: &[u8]) -> Result<(), String> {
    io::stdout().write_all(bytes).map_err(|e| e.to_string())
}

fn print(text: &str) -> Result<(), String> {
    write_out(text.as_bytes())
}

/// Read without a buffer, so that bytes beyond the limit stay unread.
// 01: "runs the first 65,536 bytes of standard input, leaving the rest unread"
fn standard_input() -> Result<Vec<u8>, String> {
    let owned = io::stdin().as_fd().try_clone_to_owned().map_err(|e| e.to_string())?;
    let mut bytes = Vec::new();
    File::from(owned).take(PROGRAM_BYTES as u64).read_to_end(&mut bytes).map_err(|e| e.to_string())?;
    Ok(bytes)
}

fn coverage(family: Family, first: u64, count: u64) -> Result<ExitCode, String> {
    match family {
        Family::Scenes => filled(Coverage::new(), first, count),
        Family::Repeats => filled(RepeatCoverage::new(), first, count),
        Family::Scans => filled(ScanCoverage::new(), first, count),
    }
}

fn filled(mut table: impl Table, first: u64, count: u64) -> Result<ExitCode, String> {
    for seed in first..first + count {
        table.run_seed(seed);
    }
    print(&table.text())?;
    let complete = table.never_reached().is_empty();
    Ok(if complete { ExitCode::SUCCESS } else { ExitCode::from(1) })
}

/// A digest of words, each folded in behind the last.
fn digest(words: impl Iterator<Item = u16>) -> u64 {
    words.fold(0, |d, word| (d * 65_599 + u64::from(word) + 1) % 4_294_967_291)
}

fn print_lines(family: Family, first: u64, count: u64) -> Result<(), String> {
    for seed in first..first + count {
        print(&seed_lines(family, seed))?;
    }
    Ok(())
}

/// The report, and a digest of the image's words followed by the memory's words.
fn seed_lines(family: Family, seed: u64) -> String {
    let (device, memory, report) = from_power_up(&family.trace(seed), family.budget(seed));
    let words = image(&device, &memory).into_iter().chain(memory);
    format!("{}\nDIGEST {:08x}\n", report_line(&report), digest(words))
}

/// The traces of some seeds in one file: each behind its length in four bytes and its budget in eight, high byte first.
fn stored(family: Family, first: u64, count: u64) -> Vec<u8> {
    let mut file = Vec::new();
    for seed in first..first + count {
        let trace = family.trace(seed);
        file.extend((trace.len() as u32).to_be_bytes());
        file.extend(family.budget(seed).to_be_bytes());
        file.extend(trace);
    }
    file
}
