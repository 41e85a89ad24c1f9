//! What the comparisons with the reference model share.

use mirvacula::{Report, Stop};
use reference::trace;

/// How many random traces, captures or sliding sums: `NAME=n` in the environment sets another number.
pub fn number_of(name: &str, number: u64) -> u64 {
    std::env::var(name).ok().and_then(|n| n.parse().ok()).unwrap_or(number)
}

/// Compares seed after seed and tells all differences at the end.
pub fn all_agree(seeds: u64, compare: impl Fn(u64) -> Result<(), String>) {
    let differences: Vec<String> = (0..seeds).filter_map(|seed| compare(seed).err()).collect();
    assert!(differences.is_empty(), "{} differences:\n{}", differences.len(), differences.join("\n"));
}

/// The reference model's report, in the library's words.
#[allow(dead_code)] // captures and sliding sums are compared without one
pub fn expected(report: trace::Report) -> Report {
    let trace::Report { stop, next, ticks, records, refused } = report;
    let stop = match stop {
        trace::Stop::End => Stop::End,
        trace::Stop::Spent => Stop::Spent,
        trace::Stop::Refused(number) => Stop::Refused(number.into()),
    };
    Report { stop, next, ticks, records, refused }
}
