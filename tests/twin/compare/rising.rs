//! Compares `vermolgas_rising` with the twin: the answer in full, on lists at any address. Most lists come
//! with the answer that is due, and the twin is held to it. The seed may be given as the one argument; it
//! and all counts are printed, and counts that fall short are failures.

#[allow(dead_code, reason = "each program packs some kinds of answers")]
mod answers;
#[allow(dead_code, reason = "lists are made, and no other data")]
mod generate;
mod guarded;
mod judging;
mod lists;
#[allow(dead_code, reason = "each program draws some kinds of numbers")]
mod random;
mod report;
mod rising_library;

use std::process::ExitCode;

use judging::{Judging, LONGEST};
use report::Report;

fn main() -> ExitCode {
    let mut judging = match Report::from_arguments() {
        Ok(report) => Judging::new(report),
        Err(status) => return status,
    };
    judging.group("lists that rise", lists::that_rise);
    judging.group("each entry beside its neighbours", lists::one_entry);
    judging.group("each two entries at fault", lists::two_entries);
    judging.group("all entries from one on at fault", lists::many_entries);
    judging.group("the border between the lists", lists::border);
    judging.group("neighbours that differ in one byte or both", lists::one_byte);
    judging.group("every value of an entry", lists::every_value);
    judging.group("every length", lists::lengths);
    judging.group("NULL for an empty slice", lists::null_pointer);
    judging.group("random bytes", lists::random_bytes);
    judging.group("random faults", lists::random_faults);
    judging.group("random entries", lists::random_entries);
    check_counts(&mut judging);
    judging.report.finish()
}

/// Counts that fall short are failures.
fn check_counts(judging: &mut Judging) {
    let (counts, report) = (&judging.counts, &mut judging.report);
    let mut at_least = |name: &str, count: u64, least: u64| {
        report.close(name, count >= least, &format!("{count}, at least {least}"));
    };
    let different = |counts: &[u64]| counts.iter().filter(|count| **count > 0).count() as u64;
    at_least("rising as is due", counts.rising, 300_000);
    // The first entry of each list has none before it.
    at_least("entries at fault", different(&counts.by_entry), 92);
    let named = counts.by_entry.iter().filter(|count| **count > 0);
    at_least("faults at each of them", named.min().copied().unwrap_or(0), 5_000);
    // Every one but that of the lists, and longer ones.
    at_least("lengths refused", different(&counts.by_length), LONGEST as u64 + 1);
    let inputs = report.inputs;
    report.close("inputs in all", inputs >= 1_000_000, &format!("{inputs}"));
}
