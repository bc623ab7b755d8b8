//! Compares `vermolgas_compress` and `vermolgas_split` with the twin: the answer, pairs and packets in
//! full, and the bytes around each. Pairs are held against the gains that they stand for, and small ones
//! against every list of pairs. The packets are read by `vermolgas_read` and sent through
//! `vermolgas_packet` and the twin's front end; they have to give the gains, and nothing else. The seed
//! may be given as the one argument; it and all counts are printed, and counts that fall short are
//! failures.

mod compressing;
mod guarded;
#[allow(dead_code, reason = "each program calls some of the entries")]
mod library;
mod packing;
#[allow(dead_code, reason = "each program draws some kinds of numbers")]
mod random;
mod report;
mod splitting;

use std::process::ExitCode;

use packing::Packing;
use report::Report;
use twin::refusal::Refusal;
use twin::settings::GAINS;

fn main() -> ExitCode {
    let mut packing = match Report::from_arguments() {
        Ok(report) => Packing::new(report),
        Err(status) => return status,
    };
    packing.group("compress, by hand", compressing::by_hand);
    packing.group("compress, every number of gains", compressing::every_number);
    packing.group("compress, one change at every place", compressing::one_change);
    packing.group("compress, every list of up to 8 gains", compressing::every_list);
    packing.group("compress, number of gains refused", compressing::numbers_refused);
    packing.group("compress, gains refused", compressing::gains_refused);
    packing.group("compress, every short room", compressing::short_rooms);
    packing.group("compress, longer rooms", compressing::longer_rooms);
    packing.group("compress, NULL for an empty slice", compressing::null_pointers);
    packing.group("split, by hand", splitting::by_hand);
    packing.group("split, every number of pairs", splitting::every_number);
    packing.group("split, every start", splitting::every_start);
    packing.group("split, starts far past the table", splitting::far_starts);
    packing.group("split, sums that 16 and 32 bits lose", splitting::lost_sums);
    packing.group("split, more pairs than gains", splitting::too_many);
    packing.group("split, sizes refused", splitting::sizes_refused);
    packing.group("split, colours refused", splitting::colours_refused);
    packing.group("split, limits of runs and gains", splitting::limits);
    packing.group("split, order of refusals", splitting::order);
    packing.group("split, every short batch buffer", splitting::short_rooms);
    packing.group("split, longer batch buffers", splitting::longer_rooms);
    packing.group("split, NULL for an empty slice", splitting::null_pointers);
    packing.group("compress, split and send", splitting::round_trips);
    packing.group("smooth blends", splitting::blends);
    check_counts(&mut packing);
    packing.report.finish()
}

/// Counts that fall short are failures.
fn check_counts(packing: &mut Packing) {
    let (counts, report) = (&packing.counts, &mut packing.report);
    let mut at_least = |name: &str, count: u64, least: u64| {
        report.close(name, count >= least, &format!("{count}, at least {least}"));
    };
    let different = |counts: &[u64]| counts.iter().filter(|count| **count > 0).count() as u64;
    at_least("numbers of gains compressed", different(&counts.by_gains), GAINS as u64);
    at_least("compressed", counts.by_gains.iter().sum(), 20_000);
    at_least("numbers of pairs split", different(&counts.by_pairs), GAINS as u64);
    at_least("split", counts.by_pairs.iter().sum(), 15_000);
    for (colour, count) in counts.by_colour.iter().enumerate() {
        at_least(&format!("split for colour {colour}"), *count, 3_000);
    }
    at_least("packets sent", counts.sent, 80_000);
    at_least("lists of pairs held against a compressed one", counts.lists, 50_000);
    at_least("round trips", counts.round_trips, 4_000);
    let refused = [
        ("compress", &counts.compress_refused, &[Refusal::Range, Refusal::Lent][..]),
        ("split", &counts.split_refused, &[Refusal::Size, Refusal::Range, Refusal::PastTable, Refusal::Lent]),
    ];
    for (name, counts, refusals) in refused {
        for refusal in refusals.iter().map(|refusal| refusal.number()) {
            at_least(&format!("{name} refused with {refusal}"), counts[usize::from(refusal)], 700);
        }
    }
}
