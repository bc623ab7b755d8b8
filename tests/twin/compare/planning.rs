//! Compares `vermolgas_plan` with the twin: the answer, plan, room, choices and batch in full, and the
//! bytes around each. Room and choices are held against what they mean, too. Each batch is read by
//! `vermolgas_read` and, where a shape has so many points, sent through `vermolgas_packet`; it has to
//! give the wanted map, and to mark the rows that moved. The seed may be given as the one argument; it
//! and all counts are printed, and counts that fall short are failures.

mod covers;
mod guarded;
#[allow(dead_code, reason = "each program calls some of the entries")]
mod library;
#[allow(dead_code, reason = "an upload has no other packets than its own")]
mod mark;
#[allow(dead_code, reason = "each program draws some kinds of numbers")]
mod random;
#[allow(dead_code, reason = "each program shows some of its inputs in hex")]
mod report;
mod rooms;
mod upload;
mod uploads;

use std::process::ExitCode;

use report::Report;
use twin::settings::POINTS;
use upload::Upload;

fn main() -> ExitCode {
    let mut upload = match Report::from_arguments() {
        Ok(report) => Upload::new(report),
        Err(status) => return status,
    };
    upload.group("bench plans", uploads::bench_plans);
    upload.group("every pattern of up to 12 points", uploads::every_pattern);
    upload.group("every cover of up to 9 points", covers::every_list);
    upload.group("overlaps, repeats and any order, up to 12 points", covers::any_order);
    upload.group("every pattern of up to 9 points, by its tails", rooms::small_tails);
    upload.group("larger maps by their tails", rooms::tails);
    upload.group("every number of points", uploads::every_number);
    upload.group("every density", uploads::densities);
    upload.group("runs of 120 to 130", uploads::runs);
    upload.group("all different, every second, every third", uploads::regular);
    upload.group("equal maps, the same bytes, overlapping maps", uploads::alike);
    upload.group("every shape", uploads::every_shape);
    upload.group("number of points refused", uploads::numbers_refused);
    upload.group("lent lengths", uploads::lengths);
    upload.group("every short room, all short choices", uploads::short_rooms);
    upload.group("longer rooms, choices and batches", uploads::longer_rooms);
    upload.group("NULL for an empty slice", uploads::null_pointers);
    check_counts(&mut upload);
    upload.report.finish()
}

/// Counts that fall short are failures.
fn check_counts(upload: &mut Upload) {
    let (counts, report) = (&upload.counts, &mut upload.report);
    let mut at_least = |name: &str, count: u64, least: u64| {
        report.close(name, count >= least, &format!("{count}, at least {least}"));
    };
    let numbers = counts.by_points.iter().filter(|count| **count > 0).count();
    at_least("numbers of points planned", numbers as u64, POINTS as u64);
    at_least("plans", counts.by_points.iter().sum(), 50_000);
    at_least("plans for over 1,000 points", counts.by_points[1001..].iter().sum(), 8_000);
    at_least("plans where more than one count is cheapest", counts.tied, 3_000);
    at_least("plans without a packet", counts.empty, 500);
    at_least("plans at the bound", counts.at_bound, 1_000);
    at_least("packets read", counts.packets, 1_000_000);
    at_least("packets of 126 points", counts.full_packets, 5_000);
    at_least("packets over a point that doesn't differ", counts.bridges, 100_000);
    at_least("packets sent to the front end", counts.sent, 200_000);
    let shapes = counts.by_shape.iter().flatten().filter(|count| **count > 0).count();
    at_least("shapes sent", shapes as u64, 61 * 31);
    at_least("lists held against a plan", counts.lists, 1_000_000);
    at_least("tails planned alone", counts.tails, 20_000);
    for (name, longer) in ["a longer room", "longer choices", "a longer batch"].iter().zip(counts.longer) {
        at_least(&format!("plans with {name}"), longer, 20_000);
    }
    at_least("refused with 10", counts.range, 1_000);
    at_least("refused with 1", counts.lent, 5_000);
}
