//! Compares the program that VERMOLGAS_REPLAY names with the twin's replay: its whole output, its exit
//! status and its silence on standard error, over files that are handed to it in many ways, and over
//! inputs and outputs that fail. The seed may be given as the one argument; it and all counts are
//! printed, and counts that fall short are failures.

mod comparison;
#[allow(dead_code, reason = "each program counts some of its inputs")]
mod counts;
mod failing;
mod fitting;
mod generate;
mod program;
mod random;
#[allow(dead_code, reason = "each program makes some kinds of packets")]
mod recipe;
mod recording;
mod replaying;
mod report;
#[allow(dead_code, reason = "what a file shows is for the index")]
mod session_files;

use std::process::ExitCode;

use comparison::Comparison;
use program::Program;
use report::Report;
use twin::refusal::Refusal;

/// Runs of the program, at least.
const FILES: u64 = 5000;

/// Records replayed by both, at least.
const RECORDS: u64 = 500_000;

/// How often a replay comes to each of its ends, at least.
const ENDS: u64 = 100;

fn main() -> ExitCode {
    let report = match Report::from_arguments() {
        Ok(report) => report,
        Err(status) => return status,
    };
    let mut comparison = match Program::from_environment() {
        Ok(program) => Comparison::new(report, program),
        Err(said) => {
            println!("FAILED: {said}\n0 passed, 1 failed");
            return ExitCode::FAILURE;
        }
    };
    comparison.group("stored session files", replaying::stored);
    comparison.group("marks and versions", replaying::beginnings);
    comparison.group("cuts", replaying::cuts);
    comparison.group("lengths of records", replaying::record_lengths);
    comparison.group("cuts in long records", replaying::long_cuts);
    comparison.group("sessions of 10,000 records", replaying::long_sessions);
    comparison.group("300,000 records", replaying::many_records);
    comparison.group("few bytes at a time", replaying::slowly);
    comparison.group("windows", replaying::windows);
    comparison.group("lengths of reads", replaying::read_lengths);
    comparison.group("long outputs", replaying::long_outputs);
    comparison.group("garbage", replaying::garbage);
    comparison.group("an endless input", failing::endless_zeros);
    comparison.group("unreadable inputs", failing::unreadable);
    comparison.group("a full device", failing::full_device);
    comparison.group("an output that fails once", failing::fails_once);
    comparison.group("a reader that has gone", failing::reader_gone);
    comparison.group("lines as they are made", failing::as_it_is_made);
    comparison.group("fixed memory", failing::fixed_memory);
    check_counts(&mut comparison);
    comparison.report.finish()
}

/// Counts that fall short are failures.
fn check_counts(comparison: &mut Comparison) {
    let (report, accepted, refused) = (&mut comparison.report, &comparison.accepted, &comparison.refused);
    accepted.check(report, "accepted");
    let refusals = recipe::FAULTS.into_iter().chain([Refusal::PastTable]);
    refused.check(report, "refused", &Vec::from_iter(refusals));
    report.close("files in all", report.inputs >= FILES, &format!("{}", report.inputs));
    report.close("records in all", comparison.records >= RECORDS, &format!("{}", comparison.records));
    comparison.check_ends("ends", ENDS);
}
