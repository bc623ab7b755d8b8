//! Compares `vermolgas_reset`, `vermolgas_packet` and `vermolgas_rows` with the twin over long sessions:
//! after each call the answer and every lent byte, the reply buffer behind the reply and the bytes around
//! each buffer included. The seed may be given as the one argument; it and all counts are printed, and
//! counts that fall short are failures.

#[allow(dead_code, reason = "each program packs some kinds of answers")]
mod answers;
mod compressed;
mod counts;
mod faults;
mod fitting;
mod generate;
mod guarded;
mod lending;
#[allow(dead_code, reason = "each program calls some of the entries")]
mod library;
mod mark;
mod random;
mod recipe;
mod report;
mod row_counts;
mod rows;
mod session;
#[allow(dead_code, reason = "what a file prints is for its replay")]
mod session_files;
mod talking;
mod telling;

use std::process::ExitCode;

use faults::PLACES;
use report::Report;
use session::Session;
use twin::refusal::Refusal;

/// Compressed gains are accepted at least so often for each colour.
const COMPRESSED: u64 = 4_000;

fn main() -> ExitCode {
    let mut session = match Report::from_arguments() {
        Ok(report) => Session::new(report),
        Err(status) => return status,
    };
    session.group("scripts", talking::scripts);
    session.group("session files", talking::session_files);
    session.group("sessions", talking::sessions);
    session.group("start and count", talking::start_and_count);
    session.group("order of refusals", talking::order);
    session.group("apply, then anything", talking::apply);
    session.group("lists, smooth points and levels kept", talking::kept);
    session.group("gains", talking::gains);
    session.group("compressed gains, every start", compressed::every_start);
    session.group("compressed gains, limits of runs and gains", compressed::limits);
    session.group("compressed gains, counts, flags and colours", compressed::counts);
    session.group("compressed gains, order of refusals", compressed::order);
    session.group("compressed gains, damaged", compressed::damaged);
    session.group("compressed gains, random pairs", compressed::random_pairs);
    session.group("row mark, borders of rows", rows::borders);
    session.group("row mark, points in mode 1", rows::listed);
    session.group("row mark, many rows at once", rows::narrow);
    session.group("row mark, rows equal again", rows::equal_again);
    session.group("row mark, shapes", rows::shapes);
    session.group("row mark, apply", rows::apply);
    session.group("row mark, other packets", rows::others);
    session.group("row mark, refused", rows::refused);
    session.group("row mark, from reset", rows::from_reset);
    session.group("row mark, seen by no reply", rows::unseen);
    session.group("rows, every length", rows::lengths);
    session.group("rows, marks", rows::marks);
    for (name, cases) in PLACES {
        session.group(&format!("places, {name}"), |session| telling::send(session, cases));
    }
    session.group("random bytes", talking::random_bytes);
    session.group("lent lengths", lending::lengths);
    session.group("NULL for an empty slice", lending::null_pointers);
    session.group("every byte of the block", lending::every_byte);
    session.group("limits of the block's fields", lending::limits);
    session.group("entries of the block's lists", lending::lists);
    session.group("bytes without a meaning", lending::meaningless);

    let (report, accepted, refused) = (&mut session.report, &session.accepted, &session.refused);
    accepted.check(report, "accepted");
    let compressed = session.compressed;
    let said = format!("{compressed:?} for all colours and for each, at least {COMPRESSED} each");
    report.close("compressed gains accepted", compressed.iter().all(|count| *count >= COMPRESSED), &said);
    let refusals = recipe::FAULTS.into_iter().chain([Refusal::PastTable]);
    refused.check(report, "refused", &Vec::from_iter([Refusal::Lent].into_iter().chain(refusals)));
    session.named.check(report, "places named", &faults::places());
    session.rows.check(report);
    counts::check_inputs(report);
    report.finish()
}
