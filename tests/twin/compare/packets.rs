//! Compares `vermolgas_read`, `vermolgas_make` and `vermolgas_read_reply` with the twin, answers
//! and buffers to the last byte. The seed may be given as the one argument; it and all counts are
//! printed, and counts that fall short are failures.

#[allow(dead_code, reason = "each program packs some kinds of answers")]
mod answers;
mod bench;
mod checksums;
mod counts;
mod faults;
mod generate;
#[allow(dead_code, reason = "each program calls some of the entries")]
mod library;
mod making;
mod naming;
mod random;
mod reading;
mod recipe;
mod replies;
mod report;

use std::process::ExitCode;

use bench::{make_answer, read_answer, reply_answer, Bench};
use counts::{check_inputs, OFTEN};
use faults::PLACES;
use library::WITH_NULL;
use report::Report;
use twin::command::Opcode;
use twin::packet::{self, Header};
use twin::reply;

fn main() -> ExitCode {
    let mut bench = match Report::from_arguments() {
        Ok(report) => Bench::new(report),
        Err(status) => return status,
    };
    bench.group("read and make, accepted", reading::accepted);
    bench.group("read, random bytes", reading::random_bytes);
    bench.group("read and make, every byte value", reading::every_byte);
    bench.group("read and make, limits", reading::limits);
    bench.group("read and make, lists of 35h", reading::lists);
    bench.group("read and make, gains of 2Bh", reading::gains);
    bench.group("read and make, pairs of 2Bh", reading::pairs);
    bench.group("read and make, sizes", reading::sizes);
    bench.group("read, damaged", reading::damaged);
    bench.group("read, checksums", checksums::of_packets);
    bench.group("read, 512 bytes and more", reading::long);
    bench.group("read, order of refusals", reading::order);
    for (name, cases) in PLACES {
        bench.group(&format!("read and make, places, {name}"), |bench| naming::read_and_make(bench, cases));
    }
    bench.group("make, opcodes and options", making::opcodes_and_options);
    bench.group("make, buffers", making::buffers);
    bench.group("make, sizes", making::sizes);
    bench.group("make, order of refusals", making::order);
    bench.group("make, random arguments", making::random_arguments);
    bench.group("read_reply, statuses", replies::statuses);
    bench.group("read_reply, damaged", replies::damaged);
    bench.group("read_reply, checksums", checksums::of_replies);
    bench.group("read_reply, 512 bytes and more", replies::long);
    bench.group("read_reply, order of refusals", replies::order);
    bench.group("read_reply, random bytes", replies::random_bytes);
    bench.group("NULL for an empty slice", null_pointers);
    check_counts(&mut bench);
    bench.report.finish()
}

/// NULL with length 0 is an empty slice.
fn null_pointers(bench: &mut Bench) {
    let mut answers = vec![("read", WITH_NULL.read(&[]), read_answer(&packet::read(&[])))];
    for checksum in [0, 1, 255] {
        let due = reply_answer(&reply::read(&[], checksum != 0));
        answers.push(("read_reply", WITH_NULL.read_reply(&[], checksum), due));
    }
    for opcode in Opcode::ALL {
        for options in 0..=255 {
            let (number, header) = (opcode.number().into(), Header::from_byte(options));
            let due = make_answer(&packet::make(header, number, &[0], &mut []));
            answers.push(("make, no buffer", WITH_NULL.make(number, options, &[0], &mut []), due));
            let (mut buffer, mut due_buffer) = ([0xAA; 600], [0xAA; 600]);
            let due = make_answer(&packet::make(header, number, &[], &mut due_buffer));
            answers.push(("make, no data", WITH_NULL.make(number, options, &[], &mut buffer), due));
            bench.expect(buffer == due_buffer, || format!("make without data of {number:#x}, {options:#x}"));
        }
    }
    for (name, answer, due) in answers {
        bench.report.inputs += 1;
        bench.expect(answer == due, || format!("{name} gives {answer:#x}, not {due:#x}"));
    }
}

/// Counts that fall short are failures.
fn check_counts(bench: &mut Bench) {
    let (counts, report) = (&bench.counts, &mut bench.report);
    counts.read_accepted.check(report, "accepted by read");
    counts.make_accepted.check(report, "accepted by make");
    let least = counts.reply_accepted.iter().flatten().min().copied().unwrap_or(0);
    let said = format!("each status 0 to 12, without and with a checksum, at least {least} times");
    report.close("accepted by read_reply", least >= OFTEN, &said);
    counts.read_refused.check(report, "refused by read", &recipe::FAULTS);
    counts.make_refused.check(report, "refused by make", &making::REFUSALS);
    counts.read_named.check(report, "places named by read", &faults::places());
    counts.make_named.check(report, "places named by make", &faults::places());
    counts.reply_refused.check(report, "refused by read_reply", &replies::REFUSALS);
    check_inputs(report);
}
