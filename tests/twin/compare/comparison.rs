//! Twin and program side by side: each file replayed by both, and all that they print compared.

use std::io::Read;

use twin::replay::{replay, End};

use crate::counts::{Accepted, Refusals};
use crate::program::{Feed, Outcome, Program};
use crate::random::Random;
use crate::report::{hex, Report};

pub struct Comparison {
    pub random: Random,
    pub report: Report,
    pub program: Program,
    pub accepted: Accepted,
    pub refused: Refusals,
    pub records: u64,
    /// How often a replay came to each of its ends.
    ends: Vec<(End, u64)>,
}

impl Comparison {
    pub fn new(report: Report, program: Program) -> Self {
        Comparison {
            random: report.shared_random(),
            report,
            program,
            accepted: Accepted::default(),
            refused: Refusals::default(),
            records: 0,
            ends: [End::Whole, End::Cut, End::NotASession, End::Unreadable].map(|end| (end, 0)).to_vec(),
        }
    }

    /// Runs a group of comparisons and prints its line.
    pub fn group(&mut self, name: &str, run: impl FnOnce(&mut Comparison)) {
        self.random = self.report.start_group();
        run(self);
        self.report.end_group(name);
    }

    /// Replays a file by the program and by the twin.
    pub fn replay(&mut self, file: &[u8], feed: &Feed) {
        let due = self.due(file);
        let outcome = self.program.run(file, feed);
        self.compare(outcome, &due, || format!("{feed:?}, {}", hex(file)));
    }

    /// What the twin prints.
    pub fn due(&mut self, file: impl Read) -> Vec<u8> {
        let mut due = Vec::new();
        let replayed = replay(file, &mut due).expect("a vector takes all");
        self.records += replayed.records;
        for (end, count) in &mut self.ends {
            *count += u64::from(*end == replayed.end);
        }
        due
    }

    /// The whole output is the twin's, nothing else is said, and the exit status is 0.
    pub fn compare(&mut self, outcome: Result<Outcome, String>, due: &[u8], input: impl FnOnce() -> String) {
        self.report.inputs += 1;
        let fault = match outcome {
            Err(said) => Some(said),
            Ok(outcome) if outcome.output != due => Some(difference(&outcome.output, due)),
            Ok(outcome) if !outcome.errors.is_empty() => {
                Some(format!("standard error: {}", String::from_utf8_lossy(&outcome.errors)))
            }
            Ok(outcome) if !outcome.is_zero() => Some(outcome.status.to_string()),
            Ok(_) => None,
        };
        if let Some(said) = fault {
            self.report.expect(false, || format!("{said}: {}", input()));
        }
    }

    /// Counts of ends that fall short are failures.
    pub fn check_ends(&mut self, name: &str, often: u64) {
        let said: Vec<String> = self.ends.iter().map(|(end, count)| format!("{end:?} × {count}")).collect();
        let enough = self.ends.iter().all(|(_, count)| *count >= often);
        self.report.close(name, enough, &said.join(", "));
    }
}

/// The first line that differs.
fn difference(is: &[u8], due: &[u8]) -> String {
    let (mut is, mut due) = (is.split(|byte| *byte == b'\n'), due.split(|byte| *byte == b'\n'));
    for number in 1_u64.. {
        let (line, due_line) = (is.next(), due.next());
        if line != due_line || line.is_none() {
            return format!("line {number} is {}, not {}", shown(line), shown(due_line));
        }
    }
    unreachable!("there are fewer lines than numbers")
}

fn shown(line: Option<&[u8]>) -> String {
    match line {
        None => "missing".to_string(),
        Some(line) => format!("'{}'", String::from_utf8_lossy(&line[..line.len().min(60)])),
    }
}
