//! Holds `vermolgas_rising` against the twin, and the twin against what is due.

use crate::guarded::Guarded;
use crate::random::Random;
use crate::report::{hex, Report};
use crate::rising_library::{self, LIBRARY, TWIN};

/// Both lists: 62 entries for the columns, then 32 for the rows.
pub type Entries = [u16; 94];

/// The bytes of both lists.
pub const BYTES: usize = 188;

/// Every length up to this one is lent.
pub const LONGEST: usize = 400;

/// The longest lists lent, by far.
const LARGEST: usize = 0x2_0000;

/// What has to be answered. It is written down with the lists, and not taken from the twin.
#[derive(Clone, Copy, Debug, PartialEq, Eq)]
pub enum Due {
    Rising,
    /// The first entry that is not above the one before it.
    Fault(usize),
    Size,
}

impl Due {
    fn answer(self) -> u64 {
        match self {
            Due::Rising => 0,
            Due::Fault(entry) => 10 | (1 + 2 * entry as u64) << 32,
            Due::Size => 9,
        }
    }
}

pub struct Counts {
    pub rising: u64,
    /// Faults by their entry.
    pub by_entry: [u64; 94],
    /// Refusals for the size by their number of bytes; longer ones are the last.
    pub by_length: [u64; LONGEST + 2],
}

pub struct Judging {
    pub random: Random,
    pub counts: Counts,
    pub report: Report,
    /// What stands around lent lists.
    filling: Vec<u8>,
}

impl Judging {
    pub fn new(report: Report) -> Self {
        let mut random = report.shared_random();
        let filling = random.bytes(2 * LARGEST);
        let counts = Counts { rising: 0, by_entry: [0; 94], by_length: [0; LONGEST + 2] };
        Judging { random, counts, report, filling }
    }

    /// Runs a group of comparisons and prints its line.
    pub fn group(&mut self, name: &str, run: impl FnOnce(&mut Judging)) {
        self.random = self.report.start_group();
        run(self);
        self.report.end_group(name);
    }

    /// Lists of which it is known what is due.
    pub fn expect(&mut self, entries: &Entries, due: Due) {
        self.expect_bytes(&bytes(entries), due);
    }

    pub fn expect_bytes(&mut self, lists: &[u8], due: Due) {
        let answer = self.compare(lists);
        let right = due.answer();
        self.report.expect(answer == right, || {
            format!("twin gives {answer:#x}, not {right:#x} for {due:?}: {}", hex(lists))
        });
        match due {
            Due::Rising => self.counts.rising += 1,
            Due::Fault(entry) => self.counts.by_entry[entry] += 1,
            Due::Size => self.counts.by_length[lists.len().min(LONGEST + 1)] += 1,
        }
    }

    /// The library against the twin, on lists at any address that stay as they are. Gives the twin's
    /// answer.
    pub fn compare(&mut self, lists: &[u8]) -> u64 {
        self.report.inputs += 1;
        let before = Guarded::of(&mut self.random, &self.filling, lists);
        let mut lent = before.clone();
        let (answer, due) = (LIBRARY.rising(lent.lent()), TWIN.rising(lists));
        self.report
            .expect(answer == due, || format!("rising gives {answer:#x}, not {due:#x}: {}", hex(lists)));
        self.report.expect(lent == before, || {
            format!("lists have {}: {}", lent.difference(&before).unwrap_or_default(), hex(lists))
        });
        due
    }

    /// NULL with length 0 is an empty slice.
    pub fn null_pointer(&mut self) {
        self.report.inputs += 1;
        let (answer, due) = (rising_library::rising_of_null(), TWIN.rising(&[]));
        self.report.expect(answer == due, || format!("rising of NULL gives {answer:#x}, not {due:#x}"));
    }
}

pub fn bytes(entries: &Entries) -> Vec<u8> {
    entries.iter().flat_map(|entry| entry.to_le_bytes()).collect()
}
