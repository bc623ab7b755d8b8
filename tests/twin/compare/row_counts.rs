//! What was tried on the row mark: kinds of packets on kinds of marks, each of which has to come up.

use crate::mark;
use crate::report::Report;

/// How often each kind comes up, at least, and each refusal of a packet on a mark that is not 0.
const OFTEN: u64 = 300;

/// How often 34h writes are accepted on each number of columns, at least, and on each number of rows.
const SHAPED: u64 = 100;

/// Shape and marks of a state.
#[derive(Clone, Copy)]
pub struct Marked {
    pub mode: u8,
    pub shape: [usize; 2],
    /// As it lies in the block.
    pub mark: u32,
    pub right: u32,
}

impl Marked {
    fn wrong(&self) -> u32 {
        self.mark ^ self.right
    }

    /// The bits past the last row of this one's shape.
    fn past_rows(&self) -> u32 {
        u32::MAX.checked_shl(self.shape[1] as u32).unwrap_or(0)
    }

    fn points(&self) -> usize {
        self.shape[0] * self.shape[1]
    }
}

/// One packet, and the states around it.
pub struct Seen<'a> {
    pub packet: &'a [u8],
    pub status: u8,
    pub before: Marked,
    pub after: Marked,
    /// The bits that it worked out.
    pub touched: u32,
}

impl Seen<'_> {
    /// Whether this is an accepted write of an opcode, and its data is so.
    fn writes(&self, opcode: u8, is_so: impl Fn(&[u8]) -> bool) -> bool {
        self.status == 0 && mark::write(self.packet).is_some_and(|(own, data)| own == opcode && is_so(data))
    }

    /// Whether this is an accepted 34h write, and its first and last point are so, told in columns.
    fn points(&self, are_so: impl Fn(usize, usize, usize) -> bool) -> bool {
        self.writes(0x34, |data| {
            let [start, count] = mark::points(data);
            are_so(start, start + count - 1, self.before.shape[0])
        })
    }

    /// Whether this is an accepted 34h write over so many rows.
    fn over(&self, rows: usize) -> bool {
        self.points(|first, last, columns| last / columns - first / columns + 1 == rows)
    }

    /// Whether this is an accepted 34h write, and some bit is so: one that it worked out, or another one.
    fn bit(&self, worked_out: bool, is_so: impl Fn(&Self) -> u32) -> bool {
        let among = if worked_out { self.touched } else { !self.touched };
        self.points(|_, _, _| true) && is_so(self) & among != 0
    }

    /// The same of a bit that it worked out, in mode 1: 62 × 32 by lists.
    fn listed(&self, is_so: impl Fn(&Self) -> u32) -> bool {
        self.before.mode == 1 && self.before.shape == [62, 32] && self.bit(true, is_so)
    }

    fn shape(&self, mode: u8, is_so: impl Fn(&Self) -> bool) -> bool {
        self.writes(0x35, |data| data[0] == mode) && is_so(self)
    }

    fn is_read(&self) -> bool {
        self.status == 0 && mark::write(self.packet).is_none()
    }

    fn is_other_write(&self) -> bool {
        let others = |(opcode, _): (u8, &[u8])| !(0x34..=0x36).contains(&opcode);
        self.status == 0 && mark::write(self.packet).is_some_and(others)
    }
}

/// A kind of packet by its name, and whether a packet is of it.
type Kind = (&'static str, fn(&Seen) -> bool);

const KINDS: [Kind; 39] = [
    ("34h of one point", |seen| seen.points(|first, last, _| first == last)),
    ("34h of 126 points", |seen| seen.points(|first, last, _| last - first == 125)),
    ("34h within a row", |seen| seen.over(1)),
    ("34h over two rows", |seen| seen.over(2)),
    ("34h over all 32 rows", |seen| seen.over(32)),
    ("34h from a row's first point", |seen| seen.points(|first, _, columns| first % columns == 0)),
    ("34h from a row's second point", |seen| seen.points(|first, _, columns| first % columns == 1)),
    ("34h from a row's last point", |seen| seen.points(|first, _, columns| first % columns == columns - 1)),
    ("34h to a row's first point", |seen| seen.points(|_, last, columns| last % columns == 0)),
    ("34h to a row's last point", |seen| seen.points(|_, last, columns| last % columns == columns - 1)),
    ("34h to a row's last but one", |seen| seen.points(|_, last, columns| last % columns == columns - 2)),
    ("34h into the first row", |seen| seen.points(|first, _, columns| first < columns)),
    ("34h into the last row", |seen| {
        seen.points(|_, last, columns| last / columns + 1 == seen.before.shape[1])
    }),
    ("34h marks a row", |seen| seen.bit(true, |seen| !seen.before.mark & seen.after.mark)),
    ("34h makes a row equal again", |seen| seen.bit(true, |seen| seen.before.right & !seen.after.right)),
    ("34h leaves a row different", |seen| seen.bit(true, |seen| seen.before.right & seen.after.right)),
    ("34h leaves a row equal", |seen| seen.bit(true, |seen| !seen.before.right & !seen.after.right)),
    ("34h clears a wrong bit", |seen| {
        seen.bit(true, |seen| seen.before.wrong() & seen.before.mark & !seen.after.mark)
    }),
    ("34h sets a bit that was missing", |seen| {
        seen.bit(true, |seen| seen.before.wrong() & !seen.before.mark & seen.after.mark)
    }),
    ("34h leaves a wrong bit of another row", |seen| {
        seen.bit(false, |seen| seen.before.wrong() & seen.before.mark & !seen.before.past_rows())
    }),
    ("34h leaves a bit of another row missing", |seen| {
        seen.bit(false, |seen| seen.before.wrong() & !seen.before.mark)
    }),
    ("34h leaves bits past the last row", |seen| {
        seen.bit(false, |seen| seen.before.mark & seen.before.past_rows())
    }),
    ("34h in mode 1", |seen| seen.listed(|_| u32::MAX)),
    ("34h in mode 1 makes a row equal again", |seen| {
        seen.listed(|seen| seen.before.right & !seen.after.right)
    }),
    ("34h on a right mark", |seen| seen.bit(true, |_| u32::MAX) && seen.before.wrong() == 0),
    ("35h, mode 0, to fewer points", |seen| seen.shape(0, |seen| seen.after.points() < seen.before.points())),
    ("35h, mode 0, to more points", |seen| seen.shape(0, |seen| seen.after.points() > seen.before.points())),
    ("35h, mode 0, to fewer rows", |seen| seen.shape(0, |seen| seen.after.shape[1] < seen.before.shape[1])),
    ("35h, mode 0, to more rows", |seen| seen.shape(0, |seen| seen.after.shape[1] > seen.before.shape[1])),
    ("35h, mode 1, to more points", |seen| seen.shape(1, |seen| seen.after.points() > seen.before.points())),
    ("35h clears bits past its last row", |seen| {
        seen.shape(0, |seen| seen.before.mark & seen.after.past_rows() != 0)
    }),
    ("35h mends a wrong mark, mode 0", |seen| seen.shape(0, |seen| seen.before.wrong() != 0)),
    ("35h mends a wrong mark, mode 1", |seen| seen.shape(1, |seen| seen.before.wrong() != 0)),
    ("35h moves the rows of a right mark", |seen| {
        seen.shape(0, |seen| seen.before.wrong() == 0 && ![0, seen.before.mark].contains(&seen.after.mark))
    }),
    ("36h of 1 on a right mark", |seen| {
        seen.writes(0x36, |data| data == [1]) && seen.before.mark != 0 && seen.before.wrong() == 0
    }),
    ("36h of 1 on a wrong mark", |seen| seen.writes(0x36, |data| data == [1]) && seen.before.wrong() != 0),
    ("36h of 0 on a mark", |seen| seen.writes(0x36, |data| data == [0]) && seen.before.mark != 0),
    ("a read on a wrong mark", |seen| seen.is_read() && seen.before.wrong() != 0),
    ("another write on a wrong mark", |seen| seen.is_other_write() && seen.before.wrong() != 0),
];

/// How often each kind came up.
pub struct RowCounts {
    kinds: [u64; KINDS.len()],
    refused: [u64; 13],
    /// Accepted 34h writes by columns and by rows.
    columns: [u64; 63],
    rows: [u64; 33],
    /// Of packets sent on two marks that differ: writes and reads accepted, and the others by refusal.
    unseen_accepted: [u64; 2],
    unseen_refused: [u64; 13],
}

impl Default for RowCounts {
    fn default() -> Self {
        RowCounts {
            kinds: [0; KINDS.len()],
            refused: [0; 13],
            columns: [0; 63],
            rows: [0; 33],
            unseen_accepted: [0; 2],
            unseen_refused: [0; 13],
        }
    }
}

impl RowCounts {
    pub fn count(&mut self, seen: &Seen) {
        for (count, (_, is_of)) in self.kinds.iter_mut().zip(KINDS) {
            *count += u64::from(is_of(seen));
        }
        if seen.before.mark != 0 {
            self.count_status(seen.status);
        }
        if seen.writes(0x34, |_| true) {
            let [columns, rows] = seen.before.shape;
            self.columns[columns] += 1;
            self.rows[rows] += 1;
        }
    }

    /// Counts a packet on a mark that is not 0.
    pub fn count_status(&mut self, status: u8) {
        self.refused[usize::from(status)] += 1;
    }

    /// Counts a packet that was sent on one state with two marks that differ.
    pub fn count_unseen(&mut self, packet: &[u8], status: u8) {
        match status {
            0 => self.unseen_accepted[usize::from(mark::write(packet).is_none())] += 1,
            _ => self.unseen_refused[usize::from(status)] += 1,
        }
    }

    /// Each kind came up, often enough.
    pub fn check(&self, report: &mut Report) {
        for (count, (name, _)) in self.kinds.iter().zip(KINDS) {
            report.close(&format!("row mark: {name}"), *count >= OFTEN, &format!("{count}"));
        }
        let refused = &self.refused[1..];
        let said = format!("{refused:?} by 1 to 12");
        report.close("row mark: refused on a mark", refused.iter().all(|count| *count >= OFTEN), &said);
        let [writes, reads] = self.unseen_accepted;
        let said = format!("{writes} writes, {reads} reads");
        report.close("row mark: accepted on two marks", writes.min(reads) >= OFTEN, &said);
        let refused = &self.unseen_refused[2..];
        let said = format!("{refused:?} by 2 to 12");
        report.close("row mark: refused on two marks", refused.iter().all(|count| *count >= OFTEN), &said);
        for (name, counts) in [("columns", &self.columns[2..]), ("rows", &self.rows[2..])] {
            let (least, most) = (counts.iter().min().copied().unwrap_or(0), counts.len() + 1);
            let said = format!("34h on each of 2 to {most} at least {least} times");
            report.close(&format!("row mark: {name}"), least >= SHAPED, &said);
        }
    }
}
