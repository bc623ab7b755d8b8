//! Twin and library side by side, each on memory of its own, compared in full after each call.

use twin::block;
use twin::command::{Direction, Opcode};
use twin::front_end::{self, Answer, Lent, GAINS_BYTES, MAP_BYTES};
use twin::packet::{Header, LONGEST};
use twin::refusal::Refusal;
use twin::rows;

use crate::answers;
use crate::counts::{Accepted, Named, Refusals};
use crate::guarded::Guarded;
use crate::library::{Library, LIBRARY};
use crate::mark;
use crate::random::Random;
use crate::report::{hex, Report};
use crate::row_counts::RowCounts;

/// What is lent, in the order of the arguments.
#[derive(Clone, Copy, Debug, PartialEq, Eq)]
pub enum Part {
    Block,
    Staged,
    Live,
    Gains,
    Reply,
}

impl Part {
    pub const ALL: [Part; 5] = [Part::Block, Part::Staged, Part::Live, Part::Gains, Part::Reply];

    /// The right length; of the reply buffer the least.
    pub fn length(self) -> usize {
        match self {
            Part::Block => block::BYTES,
            Part::Staged | Part::Live => MAP_BYTES,
            Part::Gains => GAINS_BYTES,
            Part::Reply => LONGEST,
        }
    }
}

/// Bytes before and behind a lent buffer that must stay as they are; an odd number, so that no
/// buffer is aligned.
const GUARD: usize = 17;

/// The longest buffer lent.
const LONGEST_BUFFER: usize = 80_000;

/// A lent buffer between its guards.
#[derive(Clone, PartialEq, Eq)]
struct Buffer(Vec<u8>);

impl Buffer {
    fn lent(&self) -> &[u8] {
        &self.0[GUARD..self.0.len() - GUARD]
    }

    fn lent_mut(&mut self) -> &mut [u8] {
        let end = self.0.len() - GUARD;
        &mut self.0[GUARD..end]
    }
}

/// The memory of one side.
#[derive(Clone, PartialEq, Eq)]
struct Side([Buffer; 5]);

impl Side {
    fn lend(&mut self) -> (Lent<'_>, &mut [u8]) {
        let [block, staged, live, gains, reply] = self.0.each_mut().map(Buffer::lent_mut);
        (Lent { block, staged, live, gains }, reply)
    }

    /// Block and tables.
    fn state(&self) -> &[Buffer] {
        &self.0[..4]
    }

    /// The block's bytes without a meaning.
    fn meaningless(&self) -> &[u8] {
        self.0[Part::Block as usize].lent().get(block::MEANINGLESS..).unwrap_or_default()
    }

    fn mark(&self) -> u32 {
        mark::of(self.0[Part::Block as usize].lent())
    }

    fn right_mark(&self) -> u32 {
        let [block, staged, live, ..] = self.0.each_ref().map(Buffer::lent);
        mark::right(block, staged, live)
    }
}

pub struct Session {
    pub random: Random,
    pub report: Report,
    pub accepted: Accepted,
    pub refused: Refusals,
    pub named: Named,
    /// How often compressed gains were accepted, by their colour.
    pub compressed: [u64; 4],
    /// What packets did to the row mark.
    pub rows: RowCounts,
    /// How the entries are called.
    pub entries: Library,
    twin: Side,
    library: Side,
    /// What buffers are filled from.
    filling: Vec<u8>,
}

impl Session {
    pub fn new(report: Report) -> Self {
        let mut random = report.shared_random();
        let filling = random.bytes(2 * LONGEST_BUFFER);
        let side = Side(Part::ALL.map(|part| Buffer(filling[..part.length() + 2 * GUARD].to_vec())));
        Session {
            random,
            report,
            accepted: Accepted::default(),
            refused: Refusals::default(),
            named: Named::default(),
            compressed: [0; 4],
            rows: RowCounts::default(),
            entries: LIBRARY,
            twin: side.clone(),
            library: side,
            filling,
        }
    }

    /// Runs a group of comparisons and prints its line.
    pub fn group(&mut self, name: &str, run: impl FnOnce(&mut Session)) {
        self.random = self.report.start_group();
        run(self);
        self.report.end_group(name);
    }

    pub fn expect(&mut self, holds: bool, what: impl FnOnce() -> String) {
        self.report.expect(holds, what);
    }

    /// What the library's side holds.
    pub fn bytes(&self, part: Part) -> &[u8] {
        self.library.0[part as usize].lent()
    }

    /// Puts bytes into a part of both sides.
    pub fn put(&mut self, part: Part, place: usize, bytes: &[u8]) {
        for side in [&mut self.twin, &mut self.library] {
            side.0[part as usize].lent_mut()[place..place + bytes.len()].copy_from_slice(bytes);
        }
    }

    /// Fills a part from `place` on with anything.
    pub fn fill(&mut self, part: Part, place: usize) {
        let start = self.random.below(LONGEST_BUFFER);
        for side in [&mut self.twin, &mut self.library] {
            let filled = &mut side.0[part as usize].lent_mut()[place..];
            filled.copy_from_slice(&self.filling[start..start + filled.len()]);
        }
    }

    /// `vermolgas_reset` on memory that holds anything; gives the twin's status.
    pub fn restart(&mut self) -> u8 {
        for part in Part::ALL {
            self.fill(part, 0);
        }
        self.report.inputs += 1;
        let answer = self.entries.reset(self.library.lend().0);
        let status = front_end::reset(self.twin.lend().0).map_or_else(|refusal| refusal.number(), |()| 0);
        self.expect(answer == status.into(), || format!("reset gives {answer:#x}, not {status}"));
        self.compare(|| "reset".to_string());
        status
    }

    /// Runs with other lengths lent; the right ones, and what they held, come back after it.
    pub fn with_lengths(&mut self, lengths: &[(Part, usize)], run: impl FnOnce(&mut Session)) {
        let before = (self.twin.clone(), self.library.clone());
        for (part, length) in lengths {
            for side in [&mut self.twin, &mut self.library] {
                let bytes = &mut side.0[*part as usize].0;
                // The bytes that fit remain, so that the length is all that is wrong.
                bytes.truncate(GUARD + length);
                let more = length + 2 * GUARD - bytes.len();
                bytes.extend(&self.filling[..more]);
            }
        }
        run(self);
        (self.twin, self.library) = before;
    }

    /// `vermolgas_packet`, and `vermolgas_read_reply` on the reply; gives the twin's answer.
    pub fn send(&mut self, packet: &[u8]) -> Answer {
        self.report.inputs += 1;
        self.fill(Part::Reply, 0);
        let lent_packet = packet.to_vec();
        let (lent, reply) = self.library.lend();
        let answer = self.entries.packet(&lent_packet, lent, reply);
        self.expect(lent_packet == packet, || format!("writes into its packet {}", hex(packet)));
        // The twin has yet to take the packet, so its memory is what both sides held before.
        let is_read = packet.first().is_some_and(|header| header & 0x80 != 0);
        let changed = self.library.state() != self.twin.state();
        self.expect(!changed || answer & 0xFF == 0 && !is_read, || {
            format!("changes what is lent, answer {answer:#x}: {}", hex(packet))
        });
        let changed = self.library.meaningless() != self.twin.meaningless();
        self.expect(!changed, || format!("changes block bytes without a meaning: {}", hex(packet)));
        self.judge_refusal(packet, answer);
        self.judge_mark(packet, answer);

        let (lent, reply) = self.twin.lend();
        let due = front_end::packet(packet, lent, reply);
        let due_number = answers::packet(due);
        self.expect(answer == due_number, || {
            format!("packet gives {answer:#x}, not {due_number:#x}: {}", hex(packet))
        });
        self.compare(|| format!("packet {}", hex(packet)));
        self.count(packet, due);
        self.read_reply(packet, due);
        due
    }

    /// Every byte of both sides, guards and the reply buffer behind the reply included. After a
    /// difference both go on from the twin's.
    fn compare(&mut self, call: impl FnOnce() -> String) {
        if self.library == self.twin {
            return;
        }
        let differences = Part::ALL.into_iter().filter_map(|part| {
            let (is, due) = (&self.library.0[part as usize].0, &self.twin.0[part as usize].0);
            let place = is.iter().zip(due).position(|(is, due)| is != due)?;
            let byte = place as isize - GUARD as isize;
            Some(format!("{part:?} byte {byte} is {:02X}, not {:02X}", is[place], due[place]))
        });
        let differences: Vec<String> = differences.collect();
        self.report.expect(false, || format!("{}: {}", differences.join("; "), call()));
        self.library.clone_from(&self.twin);
    }

    /// What the library says of a refusal by itself: a place stands in the answer with 10 alone, and the
    /// same place is the data of the reply; any other refusal's reply has none.
    fn judge_refusal(&mut self, packet: &[u8], answer: u64) {
        self.expect(answers::upper_half_is_right(answer), || {
            format!("a refusal has no such bits: {answer:#x}, {}", hex(packet))
        });
        let (status, length) = (answer as u8, (answer >> 8 & 0xFFFF) as usize);
        if status == 0 || length == 0 {
            return;
        }
        let data = answers::place(answer).map_or(vec![], |place| place.to_le_bytes().to_vec());
        let head = [status, data.len() as u8, 0];
        let checksum = usize::from(packet[0] >> 5 & 1);
        let reply = self.bytes(Part::Reply);
        let right = reply.starts_with(&[&head[..], &data].concat()) && length == 3 + data.len() + checksum;
        self.expect(right, || {
            format!("answer {answer:#x} with a reply of {length} bytes and other data: {}", hex(packet))
        });
    }

    /// What the library does to the row mark by itself, told point by point: an accepted packet works out
    /// the rows that it touches and leaves the others. So a right mark stays right. What is refused changes
    /// nothing at all.
    fn judge_mark(&mut self, packet: &[u8], answer: u64) {
        let lengths_are_right = Part::ALL.into_iter().all(|part| self.bytes(part).len() >= part.length());
        if answer as u8 != 0 || !lengths_are_right {
            return;
        }
        let [before, after] = [&self.twin, &self.library].map(Side::mark);
        let touched = mark::touched(packet, self.bytes(Part::Block));
        if touched == 0 {
            return self.expect(after == before, || format!("the mark becomes {after:#x}: {}", hex(packet)));
        }
        let [right_before, right] = [&self.twin, &self.library].map(Side::right_mark);
        let due = before & !touched | right & touched;
        self.expect(after == due, || format!("the mark is {after:#x}, not {due:#x}: {}", hex(packet)));
        self.expect(before != right_before || after == right, || {
            format!("the mark was right, and is {after:#x}, not {right:#x}: {}", hex(packet))
        });
    }

    /// The row mark, and the one that would be right.
    pub fn marks(&self) -> [u32; 2] {
        [self.library.mark(), self.library.right_mark()]
    }

    /// `vermolgas_rows` on these bytes, which it leaves as they are. The twin looks at row after row; the
    /// machine's own counts of bits have to give the same.
    pub fn rows_of(&mut self, bytes: &[u8]) {
        self.report.inputs += 1;
        let mut lent = Guarded::of(&mut self.random, &self.filling, bytes);
        let before = lent.clone();
        let (answer, due) = (self.entries.rows(lent.lent()), answers::rows(rows::rows(bytes)));
        self.expect(answer == due, || format!("rows gives {answer:#x}, not {due:#x}: {} bytes", bytes.len()));
        let mark = (bytes.len() == block::BYTES).then(|| mark::of(bytes));
        let counted = mark.map_or(1, |mark| mark.count_ones() << 8 | mark.trailing_zeros() << 16);
        self.expect(answer == counted.into(), || format!("rows gives {answer:#x}, counted {counted:#x}"));
        if let Some(difference) = lent.difference(&before) {
            self.expect(false, || format!("rows changes its block: {difference}"));
        }
    }

    fn count(&mut self, packet: &[u8], answer: Answer) {
        if answer.status != 0 {
            self.refused.count(answer.status);
            if answer.status == Refusal::Range.number() {
                self.named.count(packet[0], packet[1], answer.place);
            }
        } else if let Some(opcode) = Opcode::find(packet[1].into()) {
            let header = Header::from_byte(packet[0]);
            self.accepted.count(opcode, header);
            let data = &packet[header.options.data_offset()..];
            if (opcode, header.direction, data.first()) == (Opcode::Gains, Direction::Write, Some(&1)) {
                self.compressed[usize::from(data[1])] += 1;
            }
        }
    }

    /// Rule 3.6: each reply that was written reads back as it was meant.
    fn read_reply(&mut self, packet: &[u8], answer: Answer) {
        if answer.length == 0 {
            return;
        }
        let checksum = packet[0] >> 5 & 1;
        let reply = &self.bytes(Part::Reply)[..answer.length];
        let size = answer.length - 3 - usize::from(checksum);
        let (read, due) =
            (self.entries.read_reply(reply, checksum), u64::from(answer.status) << 8 | (size as u64) << 16);
        self.expect(read == due, || {
            format!("the reply reads back as {read:#x}, not {due:#x}: {}", hex(packet))
        });
    }
}
