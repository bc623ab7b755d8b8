//! Holds the library's answers and buffers against the twin's, and counts what was compared.

use twin::command::Opcode;
use twin::packet::{self, Header, Reading};
use twin::refusal::{Refusal, Refused};
use twin::reply::{self, Reply};

use crate::answers;
use crate::counts::{Accepted, Named, Refusals};
use crate::library::LIBRARY;
use crate::random::Random;
use crate::report::{hex, Report};

/// Bytes before and behind a lent buffer that must stay as they are.
const GUARD: usize = 16;

/// The longest buffer lent.
pub const LARGEST_ROOM: usize = 70_000;

#[derive(Default)]
pub struct Counts {
    pub read_accepted: Accepted,
    pub read_refused: Refusals,
    pub read_named: Named,
    pub make_accepted: Accepted,
    pub make_refused: Refusals,
    pub make_named: Named,
    /// By status, and whether a checksum was expected.
    pub reply_accepted: [[u64; 2]; 13],
    pub reply_refused: Refusals,
}

pub struct Bench {
    pub random: Random,
    pub counts: Counts,
    pub report: Report,
    /// What lent buffers hold before a call.
    filling: Vec<u8>,
}

impl Bench {
    pub fn new(report: Report) -> Self {
        let mut random = report.shared_random();
        let filling = random.bytes(2 * LARGEST_ROOM);
        Bench { random, counts: Counts::default(), report, filling }
    }

    /// Runs a group of comparisons and prints its line.
    pub fn group(&mut self, name: &str, run: impl FnOnce(&mut Bench)) {
        self.random = self.report.start_group();
        run(self);
        self.report.end_group(name);
    }

    pub fn expect(&mut self, holds: bool, what: impl FnOnce() -> String) {
        self.report.expect(holds, what);
    }

    /// `vermolgas_read` on a packet; gives the library's answer. One that is accepted is made again
    /// from its reading, and must come out the same.
    pub fn read(&mut self, packet: &[u8]) -> u64 {
        self.report.inputs += 1;
        let expected = packet::read(packet);
        let (answer, due) = (LIBRARY.read(packet), read_answer(&expected));
        self.expect(answer == due, || format!("read gives {answer:#x}, not {due:#x}: {}", hex(packet)));
        self.judge_refusal("read", answer);
        match &expected {
            Ok(reading) => {
                self.counts.read_accepted.count(reading.command.opcode(), reading.header());
                self.make_again(packet, answer);
            }
            Err(refused) => {
                self.counts.read_refused.count(refused.number());
                if refused.refusal == Refusal::Range {
                    self.counts.read_named.count(packet[0], packet[1], refused.place);
                }
            }
        }
        answer
    }

    /// A refusal of reading or making has its number and, with 10 alone, a place; all else is clear.
    fn judge_refusal(&mut self, entry: &str, answer: u64) {
        let right = answers::upper_half_is_right(answer) && answers::middle_is_clear(answer);
        self.expect(right, || format!("{entry}: a refusal has no such bits: {answer:#x}"));
    }

    /// Makes a packet from what the library answered on reading it.
    fn make_again(&mut self, packet: &[u8], answer: u64) {
        let (opcode, options) = (answer >> 8 & 0xFF, answer >> 16 & 0xFF);
        let (offset, length) = ((answer >> 24 & 0xFF) as usize, (answer >> 32 & 0xFFFF) as usize);
        let Some(data) = packet.get(offset..offset + length) else {
            return self
                .expect(false, || format!("read gives a place outside: {answer:#x}, {}", hex(packet)));
        };
        let mut buffer = [0xAA; 512];
        let made = LIBRARY.make(opcode as u16, options as u8, data, &mut buffer);
        let (head, rest) = buffer.split_at(packet.len());
        let same =
            made == make_answer(&Ok(packet.len())) && head == packet && rest.iter().all(|b| *b == 0xAA);
        self.expect(same, || format!("made again, {made:#x}: {} from {}", hex(&buffer), hex(packet)));
    }

    /// `vermolgas_make` with a buffer of `room` bytes; gives the library's answer. A packet made is
    /// read back, and must give what it was made from.
    pub fn make(&mut self, opcode: u16, options: u8, data: &[u8], room: usize) -> u64 {
        self.report.inputs += 1;
        let start = self.random.below(LARGEST_ROOM - 2 * GUARD);
        let mut due_bytes = self.filling[start..start + room + 2 * GUARD].to_vec();
        let mut bytes = due_bytes.clone();
        let lent = GUARD..GUARD + room;
        let header = Header::from_byte(options);
        let expected = packet::make(header, opcode, data, &mut due_bytes[lent.clone()]);
        let answer = LIBRARY.make(opcode, options, data, &mut bytes[lent.clone()]);
        let due = make_answer(&expected);
        let input = || format!("opcode {opcode:#x}, options {options:#x}, room {room}, data {}", hex(data));
        self.expect(answer == due, || format!("make gives {answer:#x}, not {due:#x}: {}", input()));
        self.judge_refusal("make", answer);
        self.expect(bytes == due_bytes, || {
            format!("make leaves {}, not {}: {}", hex(&bytes[GUARD..]), hex(&due_bytes[GUARD..]), input())
        });
        match expected {
            Ok(length) => {
                let opcode = Opcode::find(opcode).expect("only opcodes carried are accepted");
                self.counts.make_accepted.count(opcode, header);
                let packet = &bytes[lent][..length];
                let place = header.options.data_offset();
                let due = read_fields(opcode.number(), options & 0xF8, place, data.len());
                let answer = LIBRARY.read(packet);
                self.expect(answer == due, || format!("read back as {answer:#x}, not {due:#x}: {}", input()));
                self.expect(packet[place..].starts_with(data), || format!("made of other data: {}", input()));
            }
            Err(refused) => {
                self.counts.make_refused.count(refused.number());
                if refused.refusal == Refusal::Range {
                    self.counts.make_named.count(options, opcode as u8, refused.place);
                }
            }
        }
        answer
    }

    /// `vermolgas_read_reply`; any number but 0 expects a checksum.
    pub fn read_reply(&mut self, bytes: &[u8], checksum_expected: u8) {
        self.report.inputs += 1;
        let with_checksum = checksum_expected != 0;
        let expected = reply::read(bytes, with_checksum);
        let (answer, due) = (LIBRARY.read_reply(bytes, checksum_expected), reply_answer(&expected));
        self.expect(answer == due, || {
            let input = hex(bytes);
            format!("read_reply gives {answer:#x}, not {due:#x}: checksum {checksum_expected}, {input}")
        });
        match expected {
            Ok(reply) => {
                let count = &mut self.counts.reply_accepted[usize::from(reply.status)];
                count[usize::from(with_checksum)] += 1;
            }
            Err(refusal) => self.counts.reply_refused.count(refusal.number()),
        }
    }
}

/// The fields of `vermolgas_read`'s answer: opcode, header bits 3 to 7, place of the data.
fn read_fields(opcode: u8, options: u8, offset: usize, length: usize) -> u64 {
    u64::from(opcode) << 8 | u64::from(options) << 16 | (offset as u64) << 24 | (length as u64) << 32
}

/// The answer of `vermolgas_read`.
pub fn read_answer(reading: &Result<Reading, Refused>) -> u64 {
    match reading {
        Ok(reading) => {
            let options = reading.header().byte() & 0xF8;
            let place = &reading.place;
            read_fields(reading.command.opcode().number(), options, place.start, place.len())
        }
        Err(refused) => answers::refused(refused),
    }
}

/// The answer of `vermolgas_make`.
pub fn make_answer(made: &Result<usize, Refused>) -> u64 {
    match made {
        Ok(length) => (*length as u64) << 8,
        Err(refused) => answers::refused(refused),
    }
}

/// The answer of `vermolgas_read_reply`.
pub fn reply_answer(reply: &Result<Reply, Refusal>) -> u64 {
    match reply {
        Ok(reply) => u64::from(reply.status) << 8 | (reply.data.len() as u64) << 16,
        Err(refusal) => refusal.number().into(),
    }
}
