//! Holds the library's compressor and splitter against the twin's, and against what they are for.

use twin::compressor::{self, PAIRS_BYTES};
use twin::fields::Word;
use twin::front_end::{self, Memory};
use twin::packet::LONGEST;
use twin::refusal::Refusal;
use twin::runs::{self, Pair};
use twin::settings::GAINS;
use twin::splitter::{self, Split, BATCH_BYTES};

use crate::guarded::Guarded;
use crate::library::{Library, LIBRARY};
use crate::random::Random;
use crate::report::{hex, Report};

/// The longest buffer lent that is filled.
pub const LARGEST: usize = 0x2_0000;

/// The bytes of a packet of 250 words.
pub const FULL_PACKET: usize = 510;

#[derive(Default)]
pub struct Counts {
    /// Lists compressed, by their number of gains.
    pub by_gains: Vec<u64>,
    /// Lists split, by their number of pairs.
    pub by_pairs: Vec<u64>,
    /// Splits by their colour.
    pub by_colour: [u64; 4],
    /// Packets sent to the library's front end and to the twin's.
    pub sent: u64,
    /// Lists of pairs that a compressed one was held against.
    pub lists: u64,
    /// Gains that were compressed, split and sent.
    pub round_trips: u64,
    /// Refusals of the compressor and of the splitter, by their number.
    pub compress_refused: [u64; 13],
    pub split_refused: [u64; 13],
}

pub struct Packing {
    pub random: Random,
    pub counts: Counts,
    pub report: Report,
    pub entries: Library,
    /// What lent buffers and tables hold before a call.
    filling: Vec<u8>,
}

impl Packing {
    pub fn new(report: Report) -> Self {
        let mut random = report.shared_random();
        let filling = random.bytes(2 * LARGEST);
        let by_count = vec![0; GAINS + 1];
        let counts = Counts { by_gains: by_count.clone(), by_pairs: by_count, ..Counts::default() };
        Packing { random, counts, report, entries: LIBRARY, filling }
    }

    /// Runs a group of comparisons and prints its line.
    pub fn group(&mut self, name: &str, run: impl FnOnce(&mut Packing)) {
        self.random = self.report.start_group();
        run(self);
        self.report.end_group(name);
    }

    pub fn expect(&mut self, holds: bool, what: impl FnOnce() -> String) {
        self.report.expect(holds, what);
    }

    fn guarded(&mut self, length: usize) -> Guarded {
        Guarded::new(&mut self.random, &self.filling, length)
    }

    /// A list that is only read, with what it has to be after the call.
    fn listed(&mut self, bytes: &[u8]) -> (Guarded, Guarded) {
        let list = if bytes.len() < LARGEST {
            Guarded::of(&mut self.random, &self.filling, bytes)
        } else {
            Guarded::of(&mut self.random, &vec![0; bytes.len() + 0x100], bytes)
        };
        (list.clone(), list)
    }

    /// Whether a buffer is as it has to be.
    fn expect_same(&mut self, name: &str, is: &Guarded, due: &Guarded, input: impl FnOnce() -> String) {
        if let Some(difference) = is.difference(due) {
            self.report.expect(false, || format!("{name} have {difference}: {}", input()));
        }
    }

    /// `vermolgas_compress` into so many bytes against the twin: the answer, and every byte lent or
    /// around it. Gives the twin's pairs.
    fn compress(&mut self, gains: &[u8], room: usize) -> Result<Vec<Pair>, Refusal> {
        self.report.inputs += 1;
        let (mut lent, lent_due) = self.listed(gains);
        let mut due_pairs = self.guarded(room);
        let mut pairs = due_pairs.clone();
        let expected = compressor::compress(gains, due_pairs.lent());
        let answer = self.entries.compress(lent.lent(), pairs.lent());
        let due = expected.map_or_else(|refusal| refusal.number().into(), |count| (count as u64) << 8);
        let input = || format!("{room} bytes, gains {}", hex(gains));
        self.expect(answer == due, || format!("compress gives {answer:#x}, not {due:#x}: {}", input()));
        self.expect_same("gains", &lent, &lent_due, input);
        self.expect_same("pairs", &pairs, &due_pairs, input);
        match expected {
            Ok(count) => {
                self.counts.by_gains[gains.len() / 2] += 1;
                let list = pairs.lent()[..4 * count].as_chunks().0.to_vec();
                self.judge_pairs(gains, &list);
                Ok(list)
            }
            Err(refusal) => {
                self.counts.compress_refused[usize::from(refusal.number())] += 1;
                Err(refusal)
            }
        }
    }

    /// The pairs stand for the gains, and each goes as far as its gain does: so there are no fewer.
    fn judge_pairs(&mut self, gains: &[u8], pairs: &[Pair]) {
        let expanded = expanded(pairs);
        let whole = expanded.as_flattened() == gains;
        let changes =
            gains.chunks(2).zip(gains.chunks(2).skip(1)).filter(|(gain, next)| gain != next).count();
        self.expect(whole && pairs.len() == changes + 1, || {
            format!("{} pairs for {changes} changes of gains {}", pairs.len(), hex(gains))
        });
    }

    /// A call that has to be accepted; gives the pairs.
    pub fn compressed(&mut self, gains: &[u8], room: usize) -> Vec<Pair> {
        let pairs = self.compress(gains, room);
        self.expect(pairs.is_ok(), || format!("twin: {pairs:?}, {room} bytes, gains {}", hex(gains)));
        pairs.unwrap_or_default()
    }

    /// A call that has to be refused.
    pub fn compress_refused(&mut self, gains: &[u8], room: usize, due: Refusal) {
        let refused = self.compress(gains, room);
        self.expect(refused == Err(due), || {
            format!("twin: {refused:?}, not {due:?}, {room} bytes, {}", hex(gains))
        });
    }

    /// `vermolgas_split` into so many bytes against the twin: the answer, and every byte lent or around
    /// it. What is accepted is read and sent.
    pub fn split(&mut self, colour: u32, start: u32, pairs: &[u8], room: usize) -> Result<Split, Refusal> {
        self.report.inputs += 1;
        let (mut lent, lent_due) = self.listed(pairs);
        let mut due_batch = self.guarded(room);
        let mut batch = due_batch.clone();
        let expected = splitter::split(colour, start, pairs, due_batch.lent());
        let answer = self.entries.split(colour, start, lent.lent(), batch.lent());
        let due = expected.map_or_else(
            |refusal| refusal.number().into(),
            |split| (split.packets as u64) << 8 | (split.bytes as u64) << 32,
        );
        let input = || format!("colour {colour}, start {start}, {room} bytes, pairs {}", hex(pairs));
        self.expect(answer == due, || format!("split gives {answer:#x}, not {due:#x}: {}", input()));
        self.expect_same("pairs", &lent, &lent_due, input);
        self.expect_same("packets", &batch, &due_batch, input);
        match expected {
            Ok(split) => self.judge_packets(colour, start, pairs, &batch.lent()[..split.bytes]),
            Err(refusal) => self.counts.split_refused[usize::from(refusal.number())] += 1,
        }
        expected
    }

    /// A call that has to be accepted.
    pub fn split_whole(&mut self, colour: u32, start: u32, pairs: &[u8], room: usize) {
        let split = self.split(colour, start, pairs, room);
        self.expect(split.is_ok(), || {
            format!("twin: {split:?}, colour {colour}, start {start}, {room} bytes, {}", hex(pairs))
        });
    }

    /// A call that has to be refused.
    pub fn split_refused(&mut self, colour: u32, start: u32, pairs: &[u8], room: usize, due: Refusal) {
        let refused = self.split(colour, start, pairs, room);
        self.expect(refused == Err(due), || {
            format!(
                "twin: {refused:?}, not {due:?}, colour {colour}, start {start}, {room} bytes, {}",
                hex(pairs)
            )
        });
    }

    /// The packets are writes of the pairs in order, each full with 250 words as long as there are so
    /// many, each going on behind the last; the front end takes them, and then holds the pairs' gains.
    fn judge_packets(&mut self, colour: u32, start: u32, pairs: &[u8], batch: &[u8]) {
        let list: &[Pair] = pairs.as_chunks().0;
        let gains = expanded(list);
        self.counts.by_pairs[list.len()] += 1;
        self.counts.by_colour[colour as usize] += 1;
        let mut carried: Vec<u8> = Vec::new();
        let mut next = start as usize;
        for packet in batch.chunks(FULL_PACKET) {
            let read = self.entries.read(packet);
            let size = packet.len() as u64 - 4;
            let due = 0x2B << 8 | 0x10 << 16 | 4 << 24 | size << 32;
            let [next_low, next_high] = (next as u16).to_le_bytes();
            let due_head = [1, colour as u8, (size / 2 - 3) as u8, 0, next_low, next_high];
            let right = read == due && packet[4..10] == due_head;
            self.expect(right, || format!("read as {read:#x}, not a write from {next} on: {}", hex(packet)));
            carried.extend(&packet[10..]);
            next += runs::length(packet[10..].as_chunks().0);
        }
        self.expect(carried == pairs && next == start as usize + gains.len(), || {
            format!("the packets carry other pairs, to {next}, than {}", hex(pairs))
        });
        self.send(colour, start, &gains, batch);
    }

    /// The packets through both front ends, on tables that hold anything: each is accepted without a
    /// reply, and these gains, of the colours named, are all that changes.
    fn send(&mut self, colour: u32, start: u32, gains: &[Word], batch: &[u8]) {
        let mut memory = Memory::default();
        for table in [&mut memory.staged, &mut memory.live, &mut memory.gains] {
            let from = self.random.below(LARGEST);
            let anything = &self.filling[from..][..table.len()];
            table.copy_from_slice(anything);
        }
        let (mut twin, mut due) = (memory.clone(), memory.clone());
        for third in (0..3).filter(|third| colour == 0 || colour == third + 1) {
            let place = 2 * (GAINS * third as usize + start as usize);
            due.gains[place..place + 2 * gains.len()].copy_from_slice(gains.as_flattened());
        }
        let mut reply = [0xAA; LONGEST];
        for packet in batch.chunks(FULL_PACKET) {
            let answer = self.entries.packet(packet, memory.lend(), &mut reply);
            let of_twin = front_end::packet(packet, twin.lend(), &mut reply);
            self.expect(answer == 0 && of_twin.status == 0 && of_twin.length == 0, || {
                format!("the front end answers {answer:#x}, the twin's {of_twin:?}: {}", hex(packet))
            });
            self.counts.sent += 1;
        }
        self.expect(memory == due && twin == due && reply == [0xAA; LONGEST], || {
            format!("the front end holds other gains: colour {colour}, {} from {start} on", gains.len())
        });
    }

    /// Gains compressed, split and sent, with rooms as long as they have to be or longer.
    pub fn round_trip(&mut self, colour: u32, start: u32, gains: &[u8]) {
        let room = PAIRS_BYTES + self.random.pick(&[0, 0, 1, 2, 3, 1000]);
        let pairs = self.compressed(gains, room);
        let room = BATCH_BYTES + self.random.pick(&[0, 0, 1, 2, 3, 1000]);
        self.split_whole(colour, start, pairs.as_flattened(), room);
        self.counts.round_trips += 1;
    }
}

/// The gains that pairs stand for, one after the other.
fn expanded(pairs: &[Pair]) -> Vec<Word> {
    let mut gains = Vec::new();
    for pair in pairs {
        for _ in 0..runs::run(pair) {
            gains.push(runs::gain(pair));
        }
    }
    gains
}
