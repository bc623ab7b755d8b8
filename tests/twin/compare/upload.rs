//! Holds the library's plans against the twin's and against what they are for.

use std::hint::black_box;
use std::ops::RangeInclusive;

use twin::block;
use twin::front_end::{Memory, MAP_BYTES};
use twin::packet::LONGEST;
use twin::planner::{
    self, packet_bytes, Lent, Planned, BATCH_BYTES, CHOICES_BYTES, MOST, PLAN_BYTES, ROOM_BYTES,
};
use twin::refusal::Refusal;
use twin::settings::{Point, POINTS};

use crate::guarded::Guarded;
use crate::library::{Library, LIBRARY};
use crate::mark;
use crate::random::Random;
use crate::report::Report;
use crate::rooms;

/// The longest buffer lent.
pub const LARGEST: usize = 0x1_0000 + 8031;

const COLUMNS: RangeInclusive<usize> = 2..=62;
const ROWS: RangeInclusive<usize> = 2..=32;

pub struct Counts {
    /// Plans by their number of points.
    pub by_points: Vec<u64>,
    /// Plans for a point of which several counts were cheapest.
    pub tied: u64,
    pub empty: u64,
    pub at_bound: u64,
    pub packets: u64,
    pub full_packets: u64,
    /// Packets that hold a point which doesn't differ.
    pub bridges: u64,
    /// Packets through `vermolgas_packet`.
    pub sent: u64,
    pub by_shape: [[u64; 33]; 63],
    /// Lists of packets that a plan was compared with.
    pub lists: u64,
    /// Plans for the points of another plan from one of them on.
    pub tails: u64,
    /// Plans with a longer room, with longer choices, with a longer batch buffer.
    pub longer: [u64; 3],
    /// Refusals 10 and 1.
    pub range: u64,
    pub lent: u64,
}

/// The lent lengths, in the order of the arguments.
#[derive(Clone, Copy, Debug, PartialEq, Eq)]
pub struct Lengths {
    pub held: usize,
    pub wanted: usize,
    pub plan: usize,
    pub room: usize,
    pub choices: usize,
    pub batch: usize,
}

impl Lengths {
    /// The right ones, room, choices and batch buffer no longer than they have to be.
    pub fn right(points: usize) -> Self {
        let map = size_of::<Point>() * points;
        let (room, choices, batch) = (ROOM_BYTES, CHOICES_BYTES, BATCH_BYTES);
        Lengths { held: map, wanted: map, plan: PLAN_BYTES, room, choices, batch }
    }

    /// The right ones, those of room, choices and batch buffer longer by so much.
    pub fn longer(points: usize, [room, choices, batch]: [usize; 3]) -> Self {
        let right = Lengths::right(points);
        let (room, choices, batch) = (right.room + room, right.choices + choices, right.batch + batch);
        Lengths { room, choices, batch, ..right }
    }
}

/// One side's plan, room, choices and batch.
type Written = [Guarded; 4];

/// What the library planned.
pub struct Outcome {
    /// Start and count of each packet.
    pub plan: Vec<(usize, usize)>,
    pub bytes: usize,
    /// The least bytes from each index on, as far as the room goes.
    pub room: Vec<u32>,
    /// For each point of a full map the count of a packet from there on.
    pub choices: Vec<u8>,
}

pub struct Upload {
    pub random: Random,
    pub counts: Counts,
    pub report: Report,
    pub entries: Library,
    /// What lent buffers hold before a call.
    filling: Vec<u8>,
    memory: Memory,
}

impl Upload {
    pub fn new(report: Report) -> Self {
        let mut random = report.shared_random();
        let filling = random.bytes(2 * LARGEST);
        let counts = Counts {
            by_points: vec![0; POINTS + 1],
            tied: 0,
            empty: 0,
            at_bound: 0,
            packets: 0,
            full_packets: 0,
            bridges: 0,
            sent: 0,
            by_shape: [[0; 33]; 63],
            lists: 0,
            tails: 0,
            longer: [0; 3],
            range: 0,
            lent: 0,
        };
        Upload { random, counts, report, entries: LIBRARY, filling, memory: Memory::default() }
    }

    /// Runs a group of comparisons and prints its line.
    pub fn group(&mut self, name: &str, run: impl FnOnce(&mut Upload)) {
        self.random = self.report.start_group();
        run(self);
        self.report.end_group(name);
    }

    pub fn expect(&mut self, holds: bool, what: impl FnOnce() -> String) {
        self.report.expect(holds, what);
    }

    /// `vermolgas_plan` against the twin: the answer, and every byte lent or around it. Gives the
    /// twin's answer, and what the library wrote.
    fn compare(
        &mut self,
        points: u32,
        held: &[u8],
        wanted: &[u8],
        lengths: Lengths,
    ) -> (Result<Planned, Refusal>, Written) {
        self.report.inputs += 1;
        let lent = [lengths.plan, lengths.room, lengths.choices, lengths.batch];
        let mut due_written = lent.map(|length| Guarded::new(&mut self.random, &self.filling, length));
        let mut written = due_written.clone();
        let expected = planner::plan(points, lend(held, wanted, &mut due_written));
        let answer = self.entries.plan(points, lend(held, wanted, &mut written));
        let due = plan_answer(expected);
        let input = || format!("{points} points, {lengths:?}, {}", differences(held, wanted));
        self.expect(answer == due, || format!("plan gives {answer:#x}, not {due:#x}: {}", input()));
        let names = ["plan", "room", "choices", "batch"];
        for (name, (written, due)) in names.iter().zip(written.iter().zip(&due_written)) {
            if let Some(difference) = written.difference(due) {
                self.expect(false, || format!("{name} has {difference}: {}", input()));
            }
        }
        (expected, written)
    }

    /// A call that has to be refused, with nothing changed.
    pub fn refused(&mut self, points: u32, held: &[u8], wanted: &[u8], lengths: Lengths, due: Refusal) {
        let maps = [held.to_vec(), wanted.to_vec()];
        let (expected, _) = self.compare(points, held, wanted, lengths);
        self.expect(expected == Err(due), || format!("twin: {expected:?} for {points} points, {lengths:?}"));
        self.expect(maps == [black_box(held), black_box(wanted)], || {
            format!("a map is written: {points} points, {lengths:?}")
        });
        match due {
            Refusal::Range => self.counts.range += 1,
            _ => self.counts.lent += 1,
        }
    }

    /// A call with the right lengths, or longer ones where those are taken. What comes of it is judged
    /// apart from the twin, too.
    pub fn plan(&mut self, held: &[u8], wanted: &[u8]) -> Outcome {
        let more = [(); 3].map(|()| match self.random.below(4) {
            0 | 1 => 0,
            2 => self.random.below(10),
            _ => self.random.pick(&[10, 16, 508, 999, 7432]),
        });
        self.plan_lent(held, wanted, Lengths::longer(held.len() / 4, more))
    }

    pub fn plan_lent(&mut self, held: &[u8], wanted: &[u8], lengths: Lengths) -> Outcome {
        let points = held.len() / 4;
        let maps = [held.to_vec(), wanted.to_vec()];
        let (expected, mut written) = self.compare(points as u32, held, wanted, lengths);
        self.expect(maps == [black_box(held), black_box(wanted)], || {
            format!("a map is written: {points} points")
        });
        let Ok(planned) = expected else {
            self.expect(false, || format!("twin: {expected:?} for {points} points, {lengths:?}"));
            return Outcome { plan: vec![], bytes: 0, room: vec![], choices: vec![] };
        };
        let outcome = outcome(planned, &mut written);
        let [_, _, _, batch] = &mut written;
        rooms::judge(self, held, wanted, &outcome);
        self.count_longer(lengths);
        self.count(held, wanted, &outcome);
        let bound = planner::most_bytes(points);
        self.expect(outcome.bytes <= bound, || format!("{} bytes for {points} points", outcome.bytes));
        match split(batch.lent(), &outcome) {
            Some(packets) => {
                self.read_all(held, wanted, &outcome, &packets);
                self.send_all(held, wanted, &packets);
            }
            None => self.expect(false, || {
                format!("the plan's counts don't give the batch: {}", differences(held, wanted))
            }),
        }
        outcome
    }

    fn count_longer(&mut self, lengths: Lengths) {
        let right = Lengths::right(0);
        let longer =
            [lengths.room > right.room, lengths.choices > right.choices, lengths.batch > right.batch];
        for (count, longer) in self.counts.longer.iter_mut().zip(longer) {
            *count += u64::from(longer);
        }
    }

    fn count(&mut self, held: &[u8], wanted: &[u8], outcome: &Outcome) {
        let (held, wanted) = (held.as_chunks::<4>().0, wanted.as_chunks::<4>().0);
        let counts = &mut self.counts;
        let points = held.len();
        counts.by_points[points] += 1;
        counts.packets += outcome.plan.len() as u64;
        counts.empty += u64::from(outcome.plan.is_empty());
        counts.at_bound += u64::from(outcome.bytes == planner::most_bytes(points));
        let bytes = rooms::chosen_bytes(&outcome.choices[..points]);
        let mut tied = false;
        for (start, count) in &outcome.plan {
            let (start, count) = (*start, *count);
            if count == 0 || start + count > points {
                continue;
            }
            counts.full_packets += u64::from(count == MOST);
            let places = start..start + count;
            counts.bridges += u64::from(places.into_iter().any(|place| held[place] == wanted[place]));
            let cost = |count: usize| bytes[start + count] + packet_bytes(count) as u32;
            let longest = MOST.min(points - start);
            tied |= (count + 1..=longest).any(|longer| cost(longer) == bytes[start]);
        }
        counts.tied += u64::from(tied);
    }

    /// The judge of rule 7.1: a packet read as a 34h write, with start + count at most N, sets its
    /// points. Every packet has to be such a write, the starts rise and nothing overlaps, and the last
    /// map is the one wanted.
    fn read_all(&mut self, held: &[u8], wanted: &[u8], outcome: &Outcome, packets: &[&[u8]]) {
        let mut map = held.to_vec();
        let mut end = 0;
        for (packet, (start, count)) in packets.iter().zip(&outcome.plan) {
            let (start, count) = (*start, *count);
            let fits = (1..=MOST).contains(&count) && start >= end && start + count <= held.len() / 4;
            let due = 0x34 << 8 | 0x10 << 16 | 4 << 24 | (2 + 4 * count as u64) << 32;
            let answer = LIBRARY.read(packet);
            if !fits || answer != due || word(packet[4], packet[5]) != start {
                return self.expect(false, || {
                    let input = differences(held, wanted);
                    format!("({start}, {count}), read as {answer:#x}, isn't its write: {input}")
                });
            }
            end = start + count;
            map[4 * start..4 * end].copy_from_slice(&packet[6..]);
        }
        self.expect(map == wanted, || {
            format!("the batch doesn't give the wanted map: {}", differences(held, wanted))
        });
    }

    /// The packets through the front end, if a shape has so many points: staged and live are held, and then
    /// staged is wanted, the rows that moved are marked, and no other byte is changed.
    fn send_all(&mut self, held: &[u8], wanted: &[u8], packets: &[&[u8]]) {
        let Some((columns, rows)) = self.shape(held.len() / 4) else { return };
        let reset = LIBRARY.reset(self.memory.lend());
        let set_shape = [0x14, 0x35, 5, 0, 0, columns as u8, 0, rows as u8, 0];
        let mut reply = [0xAA; LONGEST];
        let shaped = LIBRARY.packet(&set_shape, self.memory.lend(), &mut reply);
        self.expect((reset, shaped) == (0, 0), || format!("{columns} × {rows}: {reset:#x}, {shaped:#x}"));
        self.memory.staged.copy_from_slice(&self.filling[..MAP_BYTES]);
        self.memory.staged[..held.len()].copy_from_slice(held);
        self.memory.live.copy_from_slice(&self.memory.staged);
        let mut due = self.memory.clone();
        due.staged[..wanted.len()].copy_from_slice(wanted);
        let mark = mark::right(&due.block, &due.staged, &due.live);
        due.block[block::MARK].copy_from_slice(&mark.to_le_bytes());
        for packet in packets {
            let answer = LIBRARY.packet(packet, self.memory.lend(), &mut reply);
            self.expect(answer == 0, || format!("the front end answers {answer:#x}: {columns} × {rows}"));
        }
        let same = self.memory == due && reply == [0xAA; LONGEST];
        self.expect(same, || {
            format!("the front end holds another map, {columns} × {rows}: {}", differences(held, wanted))
        });
        self.counts.sent += packets.len() as u64;
        self.counts.by_shape[columns][rows] += 1;
    }

    /// A shape of so many points: the one sent least often so far.
    fn shape(&self, points: usize) -> Option<(usize, usize)> {
        let shapes = COLUMNS
            .filter(|columns| points.is_multiple_of(*columns))
            .map(|columns| (columns, points / columns));
        shapes
            .filter(|(_, rows)| ROWS.contains(rows))
            .min_by_key(|(columns, rows)| self.counts.by_shape[*columns][*rows])
    }
}

/// Every shape that 35h sets in mode 0.
pub fn shapes() -> impl Iterator<Item = (usize, usize)> {
    COLUMNS.flat_map(|columns| ROWS.map(move |rows| (columns, rows)))
}

fn word(low: u8, high: u8) -> usize {
    u16::from_le_bytes([low, high]).into()
}

fn lend<'a>(held: &'a [u8], wanted: &'a [u8], written: &'a mut Written) -> Lent<'a> {
    let [plan, room, choices, batch] = written.each_mut().map(Guarded::lent);
    Lent { held, wanted, plan, room, choices, batch }
}

/// What an answer and what was written say.
fn outcome(planned: Planned, written: &mut Written) -> Outcome {
    let [plan, room, choices, _] = written.each_mut().map(Guarded::lent);
    let entries = plan.as_chunks::<4>().0.iter().take(planned.packets);
    let numbers = room[..ROOM_BYTES].as_chunks().0.iter();
    Outcome {
        plan: entries.map(|[a, b, c, d]| (word(*a, *b), word(*c, *d))).collect(),
        bytes: planned.bytes,
        room: numbers.map(|number| u32::from_le_bytes(*number)).collect(),
        choices: choices[..CHOICES_BYTES].to_vec(),
    }
}

/// The answer of `vermolgas_plan`.
pub fn plan_answer(planned: Result<Planned, Refusal>) -> u64 {
    match planned {
        Ok(planned) => (planned.packets as u64) << 8 | (planned.bytes as u64) << 32,
        Err(refusal) => refusal.number().into(),
    }
}

/// The packets of a batch, by the plan's counts; none if they don't add up to its bytes.
fn split<'a>(batch: &'a [u8], outcome: &Outcome) -> Option<Vec<&'a [u8]>> {
    let mut rest = batch.get(..outcome.bytes)?;
    let mut packets = Vec::new();
    for (_, count) in &outcome.plan {
        let (packet, behind) = rest.split_at_checked(packet_bytes(*count))?;
        packets.push(packet);
        rest = behind;
    }
    rest.is_empty().then_some(packets)
}

/// Which points differ, in words.
pub fn differences(held: &[u8], wanted: &[u8]) -> String {
    let pairs = held.as_chunks::<4>().0.iter().zip(wanted.as_chunks().0);
    let differing: Vec<usize> =
        pairs.enumerate().filter(|(_, (a, b))| a != b).map(|(place, _)| place).collect();
    let shown: Vec<String> = differing.iter().take(20).map(usize::to_string).collect();
    let rest = if differing.len() > 20 { " ..." } else { "" };
    format!("{} of {} differ: {}{rest}", differing.len(), held.len() / 4, shown.join(" "))
}
