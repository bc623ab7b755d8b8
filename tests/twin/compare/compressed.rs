//! Groups on 2Bh writes with flag 1: sums of runs at every start, runs and gains at their limits,
//! counts, several faults at once, damage.

use std::iter;

use twin::refusal::Refusal;
use twin::runs::{self, Pair, LONGEST_RUN};
use twin::settings::GAINS;

use crate::generate::{fitting_pairs, gain};
use crate::recipe::Packet;
use crate::session::{Part, Session};
use crate::talking::expect_status;

/// The most pairs that a packet takes with every field present.
const MOST_PAIRS: usize = 125;

/// Flag, colour, count, start and words of a write. The count is that of the words there.
#[derive(Clone)]
struct Data {
    flag: u8,
    colour: u8,
    start: u16,
    words: Vec<u16>,
}

impl Data {
    fn new(colour: u8, start: u16, pairs: &[Pair]) -> Self {
        Data { flag: 1, colour, start, words: words(pairs) }
    }

    fn counted(&self, count: u16) -> Vec<u8> {
        let words: Vec<u8> = self.words.iter().flat_map(|word| word.to_le_bytes()).collect();
        [&[self.flag, self.colour], &count.to_le_bytes()[..], &self.start.to_le_bytes(), &words].concat()
    }

    fn packet(&self) -> Packet {
        Packet::new(0x14, 0x2B, self.counted(self.words.len() as u16))
    }
}

fn words(pairs: &[Pair]) -> Vec<u16> {
    let word = |[low, high]: [u8; 2]| u16::from_le_bytes([low, high]);
    pairs.iter().flat_map(|pair| [runs::run(pair), word(runs::gain(pair))]).collect()
}

/// Pairs of these runs, with any gains.
fn pairs_of(session: &mut Session, runs: impl IntoIterator<Item = usize>) -> Vec<Pair> {
    runs.into_iter().map(|run| runs::pair(run as u16, gain(&mut session.random))).collect()
}

/// Runs that have this sum: as few as there can be, or a few more; none if a packet has no room for them.
fn runs_of(session: &mut Session, sum: usize) -> Option<Vec<usize>> {
    let fewest = sum.div_ceil(LONGEST_RUN.into());
    let count = (fewest + session.random.pick(&[0, 0, 1, 2, 30])).min(sum);
    let (each, over) = (sum / count, sum % count);
    let even = (0..count).map(|place| each + usize::from(place < over)).collect();
    (count <= MOST_PAIRS).then_some(even)
}

/// Sends pairs; what is accepted has written them, told run by run, to the colours named and nowhere
/// else, and what is refused has written nothing.
fn send(session: &mut Session, colour: u8, start: u16, pairs: &[Pair], due: u8) {
    let mut table = session.bytes(Part::Gains).to_vec();
    expect_status(session, &Data::new(colour, start, pairs).packet().bytes(), due);
    if due == 0 {
        let gains = pairs.iter().flat_map(|pair| iter::repeat_n(runs::gain(pair), runs::run(pair).into()));
        let gains: Vec<u8> = gains.flatten().collect();
        for third in (0..3).filter(|third| colour == 0 || colour == third + 1) {
            let place = 2 * (GAINS * usize::from(third) + usize::from(start));
            table[place..place + gains.len()].copy_from_slice(&gains);
        }
    }
    let stands = session.bytes(Part::Gains) == table;
    session.expect(stands, || format!("other gains than {due} leaves: colour {colour}, {start}, {pairs:?}"));
}

/// From every start, and from those past the table: sums of runs under, at and over its end, and such
/// that 16 bits lose what is over.
pub fn every_start(session: &mut Session) {
    session.restart();
    let past = [2017, 2018, 4032, 0x7FFF, 0x8000, 0xF820, 0xFFFE, 0xFFFF];
    for (turn, start) in (0..=GAINS).chain(past).enumerate() {
        if turn % 64 == 0 {
            session.fill(Part::Gains, 0);
        }
        let left = GAINS.saturating_sub(start);
        let wrapped = 0x1_0000_usize.saturating_sub(start);
        let sums = [1, 2, left.saturating_sub(1), left, left + 1, left + 2, GAINS];
        let lost = [wrapped, wrapped + 1, wrapped + left, wrapped + GAINS];
        for (colour, sum) in (turn..).zip(sums.into_iter().chain(lost)) {
            send_sum(session, (colour % 4) as u8, start, sum);
        }
    }
}

/// Runs of this sum; none has the sum 0.
fn send_sum(session: &mut Session, colour: u8, start: usize, sum: usize) {
    let Some(runs) = (sum > 0).then(|| runs_of(session, sum)).flatten() else { return };
    let pairs = pairs_of(session, runs);
    send(session, colour, start as u16, &pairs, if start + sum <= GAINS { 0 } else { 12 });
}

/// Runs and gains at and past their limits, also where a byte or a bit of them is left out.
const RUNS: [u16; 10] = [0, 1, 2, 2015, 2016, 2017, 0x1000, 0x8001, 0xFF00, 0xFFFF];
const WORDS: [u16; 10] = [0, 1, 8190, 8191, 8192, 8193, 0x3FFF, 0x8000, 0xFF1F, 0xFFFF];

/// One run at and past its limits, and one gain, at each place of lists of several lengths.
pub fn limits(session: &mut Session) {
    session.restart();
    let lists = [1, 2, 3, 60, MOST_PAIRS].into_iter();
    for (count, place) in lists.flat_map(|count| (0..count).map(move |place| (count, place))) {
        let mut pairs = fitting_pairs(&mut session.random, count);
        let (run, gain) = (runs::run(&pairs[place]), runs::gain(&pairs[place]));
        let other_runs = RUNS.map(|other| runs::pair(other, gain));
        let other_gains = WORDS.map(|other| runs::pair(run, other.to_le_bytes()));
        for pair in other_runs.into_iter().chain(other_gains) {
            pairs[place] = pair;
            judge(session, &pairs);
        }
    }
}

/// Sends pairs from 0 on, judged here by each pair and by their sum.
fn judge(session: &mut Session, pairs: &[Pair]) {
    let words = words(pairs);
    let bad = words.chunks(2).any(|pair| pair[0] == 0 || pair[0] > 2016 || pair[1] > 8191);
    let sum: u32 = words.iter().step_by(2).map(|run| u32::from(*run)).sum();
    let due = if bad { 10 } else { 12 * u8::from(sum > 2016) };
    let colour = session.random.byte_within(0..=3);
    send(session, colour, 0, pairs, due);
}

/// Every number of words, with each flag and colour, and counts that are not that of the words.
pub fn counts(session: &mut Session) {
    session.restart();
    for there in 0..=253 {
        // Runs of 1 in whole pairs and in halves.
        let words = (0..there).map(|place| if place % 2 == 0 { 1 } else { 8191 }).collect();
        let data = Data { flag: 1, colour: 1, start: 7, words };
        flags_and_colours(session, &data);
        other_counts(session, &data);
    }
}

fn flags_and_colours(session: &mut Session, data: &Data) {
    let colours = [0, 1, 2, 3, 4, 5, 0x81, 255];
    let heads = [0, 1, 2, 3, 0x81, 255].into_iter().flat_map(|flag| colours.map(|colour| (flag, colour)));
    for (flag, colour) in heads {
        let data = Data { flag, colour, ..data.clone() };
        expect_status(session, &data.packet().bytes(), status_of(&data));
    }
}

fn other_counts(session: &mut Session, data: &Data) {
    for step in [1, 2, 256, 0x7FFF, 0x8000, 0x8002, 0xFFFE, 0xFFFF] {
        let count = (data.words.len() as u16).wrapping_add(step);
        let packet = Packet::new(0x14, 0x2B, data.counted(count)).bytes();
        let due = if packet.len() > 512 { Refusal::TooLong } else { Refusal::Size };
        expect_status(session, &packet, due.number());
    }
}

/// The status of words that are gains, and pairs, in range.
fn status_of(data: &Data) -> u8 {
    match data.words.len() {
        252.. => 3,
        count if data.flag == 1 && count % 2 == 1 => 9,
        0 => 10,
        _ if data.flag > 1 || data.colour > 3 => 10,
        _ => 0,
    }
}

/// A fault of a write with flag 1, with its refusal.
#[derive(Clone, Copy)]
enum Fault {
    Half,
    Colour,
    RunOf0,
    RunOver,
    Gain,
    Past,
}

impl Fault {
    const ALL: [Fault; 6] =
        [Fault::Half, Fault::Colour, Fault::RunOf0, Fault::RunOver, Fault::Gain, Fault::Past];

    fn refusal(self) -> u8 {
        match self {
            Fault::Half => 9,
            Fault::Past => 12,
            _ => 10,
        }
    }

    /// Puts the fault in; `places` are those of three different pairs.
    fn put(self, session: &mut Session, data: &mut Data, places: [usize; 3]) {
        let random = &mut session.random;
        match self {
            Fault::Half => data.words.truncate(data.words.len() - 1),
            Fault::Colour => data.colour = random.pick(&[4, 5, 128, 255]),
            Fault::RunOf0 => data.words[2 * places[0]] = 0,
            Fault::RunOver => data.words[2 * places[1]] = random.pick(&[2017, 4096, 0x8001, 0xFFFF]),
            Fault::Gain => data.words[2 * places[2] + 1] = random.pick(&[8192, 0x4000, 0x8000, 0xFFFF]),
            Fault::Past => data.start = random.pick(&[2016, 2017, 0x8000, 0xFFFF]),
        }
    }
}

/// Every set of faults: the refusal that comes first in the order is given, and nothing is written.
pub fn order(session: &mut Session) {
    session.restart();
    let sets = (1_usize..1 << Fault::ALL.len()).cycle().take(20_000);
    for set in sets {
        let count = 4 + session.random.below(MOST_PAIRS - 4);
        let pairs = fitting_pairs(&mut session.random, count);
        let mut data = Data::new(session.random.byte_within(0..=3), 0, &pairs);
        // The last pair may be cut in half.
        let first = session.random.below(count - 3);
        let faults: Vec<Fault> =
            (0..).zip(Fault::ALL).filter(|(bit, _)| set >> bit & 1 == 1).map(|(_, fault)| fault).collect();
        for fault in &faults {
            fault.put(session, &mut data, [first, first + 1, first + 2]);
        }
        let due = faults.iter().map(|fault| fault.refusal()).min().expect("a set has a fault");
        let before = session.bytes(Part::Gains).to_vec();
        expect_status(session, &data.packet().bytes(), due);
        let stays = session.bytes(Part::Gains) == before;
        session.expect(stays, || format!("gains are written before {due}"));
    }
}

/// Pairs at random that are accepted, and the same with one byte changed, each byte in turn.
pub fn damaged(session: &mut Session) {
    session.restart();
    for round in 0..120 {
        let count = 1 + session.random.below(if round % 4 == 0 { MOST_PAIRS } else { 6 });
        let pairs = fitting_pairs(&mut session.random, count);
        let last = GAINS - runs::length(&pairs);
        let start = session.random.word_within(0..=last as u16);
        let colour = session.random.byte_within(0..=3);
        send(session, colour, start, &pairs, 0);
        let packet = Data::new(colour, start, &pairs).packet().bytes();
        for place in 0..packet.len() {
            let mut changed = packet.clone();
            changed[place] ^= session.random.pick(&[1, 2, 0x10, 0x20, 0x80, 0xFF]);
            session.send(&changed);
        }
    }
}

/// Words at random as pairs, most of them refused, and pairs at random with any start.
pub fn random_pairs(session: &mut Session) {
    session.restart();
    for _ in 0..30_000 {
        let count = 1 + session.random.below(8);
        let words: Vec<u16> = (0..2 * count)
            .map(|place| session.random.word_within(0..=if place % 2 == 0 { 2017 } else { 8192 }))
            .collect();
        let (colour, start) = (session.random.byte_within(0..=4), session.random.word_within(0..=2016));
        session.send(&Data { flag: 1, colour, start, words }.packet().bytes());
        let count = 1 + session.random.below(MOST_PAIRS);
        let pairs = fitting_pairs(&mut session.random, count);
        let due = if usize::from(start) + runs::length(&pairs) > GAINS { 12 } else { 0 };
        send(session, colour % 4, start, &pairs, due);
    }
}
