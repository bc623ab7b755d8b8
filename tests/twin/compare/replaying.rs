//! Groups of files that can be read to their end.

use twin::replay::{push_record, session, OPENING};
use twin::scripts::hex;

use crate::comparison::Comparison;
use crate::counts::{headers, OFTEN};
use crate::program::Feed;
use crate::random::Random;
use crate::recipe::Packet;
use crate::recording::Recording;
use crate::session_files;

/// The parts that are read one by one have at most so many bytes.
const LARGEST_PART: usize = 256;

/// Records of a long session, and of one that has more of them than any other number here.
const RECORDS: u64 = 10_000;
const MANY_RECORDS: usize = 300_000;

/// A read whose answer shows that a replay still knows where records begin.
const PROBE: [u8; 2] = [0x84, 0x11];

/// Sizes of parts by which few bytes come at a time.
fn few_bytes(random: &mut Random) -> [Feed; 5] {
    let any = (0..50).map(|_| 1 + random.below(LARGEST_PART)).collect();
    [vec![1], vec![2], vec![3], vec![7], any].map(Feed::Parts)
}

/// The stored session files, handed over in every way.
pub fn stored(comparison: &mut Comparison) {
    for file in session_files::all() {
        let due = comparison.due(&file.bytes[..]);
        comparison.report.expect(due == file.text.as_bytes(), || format!("twin: {}", file.name));
        comparison.replay(&file.bytes, &Feed::File);
        comparison.replay(&file.bytes, &Feed::Pipe(1000));
        for feed in few_bytes(&mut comparison.random) {
            comparison.replay(&file.bytes, &feed);
        }
    }
}

/// Every prefix of mark and version, and every other value of each of these bytes (rule 9.4).
pub fn beginnings(comparison: &mut Comparison) {
    let file = session(&[&hex("04 11 01")[..], &PROBE]);
    for length in 0..OPENING.len() + 1 {
        for feed in [Feed::File, Feed::Pipe(1), Feed::Parts(vec![1]), Feed::Parts(vec![2, 1])] {
            comparison.replay(&file[..length], &feed);
        }
    }
    for place in 0..OPENING.len() {
        for change in 1..=255 {
            let mut other = file.clone();
            other[place] ^= change;
            comparison.replay(&other, &Feed::File);
        }
        let mut other = file.clone();
        other[place] ^= 0x20;
        for feed in few_bytes(&mut comparison.random) {
            comparison.replay(&other, &feed);
        }
    }
}

/// Records by the hundred thousand, none of which has a byte, and a probe: their numbers, and their count.
pub fn many_records(comparison: &mut Comparison) {
    let mut file = session(&vec![[0; 0]; MANY_RECORDS]);
    push_record(&mut file, &PROBE);
    for feed in [Feed::File, Feed::Pipe(65_536), Feed::Pipe(999)] {
        comparison.replay(&file, &feed);
        comparison.replay(&file[..file.len() - 1], &feed);
    }
}

/// A short session cut at every byte, and others anywhere (rule 9.3).
pub fn cuts(comparison: &mut Comparison) {
    let packets =
        ["", "60", "04 11 01", "84 11", "", "C4 13", "64 11 04 52", "A4 34 00 00 02 00 E0", "04 1A 01"];
    let file = session(&packets.map(hex));
    for length in 0..=file.len() {
        for feed in [Feed::File, Feed::Pipe(5), Feed::Parts(vec![1]), Feed::Parts(vec![4, 3])] {
            comparison.replay(&file[..length], &feed);
        }
    }
    for _ in 0..300 {
        let records = 1 + comparison.random.below(12);
        let file = Recording::short(&mut comparison.random, records).file;
        let length = comparison.random.below(file.len() + 1);
        let feed = any_feed(&mut comparison.random);
        comparison.replay(&file[..length], &feed);
    }
}

fn any_feed(random: &mut Random) -> Feed {
    match random.below(3) {
        0 => Feed::File,
        1 => Feed::Pipe(1 + random.below(5000)),
        _ => Feed::Parts((0..9).map(|_| 1 + random.below(LARGEST_PART)).collect()),
    }
}

/// Records of every length that matters, each with every first byte, between others.
pub fn record_lengths(comparison: &mut Comparison) {
    let short = (0..=8).chain(509..=517).chain([600, 1022, 1023, 1024, 1025, 1026, 1027, 1028]);
    for length in short {
        for filling in Filling::ALL {
            let file = records_of(&mut comparison.random, length, filling, 0..=255);
            comparison.replay(&file, &Feed::File);
            comparison.replay(&file, &Feed::Pipe(65_536));
        }
        let [slowly @ .., _] = few_bytes(&mut comparison.random);
        let file = records_of(&mut comparison.random, length, Filling::Records, KINDS);
        for feed in slowly {
            comparison.replay(&file, &feed);
        }
    }
    for length in [32_767, 32_768, 65_533, 65_534, 65_535] {
        for filling in Filling::ALL {
            let file = records_of(&mut comparison.random, length, filling, KINDS);
            for feed in [Feed::File, Feed::Pipe(65_536), Feed::Pipe(4096), Feed::Pipe(65_535)] {
                comparison.replay(&file, &feed);
            }
        }
    }
}

/// First bytes with and without a checksum, a reply and a read, for 4 and for another destination.
const KINDS: [u8; 16] =
    [0x04, 0x24, 0x44, 0x64, 0x84, 0xA4, 0xC4, 0xE4, 0x00, 0x3F, 0x5B, 0x7A, 0x9D, 0xB1, 0xD2, 0xFF];

/// What a record has behind its first byte.
#[derive(Clone, Copy)]
enum Filling {
    Zeros,
    Anything,
    /// Bytes that read as records, should a replay lose its place.
    Records,
}

impl Filling {
    const ALL: [Filling; 3] = [Filling::Zeros, Filling::Anything, Filling::Records];

    fn bytes(self, random: &mut Random, length: usize) -> Vec<u8> {
        match self {
            Filling::Zeros => vec![0; length],
            Filling::Anything => random.bytes(length),
            Filling::Records => hex("02 00 84 11").into_iter().cycle().take(length).collect(),
        }
    }
}

/// A session of records of this length, with these first bytes, a probe behind each.
fn records_of(
    random: &mut Random,
    length: usize,
    filling: Filling,
    first_bytes: impl IntoIterator<Item = u8>,
) -> Vec<u8> {
    let mut file = session(&[hex("04 11 03")]);
    for first in first_bytes {
        push_record(&mut file, &record(random, length, filling, first));
        push_record(&mut file, &PROBE);
    }
    file
}

fn record(random: &mut Random, length: usize, filling: Filling, first: u8) -> Vec<u8> {
    let mut record = filling.bytes(random, length);
    if let Some(byte) = record.first_mut() {
        *byte = first;
    }
    record
}

/// Long records cut at their borders, and at those of what a replay can keep of them.
pub fn long_cuts(comparison: &mut Comparison) {
    for length in [510, 511, 512, 513, 514, 515, 1024, 1030, 65_535] {
        for first in [0x04, 0x24, 0x44, 0xE4] {
            let before = session(&[&PROBE]);
            let mut file = before.clone();
            push_record(&mut file, &record(&mut comparison.random, length, Filling::Records, first));
            push_record(&mut file, &PROBE);
            let near = (0..=4).chain(509..=519).chain(1023..=1030).chain(length - 1..=length + 3);
            let mut cuts: Vec<usize> = near.filter(|cut| *cut <= length + 3).collect();
            cuts.sort();
            cuts.dedup();
            for cut in cuts {
                let feed = if cut % 2 == 0 { Feed::File } else { Feed::Pipe(511) };
                comparison.replay(&file[..before.len() + cut], &feed);
            }
        }
    }
}

/// Sessions of 10,000 records: every command in every frame, accepted, and between them every refusal.
pub fn long_sessions(comparison: &mut Comparison) {
    let mut headers: Vec<_> = headers().collect();
    let mut recording = Recording::new();
    let mut turn = 0;
    for _ in 0..OFTEN {
        let random = &mut comparison.random;
        for index in (1..headers.len()).rev() {
            headers.swap(index, random.below(index + 1));
        }
        for header in &headers {
            let random = &mut comparison.random;
            recording.accepted(random, *header, &mut comparison.accepted);
            if random.below(4) == 0 {
                recording.refused(random, turn, &mut comparison.refused);
                turn += 1;
            }
            if recording.records >= RECORDS {
                replay_recording(comparison, &mut recording);
                recording = Recording::new();
            }
        }
    }
    replay_recording(comparison, &mut recording);
}

/// Replays a long session, with reads of its end state.
fn replay_recording(comparison: &mut Comparison, recording: &mut Recording) {
    recording.read_all();
    let size = 65_530 + comparison.random.below(13);
    let feed = match comparison.random.below(4) {
        0 => Feed::File,
        1 => any_feed(&mut comparison.random),
        _ => Feed::Pipe(size),
    };
    comparison.replay(&recording.file, &feed);
}

/// Few bytes at a time, whatever is cut by that.
pub fn slowly(comparison: &mut Comparison) {
    for _ in 0..100 {
        let records = 1 + comparison.random.below(15);
        let mut recording = Recording::short(&mut comparison.random, records);
        let (length, first) = (511 + comparison.random.below(6), comparison.random.byte());
        recording.add(&record(&mut comparison.random, length, Filling::Anything, first));
        recording.add(&PROBE);
        for feed in few_bytes(&mut comparison.random) {
            comparison.replay(&recording.file, &feed);
        }
    }
}

/// Records that begin close to a place where a window of the file can end.
pub fn windows(comparison: &mut Comparison) {
    let borders = (9..=18).map(|power| 1 << power).chain([3 * 65_536, 1000, 10_000, 100_000]);
    for border in borders {
        for start in border - 8..=border + 8 {
            for length in [2, 512, 513, 65_535] {
                let file = record_at(&mut comparison.random, start, length);
                let feed = match comparison.random.below(3) {
                    0 => Feed::Pipe(border),
                    1 => Feed::Pipe(start),
                    _ => Feed::File,
                };
                comparison.replay(&file, &feed);
            }
        }
    }
}

/// A read of every length, from one byte to as many as a window and a pipe hold, between others: a read
/// that is not replayed whole would show.
pub fn read_lengths(comparison: &mut Comparison) {
    let lengths: Vec<usize> = (1..=65_536).collect();
    for some in lengths.chunks(64) {
        let file = long_records(some.iter().sum());
        comparison.replay(&file, &Feed::Parts(some.to_vec()));
    }
}

/// A session of at least so many bytes: records that are too long for a packet, a probe behind each.
fn long_records(size: usize) -> Vec<u8> {
    let mut file = OPENING.to_vec();
    while file.len() < size {
        push_record(&mut file, &[PROBE[0]; 30_011]);
        push_record(&mut file, &PROBE);
    }
    file
}

/// A session with a record of this length that starts at this byte of the file.
fn record_at(random: &mut Random, start: usize, length: usize) -> Vec<u8> {
    let mut file = OPENING.to_vec();
    while file.len() < start {
        // A record has two bytes or more, and so has what is left.
        let left = start - file.len();
        let next = if left > 1100 { 500 + random.below(24) } else { left };
        let first = random.pick(&KINDS);
        push_record(&mut file, &record(random, next - 2, Filling::Records, first));
    }
    let first = random.pick(&KINDS);
    push_record(&mut file, &record(random, length, Filling::Records, first));
    push_record(&mut file, &PROBE);
    file
}

/// Replies of 512 bytes one after another, and of any length, behind so many short lines that a buffer
/// for the output is full at every place of a line.
pub fn long_outputs(comparison: &mut Comparison) {
    for round in 0..60 {
        let random = &mut comparison.random;
        let mut file = session(&filled(random));
        for _ in 0..round {
            // Lines of two lengths, one byte apart.
            let packet = random.pick(&["04 11 01", "04 11 05"]);
            push_record(&mut file, &hex(packet));
        }
        for _ in 0..200 {
            push_record(&mut file, &long_read(random, round % 2 == 0));
        }
        comparison.replay(&file, &Feed::Pipe(65_536));
    }
}

/// Writes that fill a part of the map and of the gains.
fn filled(random: &mut Random) -> Vec<Vec<u8>> {
    let points = [vec![0, 0], random.bytes(4 * 126)].concat();
    let words = (0..250).flat_map(|_| random.word_within(0..=8191).to_le_bytes());
    let gains = [hex("00 00 FA 00 00 00"), words.collect()].concat();
    vec![Packet::new(0x14, 0x34, points).bytes(), Packet::new(0x14, 0x2B, gains).bytes()]
}

/// A read of as much as a reply takes, or of less.
fn long_read(random: &mut Random, most: bool) -> Vec<u8> {
    if random.flag() {
        let count = if most { 127 } else { random.word_within(1..=127) };
        let data = [random.word_within(0..=100).to_le_bytes(), count.to_le_bytes()].concat();
        Packet::new(0xA4, 0x34, data).bytes()
    } else {
        let count = if most { 254 } else { random.word_within(1..=254) };
        let colour = random.byte_within(1..=3);
        let data = [&[colour], &random.word_within(0..=100).to_le_bytes()[..], &count.to_le_bytes()];
        Packet::new(0xA4, 0x2B, data.concat()).bytes()
    }
}

/// Anything: bytes, bytes behind a mark, records of random bytes, sessions with a byte wrong, more or
/// less.
pub fn garbage(comparison: &mut Comparison) {
    for round in 0..1500 {
        let random = &mut comparison.random;
        let length = random.below(400);
        let file = match round % 5 {
            0 => random.bytes(length),
            1 => [OPENING.to_vec(), random.bytes(length)].concat(),
            2 => {
                let most = random.pick(&[4, 10, 40]);
                let packets: Vec<Vec<u8>> = (0..random.below(40))
                    .map(|_| {
                        let length = random.below(most);
                        random.bytes(length)
                    })
                    .collect();
                session(&packets)
            }
            kind => {
                let mut file = Recording::short(random, 8).file;
                let place = OPENING.len() + random.below(file.len() - OPENING.len());
                match kind {
                    3 => file[place] = random.byte(),
                    _ if random.flag() => file.insert(place, random.byte()),
                    _ => drop(file.remove(place)),
                }
                file
            }
        };
        let feed = any_feed(&mut comparison.random);
        comparison.replay(&file, &feed);
    }
}
