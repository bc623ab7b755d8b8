//! Groups on the splitter: which pairs there are, for which colour and start, and what is lent; and on
//! all three together: compressed, split and sent.

use twin::refusal::Refusal;
use twin::runs::{self, Pair, LONGEST_RUN};
use twin::settings::GAINS;
use twin::splitter::{Split, BATCH_BYTES};

use crate::compressing::{bytes, stretches};
use crate::library::{LIBRARY, WITH_NULL};
use crate::packing::{Packing, FULL_PACKET};

/// Numbers of pairs: the fewest, the most, and those around full packets.
const NUMBERS: [usize; 14] = [1, 2, 3, 124, 125, 126, 249, 250, 251, 375, 1000, 1001, GAINS - 1, GAINS];

/// So many pairs with this sum of runs or a little less, runs of many lengths among them.
fn pairs_of(packing: &mut Packing, count: usize, sum: usize) -> Vec<u8> {
    let mut left = sum - count;
    let mut pairs: Vec<Pair> = Vec::new();
    for _ in 0..count {
        let longest = left.min(LONGEST_RUN as usize - 1);
        let more =
            if packing.random.below(4) == 0 { packing.random.below(longest + 1) } else { longest.min(1) };
        left -= more;
        pairs.push(pair(packing, 1 + more));
    }
    pairs.into_flattened()
}

/// A pair of this run, with any gain.
fn pair(packing: &mut Packing, run: usize) -> Pair {
    runs::pair(run as u16, packing.random.word_within(0..=8191).to_le_bytes())
}

/// Pairs of as few runs as there can be with this sum.
fn long_runs(packing: &mut Packing, sum: usize) -> Vec<u8> {
    let longest = usize::from(LONGEST_RUN);
    let runs = std::iter::repeat_n(longest, sum / longest).chain(Some(sum % longest).filter(|run| *run > 0));
    runs.collect::<Vec<usize>>().into_iter().flat_map(|run| pair(packing, run)).collect()
}

fn gains_of(pairs: &[u8]) -> usize {
    runs::length(pairs.as_chunks().0)
}

/// The answer to so many pairs of run 1.
fn due(packing: &mut Packing, pairs: usize, packets: usize, bytes: usize) {
    let list = pairs_of(packing, pairs, pairs);
    let split = packing.split(1, 0, &list, BATCH_BYTES);
    packing.expect(split == Ok(Split { packets, bytes }), || format!("twin: {split:?} for {pairs} pairs"));
}

/// Numbers of packets and bytes around full packets.
pub fn by_hand(packing: &mut Packing) {
    due(packing, 1, 1, 14);
    due(packing, 124, 1, FULL_PACKET - 4);
    due(packing, 125, 1, FULL_PACKET);
    due(packing, 126, 2, FULL_PACKET + 14);
    due(packing, 250, 2, 2 * FULL_PACKET);
    due(packing, 251, 3, 2 * FULL_PACKET + 14);
    due(packing, 2000, 16, 16 * FULL_PACKET);
    due(packing, 2016, 17, BATCH_BYTES);
}

/// Every number of pairs, for each colour, up to the table's end or before it.
pub fn every_number(packing: &mut Packing) {
    for count in 1..=GAINS {
        for colour in 0..4 {
            let sum = count + packing.random.below(GAINS - count + 1);
            let pairs = pairs_of(packing, count, sum);
            let last = (GAINS - gains_of(&pairs)) as u32;
            let start = if colour % 2 == 0 { last } else { packing.random.within(0..=last) };
            packing.split_whole(colour, start, &pairs, BATCH_BYTES);
        }
    }
}

/// From every start: runs up to the table's end, one less and one more.
pub fn every_start(packing: &mut Packing) {
    for start in 0..=GAINS {
        let left = GAINS - start;
        for sum in [left.saturating_sub(1), left, left + 1, left + 2].into_iter().filter(|sum| *sum > 0) {
            let colour = packing.random.below(4) as u32;
            let pairs = long_runs(packing, sum);
            if sum <= left {
                packing.split_whole(colour, start as u32, &pairs, BATCH_BYTES);
            } else {
                packing.split_refused(colour, start as u32, &pairs, BATCH_BYTES, Refusal::PastTable);
            }
        }
    }
}

/// Starts past the table, to the last of 32 bits: with a run of 1, and with runs whose sum with the
/// start 16 or 32 bits lose.
pub fn far_starts(packing: &mut Packing) {
    let near = [0x8000_u32, 0xFFFF, 0x1_0000, 0x1_0001, 0x1_07DF, 0x1_0000 - 2016, 0x7FFF_FFFF, 0x8000_0000];
    let last = (u32::MAX - 2016..=u32::MAX).step_by(63);
    for start in [2016, 2017, 4032].into_iter().chain(near).chain(last).chain([u32::MAX - 1, u32::MAX]) {
        let lost = [0x1_0000, 1 << 32].map(|bits: u64| (bits - u64::from(start) % bits) as usize);
        let sums = [1, 2, 2015, 2016, 2017].into_iter().chain(lost.into_iter().filter(|sum| *sum < 70_000));
        for sum in sums {
            let pairs = long_runs(packing, sum);
            let colour = packing.random.below(4) as u32;
            packing.split_refused(colour, start, &pairs, BATCH_BYTES, Refusal::PastTable);
        }
    }
}

/// Sums of runs that 16 and 32 bits lose, from 0 on and up to the table's end.
pub fn lost_sums(packing: &mut Packing) {
    let wide = [1_usize << 32, (1 << 32) + 1];
    for sum in [0x1_0000, 0x1_0001, 0x1_0000 + GAINS, 0x2_0000, 0x3_0000 + 7].into_iter().chain(wide) {
        let pairs = long_runs(packing, sum);
        for start in [0, 1, 2009, 2016] {
            packing.split_refused(1, start, &pairs, BATCH_BYTES, Refusal::PastTable);
        }
    }
}

/// More pairs than gains, whatever they are.
pub fn too_many(packing: &mut Packing) {
    for count in [2017, 2018, 4032, 0x4000, 0x1_0000 / 4, 20_000] {
        let pairs = pairs_of(packing, count, count);
        for start in [0, 1, 2016, u32::MAX] {
            packing.split_refused(3, start, &pairs, BATCH_BYTES, Refusal::PastTable);
        }
    }
}

/// Lengths that are no whole pairs: 9 before all else.
pub fn sizes_refused(packing: &mut Packing) {
    let list = pairs_of(packing, GAINS, GAINS);
    let lengths = (1..600).chain(list.len() - 70..list.len()).filter(|length| length % 4 != 0);
    for length in lengths {
        for (colour, start, room) in [(0, 0, BATCH_BYTES), (4, u32::MAX, 0), (3, 2016, BATCH_BYTES - 1)] {
            packing.split_refused(colour, start, &list[..length], room, Refusal::Size);
        }
    }
}

/// No pair, and colours over 3, also such that 8 or 16 bits count as one.
pub fn colours_refused(packing: &mut Packing) {
    for colour in [0, 1, 2, 3, 4, u32::MAX] {
        for room in [BATCH_BYTES, BATCH_BYTES - 1, 0] {
            packing.split_refused(colour, 0, &[], room, Refusal::Range);
            packing.split_refused(colour, u32::MAX, &[], room, Refusal::Range);
        }
    }
    let colours = (4..=0x300).chain([0x1_0000, 0x1_0001, 0x8000_0001, 0xFFFF_FF00, u32::MAX]);
    for colour in colours {
        for count in NUMBERS {
            let pairs = pairs_of(packing, count, count);
            let start = packing.random.pick(&[0, 2015, u32::MAX]);
            packing.split_refused(colour, start, &pairs, BATCH_BYTES, Refusal::Range);
        }
    }
}

/// Runs and gains past their limits, also where a byte or a bit of them is left out.
const WRONG_RUNS: [u16; 7] = [0, 2017, 2018, 0x1000, 0x8001, 0xFF00, 0xFFFF];
const WRONG_GAINS: [u16; 6] = [8192, 8193, 0x3FFF, 0x8000, 0xFF1F, 0xFFFF];

/// A run and a gain at and past their limits, at each place of lists of several lengths.
pub fn limits(packing: &mut Packing) {
    let lists = [1, 2, 125, 126, 250, 600].into_iter();
    for (count, place) in lists.flat_map(|count| (0..count).map(move |place| (count, place))) {
        let pairs = pairs_of(packing, count, count);
        let (run, gain) = (2 * place, 2 * place + 1);
        let wrong =
            WRONG_RUNS.map(|wrong| (run, wrong)).into_iter().chain(WRONG_GAINS.map(|wrong| (gain, wrong)));
        for (word, value) in wrong {
            packing.split_refused(1, 0, &with_word(&pairs, word, value), BATCH_BYTES, Refusal::Range);
        }
        let longest = (GAINS - (count - 1)) as u16;
        let whole = with_word(&with_word(&pairs, run, longest), gain, 8191);
        packing.split_whole(3, 0, &whole, BATCH_BYTES);
        let over = with_word(&pairs, run, longest + 1);
        let due = if count == 1 { Refusal::Range } else { Refusal::PastTable };
        packing.split_refused(3, 0, &over, BATCH_BYTES, due);
    }
}

/// A list with one word changed.
fn with_word(pairs: &[u8], word: usize, value: u16) -> Vec<u8> {
    let mut changed = pairs.to_vec();
    changed[2 * word..][..2].copy_from_slice(&value.to_le_bytes());
    changed
}

/// A fault of a call, with its refusal, in the order in which they are tried.
const FAULTS: [Refusal; 7] = [
    Refusal::Size,
    Refusal::Range, // colour
    Refusal::Range, // a run of 0
    Refusal::Range, // a run over 2,016
    Refusal::Range, // a gain
    Refusal::PastTable,
    Refusal::Lent,
];

/// Every set of faults: the refusal that comes first in the order is given.
pub fn order(packing: &mut Packing) {
    for set in (1_usize..1 << FAULTS.len()).cycle().take(8_000) {
        let has = |fault: usize| set >> fault & 1 == 1;
        let count = 3 + packing.random.below(300);
        let mut pairs = pairs_of(packing, count, count);
        let place = packing.random.below(count - 2);
        for (fault, word, value) in [(2, 2 * place, 0), (3, 2 * place + 2, 2017), (4, 2 * place + 5, 8192)] {
            if has(fault) {
                pairs = with_word(&pairs, word, value);
            }
        }
        if has(0) {
            pairs.push(1);
        }
        let colour = if has(1) { packing.random.pick(&[4, 256, u32::MAX]) } else { 2 };
        let start = if has(5) { packing.random.pick(&[2016, 0x1_0000, u32::MAX]) } else { 0 };
        let room = if has(6) { packing.random.below(BATCH_BYTES) } else { BATCH_BYTES };
        let first = (0..FAULTS.len()).find(|fault| has(*fault)).expect("a set has a fault");
        packing.split_refused(colour, start, &pairs, room, FAULTS[first]);
    }
}

/// Every batch buffer that is too short, also where the packets would fit.
pub fn short_rooms(packing: &mut Packing) {
    for room in 0..BATCH_BYTES {
        let pairs = pairs_of(packing, 1, 1);
        packing.split_refused(0, 0, &pairs, room, Refusal::Lent);
        let count = packing.random.pick(&NUMBERS);
        let pairs = pairs_of(packing, count, count);
        packing.split_refused(3, (GAINS - count) as u32, &pairs, room, Refusal::Lent);
    }
}

/// Longer batch buffers, of any number of bytes, also such that 16 bits count as too short.
pub fn longer_rooms(packing: &mut Packing) {
    let far = [100, 1001, BATCH_BYTES, 0xFFFF - BATCH_BYTES, 0x1_0000 - BATCH_BYTES, 0xFFFF];
    for more in (0..10).chain(far) {
        for count in NUMBERS {
            let pairs = pairs_of(packing, count, GAINS);
            packing.split_whole(count as u32 % 4, 0, &pairs, BATCH_BYTES + more);
        }
    }
}

/// NULL with length 0 is an empty slice.
pub fn null_pointers(packing: &mut Packing) {
    packing.entries = WITH_NULL;
    for colour in [0, 3, 4] {
        packing.split_refused(colour, 0, &[], BATCH_BYTES, Refusal::Range);
        packing.split_refused(colour, u32::MAX, &[], 0, Refusal::Range);
    }
    let pairs = pairs_of(packing, 1, 1);
    packing.split_refused(3, 0, &pairs, 0, Refusal::Lent);
    packing.split_refused(3, 0, &pairs[..3], 0, Refusal::Size);
    packing.split_refused(3, 2016, &pairs, 0, Refusal::PastTable);
    packing.entries = LIBRARY;
}

/// Gains of every kind compressed, split and sent, for each colour, from any start.
pub fn round_trips(packing: &mut Packing) {
    for turn in 0..4_000 {
        let count = if turn % 3 == 0 { GAINS } else { 1 + packing.random.below(GAINS) };
        let longest = packing.random.pick(&[1, 2, 16, 63, 500, GAINS]);
        let gains = stretches(packing, count, longest);
        let start = packing.random.within(0..=(GAINS - count) as u32);
        packing.round_trip(turn % 4, start, &gains);
    }
}

/// Smooth blends: a ramp at the left edge of 63 columns, at the right one, or from top to bottom.
pub fn blends(packing: &mut Packing) {
    for width in 1..=63 {
        for colour in 0..4 {
            let ramp = |place: usize| (4096 * place.min(width) / width) as u16;
            packing.round_trip(colour, 0, &bytes((0..GAINS).map(|place| ramp(place % 63))));
            packing.round_trip(colour, 0, &bytes((0..GAINS).map(|place| ramp(62 - place % 63))));
            packing.round_trip(colour, 0, &bytes((0..GAINS).map(|place| ramp(place / 63))));
        }
    }
}
