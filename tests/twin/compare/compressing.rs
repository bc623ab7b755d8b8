//! Groups on the compressor: which gains there are, and what is lent.

use twin::compressor::PAIRS_BYTES;
use twin::refusal::Refusal;
use twin::runs::{self, Pair};
use twin::settings::GAINS;

use crate::library::{LIBRARY, WITH_NULL};
use crate::packing::Packing;

/// Numbers of gains: the fewest, the most, and those around a byte and around packets.
const NUMBERS: [usize; 16] =
    [1, 2, 3, 63, 125, 126, 249, 250, 251, 255, 256, 257, 1008, 2014, GAINS - 1, GAINS];

/// Gains of 16 bits as bytes.
pub fn bytes(gains: impl IntoIterator<Item = u16>) -> Vec<u8> {
    gains.into_iter().flat_map(u16::to_le_bytes).collect()
}

/// Gains in stretches of random lengths, up to `longest` each. Neighbours may be alike, and often differ
/// in one bit.
pub fn stretches(packing: &mut Packing, count: usize, longest: usize) -> Vec<u8> {
    let mut gains = Vec::new();
    let mut gain = packing.random.word_within(0..=8191);
    while gains.len() < count {
        let length = 1 + packing.random.below(longest);
        gains.extend(std::iter::repeat_n(gain, length.min(count - gains.len())));
        gain = match packing.random.below(3) {
            0 => packing.random.word_within(0..=8191),
            1 => gain ^ 1 << packing.random.below(13),
            _ => gain.swap_bytes() & 0x1FFF,
        };
    }
    bytes(gains)
}

/// These gains have these pairs.
fn due(packing: &mut Packing, gains: &[u8], due: &[(u16, u16)]) {
    let due: Vec<Pair> = due.iter().map(|(run, gain)| runs::pair(*run, gain.to_le_bytes())).collect();
    let pairs = packing.compressed(gains, PAIRS_BYTES);
    packing.expect(pairs == due, || format!("{pairs:?}, not {due:?}"));
}

/// One gain, all alike, two and three stretches, at their limits.
pub fn by_hand(packing: &mut Packing) {
    due(packing, &bytes([0]), &[(1, 0)]);
    due(packing, &bytes([8191]), &[(1, 8191)]);
    due(packing, &bytes([4096; GAINS]), &[(2016, 4096)]);
    due(packing, &bytes([1, 0x100, 1]), &[(1, 1), (1, 0x100), (1, 1)]);
    due(packing, &bytes([5, 5, 5, 6, 5, 5]), &[(3, 5), (1, 6), (2, 5)]);
    let (ramp, flat) = (0..100, [4096; GAINS - 100]);
    let pairs: Vec<(u16, u16)> =
        ramp.clone().map(|gain| (1, gain)).chain([(GAINS as u16 - 100, 4096)]).collect();
    due(packing, &bytes(ramp.chain(flat)), &pairs);
}

/// Every number of gains: all alike, in turn, all different, in stretches.
pub fn every_number(packing: &mut Packing) {
    for count in 1..=GAINS {
        let (gain, other) = (packing.random.word_within(0..=8191), packing.random.word_within(0..=8191));
        let first = packing.random.below(8192 - count) as u16;
        for gains in [
            bytes((0..count).map(|_| gain)),
            bytes((0..count).map(|place| if place % 2 == 0 { gain } else { other })),
            bytes((0..count as u16).map(|place| first + place)),
        ] {
            packing.compressed(&gains, PAIRS_BYTES);
        }
        let longest = packing.random.pick(&[2, 5, 40, 300, GAINS]);
        let gains = stretches(packing, count, longest);
        packing.compressed(&gains, PAIRS_BYTES);
    }
}

/// One change at every place of a full colour, in one bit of the gain.
pub fn one_change(packing: &mut Packing) {
    for place in 1..GAINS {
        let gain = packing.random.word_within(0..=8191);
        let other = gain ^ 1 << packing.random.below(13);
        let gains = bytes((0..GAINS).map(|at| if at < place { gain } else { other }));
        due(packing, &gains, &[(place as u16, gain), ((GAINS - place) as u16, other)]);
    }
}

/// Every list of up to 8 gains from three values: of all lists of pairs that stand for it, the one given
/// is the shortest, and no other is as short.
pub fn every_list(packing: &mut Packing) {
    const VALUES: [u16; 3] = [0, 0x100, 8191];
    for count in 1..=8 {
        for number in 0..VALUES.len().pow(count) {
            let value = |place: u32| VALUES[number / VALUES.len().pow(place) % VALUES.len()];
            let gains: Vec<u16> = (0..count).map(value).collect();
            let pairs = packing.compressed(&bytes(gains.clone()), PAIRS_BYTES);
            let mut lengths = Vec::new();
            lists_of(&gains, 0, &VALUES, &mut lengths);
            let least = lengths.iter().min().copied().unwrap_or_default();
            let shortest = lengths.iter().filter(|length| **length == least).count();
            packing.expect(pairs.len() == least && shortest == 1, || {
                format!("{} pairs; {shortest} lists of {least} for {gains:?}", pairs.len())
            });
            packing.counts.lists += lengths.len() as u64;
        }
    }
}

/// The lengths of all lists of pairs, of any run and any of these values, that stand for these gains.
fn lists_of(gains: &[u16], before: usize, values: &[u16], lengths: &mut Vec<usize>) {
    if gains.is_empty() {
        return lengths.push(before);
    }
    let pairs = (1..=gains.len()).flat_map(|run| values.iter().map(move |gain| (run, *gain)));
    for (run, gain) in pairs {
        if gains[..run].iter().all(|is| *is == gain) {
            lists_of(&gains[run..], before + 1, values, lengths);
        }
    }
}

/// No gain, odd numbers of bytes, and more gains than a colour has, also so many that 16 bits count as
/// few: 10, whatever the room.
pub fn numbers_refused(packing: &mut Packing) {
    let more = (GAINS + 1..GAINS + 20).chain([4032, 6048, 0x7FFF, 0x8000, 0x8001, 0x8000 + GAINS, 0xFFFF]);
    let lengths: Vec<usize> =
        [0].into_iter().chain((1..2 * GAINS + 64).step_by(2)).chain(more.map(|count| 2 * count)).collect();
    for length in lengths {
        let gains = vec![1; length];
        for room in [PAIRS_BYTES, PAIRS_BYTES + 1, PAIRS_BYTES - 1, 0] {
            packing.compress_refused(&gains, room, Refusal::Range);
        }
    }
}

/// A gain over 8,191 at each place of a full colour, and of shorter lists.
pub fn gains_refused(packing: &mut Packing) {
    for count in NUMBERS {
        for place in 0..count {
            let mut gains = stretches(packing, count, 9);
            let high = packing.random.pick(&[8192, 8193, 0x3FFF, 0x4000, 0x8000, 0xFF1F, 0xFFFF_u16]);
            gains[2 * place..][..2].copy_from_slice(&high.to_le_bytes());
            let room = packing.random.pick(&[PAIRS_BYTES, PAIRS_BYTES + 1, PAIRS_BYTES - 1, 0]);
            packing.compress_refused(&gains, room, Refusal::Range);
        }
    }
}

/// Every room that is too short, also where the pairs would fit.
pub fn short_rooms(packing: &mut Packing) {
    for room in 0..PAIRS_BYTES {
        packing.compress_refused(&bytes([7]), room, Refusal::Lent);
        let count = packing.random.pick(&NUMBERS);
        let gains = stretches(packing, count, 50);
        packing.compress_refused(&gains, room, Refusal::Lent);
    }
}

/// Longer rooms, of any number of bytes, also such that 16 bits count as too short.
pub fn longer_rooms(packing: &mut Packing) {
    let far = [100, 1001, 8064, 0xFFFF - PAIRS_BYTES, 0x1_0000 - PAIRS_BYTES, 0xFFFF];
    for more in (0..10).chain(far) {
        for count in NUMBERS {
            for longest in [1, 10, GAINS] {
                let gains = stretches(packing, count, longest);
                packing.compressed(&gains, PAIRS_BYTES + more);
            }
        }
    }
}

/// NULL with length 0 is an empty slice.
pub fn null_pointers(packing: &mut Packing) {
    packing.entries = WITH_NULL;
    packing.compress_refused(&[], PAIRS_BYTES, Refusal::Range);
    packing.compress_refused(&[], 0, Refusal::Range);
    packing.compress_refused(&bytes([8192]), 0, Refusal::Range);
    packing.compress_refused(&bytes([8191]), 0, Refusal::Lent);
    packing.entries = LIBRARY;
}
