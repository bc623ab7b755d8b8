//! The host's splitter: pairs of a run and a gain, for a colour and a start, as 2Bh writes with flag 1.

use crate::refusal::Refusal;
use crate::runs::{self, Pair};
use crate::settings::GAINS;

/// The words of every packet but the last, and the pairs that they are.
pub const PACKET_WORDS: usize = 250;
pub const PACKET_PAIRS: usize = PACKET_WORDS / 2;

/// What a packet has besides its words: header, opcode, length, flag, colour, count, start.
pub const HEAD: usize = 10;

/// The batch buffer has at least this many bytes: what a pair for each gain of a colour takes.
pub const BATCH_BYTES: usize = HEAD * GAINS.div_ceil(PACKET_PAIRS) + GAINS * size_of::<Pair>();

/// The answer: the number of packets, and the bytes of the batch.
#[derive(Clone, Copy, Debug, Default, PartialEq, Eq)]
pub struct Split {
    pub packets: usize,
    pub bytes: usize,
}

/// Splits pairs into packets, header 14h, of which each goes on behind the gains of the last (rules 10.3
/// and 10.4). Refusals, in this order: 9 for bytes that are no whole pairs; 10 for no pair, a colour over 3, a run or a gain out of
/// range; 12 for gains past the end of the table; 1 for a batch buffer that is too short. Nothing is
/// changed then, and after success nothing behind the packets.
pub fn split(colour: u32, start: u32, pairs: &[u8], batch: &mut [u8]) -> Result<Split, Refusal> {
    let (pairs, []) = pairs.as_chunks() else { return Err(Refusal::Size) };
    if pairs.is_empty() || colour > 3 {
        return Err(Refusal::Range);
    }
    let length = runs::length(runs::pairs_in_range(pairs)?);
    if u64::from(start) + length as u64 > GAINS as u64 {
        return Err(Refusal::PastTable);
    }
    if batch.len() < BATCH_BYTES {
        return Err(Refusal::Lent);
    }
    Ok(write(colour as u8, start as u16, pairs, batch))
}

/// The packets, back to back.
fn write(colour: u8, start: u16, pairs: &[Pair], batch: &mut [u8]) -> Split {
    let mut split = Split::default();
    let mut start = start;
    for part in pairs.chunks(PACKET_PAIRS) {
        let words = part.as_flattened();
        let packet = &mut batch[split.bytes..][..HEAD + words.len()];
        packet[..HEAD].copy_from_slice(&head(colour, start, part.len()));
        packet[HEAD..].copy_from_slice(words);
        split = Split { packets: split.packets + 1, bytes: split.bytes + packet.len() };
        start += runs::length(part) as u16;
    }
    split
}

/// What stands ahead of the words of so many pairs.
fn head(colour: u8, start: u16, pairs: usize) -> [u8; HEAD] {
    let [length_low, length_high] = (6 + 4 * pairs as u16).to_le_bytes();
    let [count_low, count_high] = (2 * pairs as u16).to_le_bytes();
    let [start_low, start_high] = start.to_le_bytes();
    [0x14, 0x2B, length_low, length_high, 1, colour, count_low, count_high, start_low, start_high]
}
