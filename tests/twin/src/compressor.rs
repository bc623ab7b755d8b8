//! The host's compressor: gains as the fewest pairs of a run and a gain that stand for them.

use crate::fields::Word;
use crate::refusal::Refusal;
use crate::runs::{self, Pair};
use crate::settings::GAINS;

/// The buffer for pairs has at least this many bytes: a pair for each gain of a colour.
pub const PAIRS_BYTES: usize = GAINS * size_of::<Pair>();

/// Compresses 1 to 2,016 gains, and gives the number of pairs (rules 10.1 and 10.2). Refusals: 10 for another number of
/// gains, an odd number of bytes or a gain over 8,191; else 1 for a buffer that is too short. Nothing
/// is changed then, and after success nothing behind the pairs.
///
/// A pair is of equal gains, so it cannot go past a place where they change: one pair for each stretch
/// of equal gains is the fewest.
pub fn compress(gains: &[u8], pairs: &mut [u8]) -> Result<usize, Refusal> {
    let (gains, []) = gains.as_chunks::<2>() else { return Err(Refusal::Range) };
    if !(1..=GAINS).contains(&gains.len()) {
        return Err(Refusal::Range);
    }
    let stretches = runs::gains_in_range(gains)?.chunk_by(Word::eq);
    if pairs.len() < PAIRS_BYTES {
        return Err(Refusal::Lent);
    }
    let mut count = 0;
    for (stretch, pair) in stretches.zip(pairs.as_chunks_mut().0) {
        *pair = runs::pair(stretch.len() as u16, stretch[0]);
        count += 1;
    }
    Ok(count)
}
