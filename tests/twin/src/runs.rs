//! Compressed gains (rule 5.11): pairs of a run and a gain, each for as many gains of that value as its
//! run says.

use crate::fields::{OutOfRange, Word};
use crate::settings::GAINS;

/// A pair as it lies in packets and lists: the run, then the gain, 16 bits each.
pub type Pair = [u8; 4];

/// The longest run: all gains of a colour.
pub const LONGEST_RUN: u16 = GAINS as u16;

/// The highest gain, a little under 2.0.
pub const HIGHEST_GAIN: u16 = 8191;

/// The pair of a run and a gain.
pub fn pair(run: u16, gain: Word) -> Pair {
    let [low, high] = run.to_le_bytes();
    [low, high, gain[0], gain[1]]
}

/// How many gains a pair stands for.
pub fn run(pair: &Pair) -> u16 {
    u16::from_le_bytes([pair[0], pair[1]])
}

/// The gain of a pair.
pub fn gain(pair: &Pair) -> Word {
    [pair[2], pair[3]]
}

fn is_gain(word: Word) -> bool {
    u16::from_le_bytes(word) <= HIGHEST_GAIN
}

fn is_run(run: u16) -> bool {
    (1..=LONGEST_RUN).contains(&run)
}

/// Gains, if each is 0-8191; else the first that isn't is at fault.
pub fn gains_in_range(gains: &[Word]) -> Result<&[Word], OutOfRange> {
    match gains.iter().position(|gain| !is_gain(*gain)) {
        Some(index) => Err(OutOfRange { place: size_of::<Word>() * index }),
        None => Ok(gains),
    }
}

/// Pairs, if each run is 1-2,016 and each gain 0-8191; else the first word that isn't is at fault, of a
/// pair the run before the gain.
pub fn pairs_in_range(pairs: &[Pair]) -> Result<&[Pair], OutOfRange> {
    match pairs.iter().position(|pair| !is_run(run(pair)) || !is_gain(gain(pair))) {
        Some(index) => {
            let ahead = if is_run(run(&pairs[index])) { size_of::<Word>() } else { 0 };
            Err(OutOfRange { place: size_of::<Pair>() * index + ahead })
        }
        None => Ok(pairs),
    }
}

/// How many gains these pairs stand for.
pub fn length(pairs: &[Pair]) -> usize {
    pairs.iter().map(|pair| usize::from(run(pair))).sum()
}

/// The gains that the pairs stand for, in order; there are as many as [`length`] says.
pub fn expand(pairs: &[Pair], gains: &mut [Word]) {
    let mut rest = gains;
    for pair in pairs {
        let (equal, behind) = rest.split_at_mut(run(pair).into());
        equal.fill(gain(pair));
        rest = behind;
    }
}
