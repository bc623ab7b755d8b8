//! Data of commands that a state accepts.

use twin::command::{Direction, Opcode};
use twin::runs;

use crate::generate;
use crate::random::Random;

/// The data of a command, at most `room` bytes, whose start + count does not pass `limit`.
pub fn data(random: &mut Random, opcode: Opcode, direction: Direction, room: usize, limit: usize) -> Vec<u8> {
    let mut data = generate::data(random, opcode, direction, room);
    if count(&data, opcode, direction) > limit {
        match direction {
            Direction::Write => data.truncate(2 + 4 * limit),
            Direction::Read => data[2..].copy_from_slice(&(limit as u16).to_le_bytes()),
        }
    }
    if let Some(place) = generate::start_place(opcode, direction) {
        let last = limit - count(&data, opcode, direction);
        let start = random.word_within(0..=last as u16);
        data[place].copy_from_slice(&start.to_le_bytes());
    }
    data
}

/// The entries that a 34h or 2Bh command is about; 0 for other commands.
pub fn count(data: &[u8], opcode: Opcode, direction: Direction) -> usize {
    let word = |place| usize::from(u16::from_le_bytes([data[place], data[place + 1]]));
    match (opcode, direction) {
        (Opcode::Map, Direction::Write) => data.len() / 4,
        (Opcode::Gains, Direction::Write) if data[0] == 1 => runs::length(data[6..].as_chunks().0),
        (Opcode::Map, Direction::Read) | (Opcode::Gains, Direction::Write) => word(2),
        (Opcode::Gains, Direction::Read) => word(3),
        _ => 0,
    }
}

/// A start with which so many entries go past the end of a table: by one, by more, or so that a sum in
/// 16 bits wraps.
pub fn past_start(random: &mut Random, count: usize, limit: usize) -> u16 {
    let least = (limit + 1).saturating_sub(count) as u16;
    match random.below(4) {
        0 => least,
        1 => (0x1_0000 - count) as u16,
        2 => u16::MAX,
        _ => random.word_within(least..=u16::MAX),
    }
}

/// What start + count may not pass, for this opcode, with this block.
pub fn limit(block: &[u8], opcode: Opcode) -> usize {
    let word = |place| usize::from(u16::from_le_bytes([block[place], block[place + 1]]));
    match opcode {
        Opcode::Map => word(9) * word(11),
        _ => twin::settings::GAINS,
    }
}
