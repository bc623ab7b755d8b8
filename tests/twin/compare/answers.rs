//! The C entries' answers as numbers: how those of the twin are packed, and what holds of every refusal
//! of a packet, whatever the twin says.

use twin::front_end::Answer;
use twin::refusal::{Refusal, Refused};
use twin::rows::Rows;

/// The place of a fault stands from this bit on.
const PLACE: u32 = 32;

/// The answer of reading or making to what is refused.
pub fn refused(refused: &Refused) -> u64 {
    u64::from(refused.number()) | u64::from(refused.place) << PLACE
}

/// The answer of `vermolgas_packet`.
pub fn packet(answer: Answer) -> u64 {
    u64::from(answer.status) | (answer.length as u64) << 8 | u64::from(answer.place) << PLACE
}

/// The answer of `vermolgas_rows`.
pub fn rows(rows: Result<Rows, Refusal>) -> u64 {
    match rows {
        Ok(rows) => (rows.marked as u64) << 8 | (rows.lowest as u64) << 16,
        Err(refusal) => refusal.number().into(),
    }
}

/// The place that a refusal by 10 names; none for any other answer.
pub fn place(answer: u64) -> Option<u16> {
    (answer as u8 == Refusal::Range.number()).then_some((answer >> PLACE) as u16)
}

/// Whether a refusal has nothing in its upper half but a place, and that with 10 alone. What is
/// accepted has fields of its own there.
pub fn upper_half_is_right(answer: u64) -> bool {
    answer as u8 == 0 || answer >> PLACE == place(answer).unwrap_or(0).into()
}

/// Whether the middle of a refusal is clear: reading and making have no field there.
pub fn middle_is_clear(answer: u64) -> bool {
    answer as u8 == 0 || answer as u32 >> 8 == 0
}
