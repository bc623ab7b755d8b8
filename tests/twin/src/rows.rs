//! The row mark (section 11): which rows of the staged shape have a point that differs from the live one.
//!
//! It lies in the block, a bit for each of 32 rows, row 0 the lowest, and is not judged.

use std::ops::Range;

use crate::block;
use crate::refusal::Refusal;
use crate::settings::{Point, ROWS};

/// What the mark of a block says.
#[derive(Clone, Copy, Debug, PartialEq, Eq)]
pub struct Rows {
    pub marked: usize,
    /// The lowest marked row, 32 if there is none.
    pub lowest: usize,
}

/// The rows that are marked in a block, whatever else that holds. A wrong length is refused with 1.
pub fn rows(block: &[u8]) -> Result<Rows, Refusal> {
    let block: &[u8; block::BYTES] = block.try_into().map_err(|_| Refusal::Lent)?;
    let marked: Vec<usize> = (0..ROWS).filter(|row| is_marked(block, *row)).collect();
    Ok(Rows { marked: marked.len(), lowest: marked.first().copied().unwrap_or(ROWS) })
}

fn is_marked(block: &[u8; block::BYTES], row: usize) -> bool {
    block[block::MARK][row / 8] >> (row % 8) & 1 == 1
}

/// The mark with these rows worked out afresh, the others as they were.
pub fn refreshed(mark: u32, rows: Range<usize>, columns: usize, staged: &[Point], live: &[Point]) -> u32 {
    rows.fold(mark, |mark, row| {
        let points = columns * row..columns * (row + 1);
        let differs = staged[points.clone()].as_flattened() != live[points].as_flattened();
        mark & !(1 << row) | u32::from(differs) << row
    })
}
