//! Buffers that are lent, between bytes that must stay as they are.

use crate::random::Random;

/// Bytes before and behind a lent buffer, at least.
const GUARD: usize = 16;

/// What is lent, with guards around it.
#[derive(Clone, PartialEq, Eq)]
pub struct Guarded {
    bytes: Vec<u8>,
    guard: usize,
}

impl Guarded {
    /// A buffer that holds anything, at any address. `filling` is longer than it by as many bytes as
    /// there are places to take it from.
    pub fn new(random: &mut Random, filling: &[u8], length: usize) -> Self {
        let guard = GUARD + random.below(8);
        let whole = guard + length + GUARD;
        let start = random.below(filling.len() - whole);
        Guarded { bytes: filling[start..start + whole].to_vec(), guard }
    }

    /// A buffer that holds these bytes.
    #[allow(dead_code, reason = "each program lends some kinds of buffers")]
    pub fn of(random: &mut Random, filling: &[u8], bytes: &[u8]) -> Self {
        let mut guarded = Guarded::new(random, filling, bytes.len());
        guarded.lent().copy_from_slice(bytes);
        guarded
    }

    pub fn lent(&mut self) -> &mut [u8] {
        let end = self.bytes.len() - GUARD;
        &mut self.bytes[self.guard..end]
    }

    /// Where this one differs first from what is due, in words.
    pub fn difference(&self, due: &Guarded) -> Option<String> {
        let place = self.bytes.iter().zip(&due.bytes).position(|(byte, due)| byte != due)?;
        let (byte, due) = (self.bytes[place], due.bytes[place]);
        Some(format!("{byte:02X}, not {due:02X}, at {}", place as i64 - self.guard as i64))
    }
}
