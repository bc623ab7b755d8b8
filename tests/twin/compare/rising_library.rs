//! The one C entry of librising.a, called as a C host calls it: pointer, then length; and the twin, called
//! in the same way.

use std::{ptr, slice};

use twin::command;

use crate::answers;

type Entry = unsafe extern "C" fn(*const u8, usize) -> u64;

extern "C" {
    fn vermolgas_rising(lists: *const u8, lists_length: usize) -> u64;
}

/// The twin in place of the entry.
unsafe extern "C" fn twin_rising(lists: *const u8, lists_length: usize) -> u64 {
    // SAFETY: `Side::rising` gives pointer and length of a slice.
    let lists = unsafe { slice::from_raw_parts(lists, lists_length) };
    command::judge_lists(lists).map_or_else(|refused| answers::refused(&refused), |()| 0)
}

/// One of the two that are held against each other.
#[derive(Clone, Copy)]
pub struct Side(Entry);

pub const LIBRARY: Side = Side(vermolgas_rising);
pub const TWIN: Side = Side(twin_rising);

impl Side {
    pub fn rising(self, lists: &[u8]) -> u64 {
        // SAFETY: pointer and length are those of a slice.
        unsafe { self.0(lists.as_ptr(), lists.len()) }
    }
}

/// The library's answer to NULL, which stands for an empty slice.
#[allow(dead_code, reason = "NULL is not measured")]
pub fn rising_of_null() -> u64 {
    // SAFETY: of length 0 nothing is read.
    unsafe { vermolgas_rising(ptr::null(), 0) }
}
