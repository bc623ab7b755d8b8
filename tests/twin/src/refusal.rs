//! The refusal numbers, and where in a packet's data a value is at fault.

use crate::fields::OutOfRange;

/// The refusals of rule 4.1, in the order in which they are tried.
#[derive(Clone, Copy, Debug, PartialEq, Eq, PartialOrd, Ord)]
#[repr(u8)]
pub enum Refusal {
    /// What is lent has a wrong length, or a setting is out of its range.
    Lent = 1,
    /// The packet has fewer bytes than the fields that its header announces.
    TooShort = 2,
    /// It has more than 512 bytes.
    TooLong = 3,
    /// The length field is not the number of data bytes.
    Length = 4,
    /// The checksum is wrong.
    Checksum = 5,
    /// Another destination than 4.
    Destination = 6,
    /// The opcode is not carried.
    Opcode = 7,
    /// A write of variable size lacks its length field.
    LengthMissing = 8,
    /// The command does not take data of this size, or its words do not come in pairs where they have to.
    Size = 9,
    /// Some value is out of its range, or reserved.
    Range = 10,
    /// Merge mode, which the guides name and which is not carried.
    NotCarried = 11,
    /// Start + count, or start + runs, goes past the end of the table.
    PastTable = 12,
}

impl Refusal {
    /// The number, as answers and replies carry it.
    pub fn number(self) -> u8 {
        self as u8
    }
}

/// A value out of range by itself: what the compressor and the splitter refuse has no place.
impl From<OutOfRange> for Refusal {
    fn from(_: OutOfRange) -> Self {
        Refusal::Range
    }
}

/// A packet's refusal, which has a place if it is 10 (rule 4.6).
#[derive(Clone, Copy, Debug, PartialEq, Eq)]
pub struct Refused {
    pub refusal: Refusal,
    /// With refusal 10, where in the data the first field at fault begins; with any other 0.
    pub place: u16,
}

impl Refused {
    /// The refusal's number.
    pub fn number(self) -> u8 {
        self.refusal.number()
    }
}

impl From<OutOfRange> for Refused {
    fn from(fault: OutOfRange) -> Self {
        Refused { refusal: Refusal::Range, place: fault.place as u16 }
    }
}

impl From<Refusal> for Refused {
    fn from(refusal: Refusal) -> Self {
        debug_assert_ne!(refusal, Refusal::Range, "a value at fault has a place");
        Refused { refusal, place: 0 }
    }
}
