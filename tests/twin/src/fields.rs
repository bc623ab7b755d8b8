//! Numbers in bytes, low byte first (rule 2.3), and the checksum.

use std::ops::RangeInclusive;

/// A 16-bit number as it lies in packets, tables and the block.
pub type Word = [u8; 2];

/// Rule 2.5: the guide's loop, with its two sums of 32 bits; of the second the low byte is sent.
pub fn checksum(bytes: &[u8]) -> u8 {
    let (mut first, mut second) = (0_u32, 0_u32);
    for byte in bytes {
        first = first.wrapping_add(u32::from(*byte));
        second = second.wrapping_add(first);
    }
    second.to_le_bytes()[0]
}

/// Some value is out of its range, or reserved. In a packet this is refusal 10, in a setting
/// refusal 1.
#[derive(Clone, Copy, Debug, PartialEq, Eq)]
pub struct OutOfRange {
    /// The bytes ahead of the value in what was judged.
    pub place: usize,
}

impl OutOfRange {
    /// The same fault where so many more bytes stand ahead.
    pub fn behind(self, bytes: usize) -> Self {
        OutOfRange { place: bytes + self.place }
    }
}

/// Takes field after field from bytes whose number has been judged before, and knows where it is: so
/// the first field that doesn't fit names its place. The block's hundreds of fields are taken with each
/// packet, hence the inlining.
pub struct Fields<'a> {
    rest: &'a [u8],
    /// The bytes taken.
    place: usize,
}

impl<'a> Fields<'a> {
    pub fn new(bytes: &'a [u8]) -> Self {
        Fields { rest: bytes, place: 0 }
    }

    /// Where the next field begins.
    pub fn place(&self) -> usize {
        self.place
    }

    #[inline(always)]
    fn take<const N: usize>(&mut self) -> &'a [u8; N] {
        let (field, rest) = self.rest.split_first_chunk().expect("the size was judged first");
        self.rest = rest;
        self.place += N;
        field
    }

    pub fn byte(&mut self) -> u8 {
        u8::from_le_bytes(*self.take())
    }

    /// A 16-bit number.
    pub fn word(&mut self) -> u16 {
        u16::from_le_bytes(*self.take())
    }

    /// A 32-bit number.
    pub fn long(&mut self) -> u32 {
        u32::from_le_bytes(*self.take())
    }

    /// What `meaning` gives for the next byte; if it has none, that byte is at fault.
    #[inline(always)]
    pub fn byte_as<T>(&mut self, meaning: impl FnOnce(u8) -> Option<T>) -> Result<T, OutOfRange> {
        let place = self.place;
        meaning(self.byte()).ok_or(OutOfRange { place })
    }

    /// A byte that is 0 or 1.
    #[inline(always)]
    pub fn flag(&mut self) -> Result<bool, OutOfRange> {
        Ok(self.byte_within(0..=1)? == 1)
    }

    #[inline(always)]
    pub fn byte_within(&mut self, range: RangeInclusive<u8>) -> Result<u8, OutOfRange> {
        self.byte_as(|byte| range.contains(&byte).then_some(byte))
    }

    #[inline(always)]
    pub fn word_within(&mut self, range: RangeInclusive<u16>) -> Result<u16, OutOfRange> {
        let place = self.place;
        Some(self.word()).filter(|word| range.contains(word)).ok_or(OutOfRange { place })
    }

    #[inline(always)]
    pub fn long_within(&mut self, range: RangeInclusive<u32>) -> Result<u32, OutOfRange> {
        let place = self.place;
        Some(self.long()).filter(|long| range.contains(long)).ok_or(OutOfRange { place })
    }

    /// The next `N` numbers of `W` bytes, where they lie.
    pub fn array<const W: usize, const N: usize>(&mut self) -> &'a [[u8; W]; N] {
        let (numbers, rest) = self.rest.split_at(W * N);
        self.rest = rest;
        self.place += W * N;
        numbers.as_chunks().0.try_into().expect("N of them were split off")
    }

    /// What `take` makes of each of the next `N` fields.
    pub fn each<T: Copy + Default, const N: usize>(
        &mut self,
        take: impl Fn(&mut Self) -> Result<T, OutOfRange>,
    ) -> Result<[T; N], OutOfRange> {
        let mut values = [T::default(); N];
        for value in &mut values {
            *value = take(self)?;
        }
        Ok(values)
    }

    /// The numbers of `W` bytes up to the end, where they lie.
    pub fn all<const W: usize>(&mut self) -> &'a [[u8; W]] {
        let (numbers, rest) = self.rest.as_chunks();
        self.place += self.rest.len() - rest.len();
        self.rest = rest;
        numbers
    }
}
