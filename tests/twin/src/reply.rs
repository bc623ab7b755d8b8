//! Replies (section 3 of docs/RULES.md): status, two-byte data length, data, checksum.

use crate::fields::checksum;
use crate::packet::LONGEST;
use crate::refusal::Refusal;

/// Status byte and data length, ahead of the data.
pub const HEAD: usize = 3;

/// The highest status: 0 or a refusal's number.
const HIGHEST_STATUS: u8 = 12;

/// A reply as it is meant.
#[derive(Clone, Copy, Debug, PartialEq, Eq)]
pub struct Reply<'a> {
    pub status: u8,
    pub data: &'a [u8],
}

/// Writes a reply at the start of the buffer (rule 3.1), its data given in two parts, with a checksum
/// over the rest if bit 5 of the packet is set. Gives the reply's length.
pub fn write(buffer: &mut [u8], status: u8, data: [&[u8]; 2], with_checksum: bool) -> usize {
    let (head, rest) = buffer.split_at_mut(HEAD);
    let [first, second] = data;
    let size = first.len() + second.len();
    head[0] = status;
    head[1..].copy_from_slice(&(size as u16).to_le_bytes());
    rest[..first.len()].copy_from_slice(first);
    rest[first.len()..size].copy_from_slice(second);
    let end = HEAD + size;
    if with_checksum {
        buffer[end] = checksum(&buffer[..end]);
    }
    end + usize::from(with_checksum)
}

/// Reply reading (rule 3.5): refusals 2, 3, 4, 5 and 10, in this order.
pub fn read(bytes: &[u8], checksum_expected: bool) -> Result<Reply<'_>, Refusal> {
    if bytes.len() < HEAD + usize::from(checksum_expected) {
        return Err(Refusal::TooShort);
    }
    if bytes.len() > LONGEST {
        return Err(Refusal::TooLong);
    }
    let end = bytes.len() - usize::from(checksum_expected);
    let (status, data) = (bytes[0], &bytes[HEAD..end]);
    if usize::from(u16::from_le_bytes([bytes[1], bytes[2]])) != data.len() {
        return Err(Refusal::Length);
    }
    if checksum_expected && bytes[end] != checksum(&bytes[..end]) {
        return Err(Refusal::Checksum);
    }
    if status > HIGHEST_STATUS {
        return Err(Refusal::Range);
    }
    Ok(Reply { status, data })
}
