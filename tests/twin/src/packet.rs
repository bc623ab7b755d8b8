//! Packets (section 2 of docs/RULES.md): header, opcode, length, data, checksum.

use std::ops::Range;

use crate::command::{Command, Direction, Opcode};
use crate::fields::{checksum, Fields};
use crate::refusal::{Refusal, Refused};

/// A packet has at most this many bytes in all (rule 2.1).
pub const LONGEST: usize = 512;

/// The destination of every command carried.
const DESTINATION: u8 = 4;

/// The four header options, bits 3 to 6 (rule 2.2).
#[derive(Clone, Copy, Debug, PartialEq, Eq)]
pub struct Options {
    pub two_byte_opcode: bool,
    pub length_present: bool,
    pub checksum_present: bool,
    pub reply_requested: bool,
}

impl Options {
    /// Where the data starts.
    pub fn data_offset(self) -> usize {
        1 + if self.two_byte_opcode { 2 } else { 1 } + if self.length_present { 2 } else { 0 }
    }

    /// The bytes that the fields besides the data take.
    pub fn overhead(self) -> usize {
        self.data_offset() + usize::from(self.checksum_present)
    }
}

/// The header byte taken apart.
#[derive(Clone, Copy, Debug, PartialEq, Eq)]
pub struct Header {
    /// Bits 0 to 2.
    pub destination: u8,
    pub options: Options,
    /// Bit 7.
    pub direction: Direction,
}

impl Header {
    pub fn from_byte(byte: u8) -> Self {
        let bit = |place: u8| byte >> place & 1 == 1;
        Header {
            destination: byte & 7,
            options: Options {
                two_byte_opcode: bit(3),
                length_present: bit(4),
                checksum_present: bit(5),
                reply_requested: bit(6),
            },
            direction: if bit(7) { Direction::Read } else { Direction::Write },
        }
    }

    /// Whether a packet with this header gets a reply: a read, or one that asks for it.
    pub fn is_replied_to(self) -> bool {
        self.direction == Direction::Read || self.options.reply_requested
    }

    pub fn byte(self) -> u8 {
        let options = self.options;
        self.destination
            | u8::from(options.two_byte_opcode) << 3
            | u8::from(options.length_present) << 4
            | u8::from(options.checksum_present) << 5
            | u8::from(options.reply_requested) << 6
            | u8::from(self.direction == Direction::Read) << 7
    }
}

/// What reading ends in (rule 2.6), unless it is refused: a command with its four options, and where
/// in the packet its data is.
#[derive(Clone, Debug, PartialEq, Eq)]
pub struct Reading<'a> {
    pub command: Command<'a>,
    pub options: Options,
    pub place: Range<usize>,
}

impl Reading<'_> {
    /// The header of the packet read.
    pub fn header(&self) -> Header {
        Header { destination: DESTINATION, options: self.options, direction: self.command.direction() }
    }
}

/// Reading looks at no state: refusals 2 to 11, tried in their order (rule 4.1), 10 with its place.
pub fn read(packet: &[u8]) -> Result<Reading<'_>, Refused> {
    let header = Header::from_byte(*packet.first().ok_or(Refusal::TooShort)?);
    let options = header.options;
    if packet.len() < options.overhead() {
        return Err(Refusal::TooShort.into());
    }
    if packet.len() > LONGEST {
        return Err(Refusal::TooLong.into());
    }
    let place = options.data_offset()..packet.len() - usize::from(options.checksum_present);
    let mut fields = Fields::new(&packet[1..]);
    let opcode = if options.two_byte_opcode { fields.word() } else { fields.byte().into() };
    if options.length_present && usize::from(fields.word()) != place.len() {
        return Err(Refusal::Length.into());
    }
    if options.checksum_present && packet[place.end] != checksum(&packet[..place.end]) {
        return Err(Refusal::Checksum.into());
    }
    if header.destination != DESTINATION {
        return Err(Refusal::Destination.into());
    }
    let command = judge(header, opcode, &packet[place.clone()])?;
    Ok(Reading { command, options, place })
}

/// Packet making (rule 4.4): the bytes of the packet in `buffer`, and their number. Refusals: 1 if
/// `buffer` has under 512 bytes, else those of reading: 3, 7, 8, 9, 10 with its place, 11. Of
/// `header` the destination isn't looked at.
pub fn make(header: Header, opcode: u16, data: &[u8], buffer: &mut [u8]) -> Result<usize, Refused> {
    if buffer.len() < LONGEST {
        return Err(Refusal::Lent.into());
    }
    if header.options.overhead() + data.len() > LONGEST {
        return Err(Refusal::TooLong.into());
    }
    let packet = assemble(header.options, &judge(header, opcode, data)?);
    buffer[..packet.len()].copy_from_slice(&packet);
    Ok(packet.len())
}

/// The packet of a command: every field that the options announce, in order.
pub fn assemble(options: Options, command: &Command) -> Vec<u8> {
    let header = Header { destination: DESTINATION, options, direction: command.direction() };
    let data = command.data();
    let mut packet = vec![header.byte(), command.opcode().number()];
    if options.two_byte_opcode {
        packet.push(0);
    }
    if options.length_present {
        packet.extend((data.len() as u16).to_le_bytes());
    }
    packet.extend(data);
    if options.checksum_present {
        packet.push(checksum(&packet));
    }
    packet
}

/// Refusals 7 to 11: the opcode, the length field that some writes need, and the data.
fn judge(header: Header, opcode: u16, data: &[u8]) -> Result<Command<'_>, Refused> {
    let opcode = Opcode::find(opcode).ok_or(Refusal::Opcode)?;
    let needs_length = opcode.is_variable() && header.direction == Direction::Write;
    if needs_length && !header.options.length_present {
        return Err(Refusal::LengthMissing.into());
    }
    Command::parse(header.direction, opcode, data)
}
