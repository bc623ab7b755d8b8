//! Packets by their fields, each of which can be made wrong.

use twin::command::{Command, Direction, Opcode};
use twin::fields::checksum;
use twin::packet::{Header, LONGEST};
use twin::refusal::Refusal;

use crate::generate;
use crate::random::Random;

/// The refusals that reading gives: the faults that a packet has by itself.
pub const FAULTS: [Refusal; 10] = [
    Refusal::TooShort,
    Refusal::TooLong,
    Refusal::Length,
    Refusal::Checksum,
    Refusal::Destination,
    Refusal::Opcode,
    Refusal::LengthMissing,
    Refusal::Size,
    Refusal::Range,
    Refusal::NotCarried,
];

/// Whether no packet can call for both refusals: none is too short and too long; none has a wrong
/// length field and has none; and what is named but not carried is one value of a command that has one
/// size of data and no start.
pub fn never_together(first: Refusal, second: Refusal) -> bool {
    let beside_not_carried = [Refusal::LengthMissing, Refusal::Range, Refusal::PastTable];
    match (first, second) {
        (Refusal::TooShort, Refusal::TooLong) | (Refusal::Length, Refusal::LengthMissing) => true,
        (Refusal::NotCarried, other) | (other, Refusal::NotCarried) => beside_not_carried.contains(&other),
        _ => false,
    }
}

/// A packet's fields, how far the length field and the checksum are off, and how many bytes of it
/// are kept.
#[derive(Clone)]
pub struct Packet {
    pub header: u8,
    pub opcode: u16,
    pub data: Vec<u8>,
    pub length_error: u16,
    pub checksum_error: u8,
    pub kept: usize,
}

impl Packet {
    /// A packet without a fault that carries this data.
    pub fn new(header: u8, opcode: u16, data: Vec<u8>) -> Self {
        Packet { header, opcode, data, length_error: 0, checksum_error: 0, kept: usize::MAX }
    }

    /// A packet without a fault: any command, any options, short enough to take every other field
    /// and a few bytes more.
    pub fn sound(random: &mut Random) -> Self {
        let opcode = random.pick(&Opcode::ALL);
        let direction = random.pick(&Direction::BOTH);
        Packet::of(random, opcode, direction)
    }

    /// The same for this opcode and direction.
    pub fn of(random: &mut Random, opcode: Opcode, direction: Direction) -> Self {
        let mut header = 4 | random.byte() & 0x78;
        if direction == Direction::Read {
            header |= 0x80;
        } else if opcode.is_variable() {
            header |= 0x10;
        }
        let data = generate::data(random, opcode, direction, LONGEST - 14);
        Packet::new(header, opcode.number().into(), data)
    }

    /// A packet with this fault alone.
    pub fn faulty(random: &mut Random, fault: Refusal) -> Self {
        loop {
            if let Some(packet) = Packet::sound(random).spoilt(random, fault) {
                return packet;
            }
        }
    }

    /// A packet with the second fault alone, and one with both.
    pub fn pair(random: &mut Random, first: Refusal, second: Refusal) -> (Self, Self) {
        loop {
            let one = Packet::faulty(random, second);
            if let Some(both) = one.spoilt(random, first) {
                return (one, both);
            }
        }
    }

    /// The bytes, written field by field.
    pub fn bytes(&self) -> Vec<u8> {
        let mut bytes = vec![self.header];
        let [low, high] = self.opcode.to_le_bytes();
        bytes.push(low);
        if self.header & 0x08 != 0 {
            bytes.push(high);
        }
        if self.header & 0x10 != 0 {
            let length = (self.data.len() as u16).wrapping_add(self.length_error);
            bytes.extend(length.to_le_bytes());
        }
        bytes.extend(&self.data);
        if self.header & 0x20 != 0 {
            bytes.push(checksum(&bytes).wrapping_add(self.checksum_error));
        }
        bytes.truncate(self.kept);
        bytes
    }

    /// This packet with one more fault; none if its command can't have that fault.
    pub fn spoilt(&self, random: &mut Random, fault: Refusal) -> Option<Self> {
        let mut packet = self.clone();
        match fault {
            Refusal::TooShort => {
                packet.kept = random.below(Header::from_byte(self.header).options.overhead())
            }
            Refusal::TooLong => {
                // As many bytes as 16 bits would count, or more than 512 by one or a few.
                let length = random.pick(&[513, 514, 600, 65_536, 65_536 + self.data.len(), 66_048]);
                let more = length.saturating_sub(self.bytes().len()).max(1);
                packet.data.extend(random.bytes(more));
            }
            Refusal::Length => {
                packet.header |= 0x10;
                packet.length_error = random.pick(&[1, 2, 0x100, 0x8000, 0xFF00, 0xFFFF]);
            }
            Refusal::Checksum => {
                packet.header |= 0x20;
                packet.checksum_error = random.pick(&[1, 2, 0x80, 0xFF]);
            }
            Refusal::Destination => packet.header ^= 1 + random.below(7) as u8,
            Refusal::Opcode if random.flag() => {
                packet.header |= 0x08;
                packet.opcode |= 0x100 << random.below(8);
            }
            Refusal::Opcode => packet.opcode = other_opcode(random),
            Refusal::LengthMissing => {
                packet.header &= !0x10;
                let (direction, opcode) = packet.command()?;
                (opcode.is_variable() && direction == Direction::Write).then_some(())?;
            }
            Refusal::Size => {
                if self.fault().is_none() && random.flag() {
                    packet.data.truncate(random.below(self.data.len() + 1));
                } else {
                    let more = 1 + random.below(8);
                    packet.data.extend(random.bytes(more));
                }
                (packet.fault()? == fault).then_some(())?;
            }
            Refusal::Range => {
                let places = Some(self.data.len()).filter(|places| *places > 0)?;
                packet.data[random.below(places)] = random.byte();
                (packet.fault()? == fault).then_some(())?;
            }
            Refusal::NotCarried => {
                *packet.data.first_mut()? = 1;
                (packet.fault()? == fault).then_some(())?;
            }
            Refusal::PastTable => {
                // Past every table, whatever the count.
                let start = random.pick(&[2016, 2017, 0x7FFF, 0x8000, 0xFF00, 0xFFFE, u16::MAX]);
                let (direction, opcode) = packet.command()?;
                let place = generate::start_place(opcode, direction)?;
                packet.data.get_mut(place)?.copy_from_slice(&start.to_le_bytes());
            }
            // A fault of what is lent, and of no packet.
            Refusal::Lent => return None,
        }
        Some(packet)
    }

    fn command(&self) -> Option<(Direction, Opcode)> {
        Some((Header::from_byte(self.header).direction, Opcode::find(self.opcode)?))
    }

    /// What is wrong with the data, apart from the frame.
    fn fault(&self) -> Option<Refusal> {
        let (direction, opcode) = self.command()?;
        Command::parse(direction, opcode, &self.data).err().map(|refused| refused.refusal)
    }
}

/// A one-byte opcode that isn't carried.
pub fn other_opcode(random: &mut Random) -> u16 {
    loop {
        let opcode = random.byte().into();
        if Opcode::find(opcode).is_none() {
            return opcode;
        }
    }
}
