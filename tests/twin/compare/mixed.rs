//! A mixed session for measuring.

use twin::command::{Direction, Opcode};
use twin::front_end::Memory;
use twin::packet::{self, Header, LONGEST};
use twin::scripts::hex;

use crate::fitting;
use crate::random::Random;

/// Reads and writes of all opcodes with any options, on a full map, one in sixteen damaged.
pub fn session(random: &mut Random) -> Vec<Vec<u8>> {
    let mut session = Vec::new();
    let reset = Memory::default();
    for _ in 0..4000 {
        let (opcode, direction) = (random.pick(&Opcode::ALL), random.pick(&Direction::BOTH));
        let header = 0x14 | random.byte() & 0x68 | if direction == Direction::Read { 0x80 } else { 0 };
        let limit = fitting::limit(&reset.block, opcode);
        let mut data = fitting::data(random, opcode, direction, LONGEST - 6, limit);
        if (opcode, direction, data.first()) == (Opcode::ControlPoints, Direction::Write, Some(&0)) {
            data = hex("00 3E 00 20 00");
        }
        let mut packet = packet_of(header, opcode, &data);
        if random.below(16) == 0 {
            let place = random.below(packet.len());
            packet[place] ^= 0x55;
        }
        session.push(packet);
    }
    session
}

pub fn packet_of(header: u8, opcode: Opcode, data: &[u8]) -> Vec<u8> {
    let mut buffer = [0; LONGEST];
    let made = packet::make(Header::from_byte(header), opcode.number().into(), data, &mut buffer);
    buffer[..made.expect("the command is sound")].to_vec()
}
