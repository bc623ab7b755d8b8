//! Groups on `vermolgas_make` alone.

use twin::command::{Direction, Opcode};
use twin::packet::{self, Header, LONGEST};
use twin::refusal::Refusal;

use crate::bench::Bench;
use crate::counts::OFTEN;
use crate::generate;
use crate::recipe::{never_together, Packet};

/// The refusals that making gives.
pub const REFUSALS: [Refusal; 7] = [
    Refusal::Lent,
    Refusal::TooLong,
    Refusal::Opcode,
    Refusal::LengthMissing,
    Refusal::Size,
    Refusal::Range,
    Refusal::NotCarried,
];

/// Every opcode of 16 bits, with data that its low byte would take, and every options byte with
/// every command.
pub fn opcodes_and_options(bench: &mut Bench) {
    for number in 0..=u16::MAX {
        let packet = match Opcode::find(number & 0xFF) {
            Some(opcode) => {
                let direction = bench.random.pick(&Direction::BOTH);
                Packet::of(&mut bench.random, opcode, direction)
            }
            None => Packet::sound(&mut bench.random),
        };
        bench.make(number, packet.header, &packet.data, LONGEST);
    }
    for opcode in Opcode::ALL {
        for options in 0..=255 {
            for direction in Direction::BOTH {
                let data = generate::data(&mut bench.random, opcode, direction, LONGEST - 6);
                bench.make(opcode.number().into(), options, &data, LONGEST);
            }
        }
    }
}

/// Buffers shorter and longer than 512 bytes, also those that 16 bits would count as short.
pub fn buffers(bench: &mut Bench) {
    for room in [0, 1, 2, 256, 510, 511, 512, 513, 514, 1023, 1024, 65_535, 65_536, 65_537, 66_047, 66_048] {
        for _ in 0..200 {
            let packet = Packet::sound(&mut bench.random);
            bench.make(packet.opcode, packet.header, &packet.data, room);
            let fault = bench.random.pick(&REFUSALS);
            if let Some(packet) = packet.spoilt(&mut bench.random, fault) {
                bench.make(packet.opcode, packet.header, &packet.data, room);
            }
        }
    }
}

/// Data of any length: every one up to and past 512, and 65,536 more than what is accepted.
pub fn sizes(bench: &mut Bench) {
    for size in 0..=LONGEST + 8 {
        for _ in 0..30 {
            let mut packet = Packet::sound(&mut bench.random);
            packet.data.resize(size, 0);
            bench.make(packet.opcode, packet.header, &packet.data, LONGEST);
        }
    }
    for _ in 0..1000 {
        let mut packet = Packet::sound(&mut bench.random);
        let wraps = bench.random.pick(&[0x1_0000, 0x1_0000 - 6, 0x2_0000]);
        packet.data.resize(wraps + packet.data.len(), 0);
        bench.make(packet.opcode, packet.header, &packet.data, LONGEST);
    }
}

/// Two faults at once: the one tried first is answered.
pub fn order(bench: &mut Bench) {
    for (index, first) in REFUSALS.into_iter().enumerate() {
        let others = REFUSALS.into_iter().skip(index + 1);
        for second in others.filter(|second| !never_together(first, *second)) {
            for _ in 0..OFTEN {
                // A buffer too short is a fault of its own, beside any packet.
                let (one, both, room) = match first {
                    Refusal::Lent => {
                        let one = Packet::faulty(&mut bench.random, second);
                        (one.clone(), one, bench.random.below(LONGEST))
                    }
                    _ => {
                        let (one, both) = Packet::pair(&mut bench.random, first, second);
                        (one, both, LONGEST)
                    }
                };
                for (packet, room, due) in [(one, LONGEST, second), (both, room, first)] {
                    let header = Header::from_byte(packet.header);
                    let made = packet::make(header, packet.opcode, &packet.data, &mut [0; LONGEST][..room]);
                    let refusal = made.err().map(|refused| refused.refusal);
                    bench.expect(refusal == Some(due), || format!("twin: {made:?}, not {due:?}"));
                    bench.make(packet.opcode, packet.header, &packet.data, room);
                }
            }
        }
    }
}

/// Uniformly random arguments.
pub fn random_arguments(bench: &mut Bench) {
    for _ in 0..100_000 {
        let opcode = bench.random.next() as u16 & bench.random.pick(&[0xFF, 0xFFFF]);
        let options = bench.random.byte();
        let size = bench.random.below(12);
        let data = bench.random.bytes(size);
        let room = bench.random.pick(&[511, 512, 512, 512, 600]);
        bench.make(opcode, options, &data, room);
    }
}
