//! Session files in the making, with the twin's front end beside them: so a command can be one that
//! the state accepts, and what is answered is counted.

use twin::command::{Direction, Opcode};
use twin::front_end::{self, Memory};
use twin::packet::{Header, LONGEST};
use twin::replay::{push_record, OPENING};
use twin::scripts::hex;
use twin::settings::{GAINS, PINS, POINTS, PWM_PORTS, UARTS};

use crate::counts::{Accepted, Refusals};
use crate::fitting;
use crate::generate;
use crate::random::Random;
use crate::recipe::{Packet, FAULTS};

/// The most that a record takes of a packet that is over-long; the longest ones have groups of their own.
const KEPT: usize = 600;

pub struct Recording {
    pub file: Vec<u8>,
    pub records: u64,
    memory: Memory,
}

impl Recording {
    pub fn new() -> Self {
        Recording { file: OPENING.to_vec(), records: 0, memory: Memory::default() }
    }

    /// Adds a record; gives the status that is due.
    pub fn add(&mut self, packet: &[u8]) -> u8 {
        push_record(&mut self.file, packet);
        self.records += 1;
        front_end::packet(packet, self.memory.lend(), &mut [0; LONGEST]).status
    }

    /// Adds a command that the state accepts, and counts it.
    pub fn accepted(
        &mut self,
        random: &mut Random,
        (opcode, direction, header): (Opcode, Direction, u8),
        counts: &mut Accepted,
    ) {
        let header_read = Header::from_byte(header);
        let room = LONGEST - header_read.options.overhead();
        let limit = fitting::limit(&self.memory.block, opcode);
        let data = fitting::data(random, opcode, direction, room, limit);
        if self.add(&Packet::new(header, opcode.number().into(), data).bytes()) == 0 {
            counts.count(opcode, header_read);
        }
    }

    /// Adds a packet that is refused, each refusal in turn, or one of a few bytes, and counts it.
    pub fn refused(&mut self, random: &mut Random, turn: usize, counts: &mut Refusals) {
        let packet = match FAULTS.get(turn % (FAULTS.len() + 2)) {
            Some(fault) => Packet::faulty(random, *fault),
            None if random.flag() => self.past_table(random),
            None => Packet { kept: random.below(12), ..Packet::sound(random) },
        };
        let mut packet = packet.bytes();
        if packet.len() > KEPT {
            packet.truncate(LONGEST + 1 + random.below(KEPT - LONGEST));
        }
        counts.count(self.add(&packet));
    }

    /// A 34h or 2Bh command whose start + count goes past the end of the table.
    fn past_table(&self, random: &mut Random) -> Packet {
        let (opcode, direction) = (random.pick(&[Opcode::Map, Opcode::Gains]), random.pick(&Direction::BOTH));
        let mut packet = Packet::of(random, opcode, direction);
        let count = fitting::count(&packet.data, opcode, direction);
        let start = fitting::past_start(random, count, fitting::limit(&self.memory.block, opcode));
        let place = generate::start_place(opcode, direction).expect("both have a start");
        packet.data[place].copy_from_slice(&start.to_le_bytes());
        packet
    }

    /// Adds reads of all that a read can show of the end state, the map in its full shape.
    pub fn read_all(&mut self) {
        self.add(&hex("84 35"));
        self.add(&hex("14 35 05 00 00 3E 00 20 00"));
        for opcode in Opcode::ALL {
            for data in every_read(opcode) {
                self.add(&Packet::new(0x84, opcode.number().into(), data).bytes());
            }
        }
    }

    /// A short session of sound and faulty packets, not counted.
    pub fn short(random: &mut Random, records: usize) -> Self {
        let mut recording = Recording::new();
        for _ in 0..records {
            let fault = random.pick(&FAULTS);
            let packet = match random.below(3) {
                0 => Packet::faulty(random, fault),
                _ => Packet::sound(random),
            };
            let mut bytes = packet.bytes();
            bytes.truncate(KEPT);
            recording.add(&bytes);
        }
        recording
    }
}

/// The data of reads that together return all that an opcode has.
fn every_read(opcode: Opcode) -> Vec<Vec<u8>> {
    let words =
        |numbers: &[usize]| numbers.iter().flat_map(|number| (*number as u16).to_le_bytes()).collect();
    match opcode {
        Opcode::Map => (0..POINTS).step_by(124).map(|start| words(&[start, 124])).collect(),
        Opcode::Gains => (1..=3)
            .flat_map(|colour| (0..GAINS).step_by(252).map(move |start| (colour, start)))
            .map(|(colour, start)| [vec![colour], words(&[start, 252])].concat())
            .collect(),
        Opcode::Pin | Opcode::PinLevel => (0..PINS as u8).map(|pin| vec![pin]).collect(),
        Opcode::Pwm => PWM_PORTS.map(|port| vec![port]).to_vec(),
        Opcode::Uart => (0..UARTS as u8).map(|port| vec![port]).collect(),
        _ => vec![vec![]],
    }
}
