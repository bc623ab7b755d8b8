//! Groups of packets on lengths and settings that are right.

use twin::command::{Direction, Opcode};
use twin::packet::{Header, LONGEST};
use twin::refusal::Refusal;
use twin::replay::OPENING;
use twin::scripts::{hex, SCRIPTS};
use twin::settings::GAINS;

use crate::counts::{headers, OFTEN};
use crate::fitting;
use crate::generate;
use crate::lending;
use crate::recipe::{never_together, Packet, FAULTS};
use crate::report;
use crate::session::{Part, Session};
use crate::session_files;

/// The sessions by hand, each answer and reply as written there.
pub fn scripts(session: &mut Session) {
    for script in SCRIPTS {
        session.restart();
        for (packet, status, reply) in script.steps {
            let answer = session.send(&hex(packet));
            let written = session.bytes(Part::Reply)[..answer.length].to_vec();
            session.expect(answer.status == *status && written == hex(reply), || {
                format!("{}, {packet}: {} {written:02X?}, not {status} {reply}", script.name, answer.status)
            });
        }
    }
}

/// The packets of every session file, from reset on: the whole state is the twin's after each, and the row
/// mark is right.
pub fn session_files(session: &mut Session) {
    for file in session_files::all() {
        session.restart();
        for packet in records(&file.bytes) {
            session.send(packet);
            let [mark, right] = session.marks();
            session.expect(mark == right, || format!("{}: mark {mark:#x}, not {right:#x}", file.name));
        }
    }
}

/// The packets of a session file's whole records; none if it is no session.
fn records(file: &[u8]) -> Vec<&[u8]> {
    let mut rest = file.strip_prefix(&OPENING[..]).unwrap_or_default();
    let mut packets = Vec::new();
    while let Some((length, behind)) = rest.split_first_chunk() {
        let Some((packet, next)) = behind.split_at_checked(u16::from_le_bytes(*length).into()) else { break };
        packets.push(packet);
        rest = next;
    }
    packets
}

/// Long sessions from reset: every command in every frame, in any order and accepted, and between
/// them everything that is refused.
pub fn sessions(session: &mut Session) {
    let mut headers: Vec<_> = headers().collect();
    let mut other = 0;
    for round in 0..OFTEN {
        if round % 20 == 0 {
            start(session);
        }
        for index in (1..headers.len()).rev() {
            headers.swap(index, session.random.below(index + 1));
        }
        for (opcode, direction, header) in &headers {
            accepted(session, *opcode, *direction, *header);
            if session.random.flag() {
                refused(session, other);
                other += 1;
            }
        }
    }
}

/// Reset. Half of the time tables, the row mark and bytes without a meaning then hold anything.
fn start(session: &mut Session) {
    session.restart();
    if session.random.flag() {
        session.fill(Part::Block, twin::block::JUDGED);
        for table in [Part::Staged, Part::Live, Part::Gains] {
            session.fill(table, 0);
        }
    }
}

/// Sends a command that the state accepts.
pub fn accepted(session: &mut Session, opcode: Opcode, direction: Direction, header: u8) {
    let room = LONGEST - Header::from_byte(header).options.overhead();
    let limit = fitting::limit(session.bytes(Part::Block), opcode);
    let data = fitting::data(&mut session.random, opcode, direction, room, limit);
    let packet = Packet::new(header, opcode.number().into(), data).bytes();
    expect_status(session, &packet, 0);
}

/// Sends a packet that is refused, or is nearly, each kind in turn.
fn refused(session: &mut Session, turn: usize) {
    const KINDS: usize = FAULTS.len() + 5;
    match (turn % KINDS).checked_sub(FAULTS.len()) {
        None => {
            let fault = FAULTS[turn % KINDS];
            let packet = Packet::faulty(&mut session.random, fault).bytes();
            expect_status(session, &packet, fault.number());
        }
        Some(0) => past_table(session),
        Some(1) => {
            let length = session.random.below(12);
            let packet = session.random.bytes(length);
            session.send(&packet);
        }
        Some(2) => {
            let packet = Packet::sound(&mut session.random).bytes();
            session.send(&packet);
        }
        Some(3) => lending::with_bad_setting(session, |session| {
            let packet = Packet::sound(&mut session.random).bytes();
            expect_status(session, &packet, 1);
        }),
        _ => lending::with_wrong_length(session, |session| {
            let packet = Packet::sound(&mut session.random).bytes();
            expect_status(session, &packet, 1);
        }),
    }
}

/// Sends a packet; the twin's status is this one.
pub fn expect_status(session: &mut Session, packet: &[u8], due: u8) {
    let status = session.send(packet).status;
    session.expect(status == due, || format!("twin: {status}, not {due}: {}", report::hex(packet)));
}

/// Sends a 34h or 2Bh command whose start + count goes past the end of the table.
fn past_table(session: &mut Session) {
    let random = &mut session.random;
    let (opcode, direction) = (random.pick(&[Opcode::Map, Opcode::Gains]), random.pick(&Direction::BOTH));
    let mut packet = Packet::of(random, opcode, direction);
    let limit = fitting::limit(session.bytes(Part::Block), opcode);
    let count = fitting::count(&packet.data, opcode, direction);
    let start = fitting::past_start(&mut session.random, count, limit);
    let place = generate::start_place(opcode, direction).expect("both have a start");
    packet.data[place].copy_from_slice(&start.to_le_bytes());
    expect_status(session, &packet.bytes(), Refusal::PastTable.number());
}

/// 34h on every number of columns and rows, and 2Bh in every colour: up to the table's end, one past
/// it, and from starts whose sum with the count wraps.
pub fn start_and_count(session: &mut Session) {
    let shapes = (2..=62).flat_map(|columns| (2..=32).map(move |rows| (columns, rows)));
    for (columns, rows) in shapes {
        if session.random.below(8) == 0 {
            start(session);
        }
        expect_status(session, &[0x14, 0x35, 5, 0, 0, columns, 0, rows, 0], 0);
        let limit = usize::from(columns) * usize::from(rows);
        for count in [1, 2, limit.min(126), 126] {
            for (start, due) in edges(limit, count) {
                let points = session.random.bytes(4 * count);
                let data = [&start.to_le_bytes()[..], &points].concat();
                expect_status(session, &Packet::new(0x14, 0x34, data).bytes(), due);
            }
        }
        for count in [1, 2, limit.min(127), 127] {
            for (start, due) in edges(limit, count) {
                let data = [start.to_le_bytes(), (count as u16).to_le_bytes()].concat();
                expect_status(session, &Packet::new(0x84, 0x34, data).bytes(), due);
            }
        }
    }
    for colour in (0..4).cycle().take(400) {
        for count in [1, 2, 251] {
            for (start, due) in edges(GAINS, count) {
                let words = gain_bytes(session, count);
                let data = [&[0, colour], &(count as u16).to_le_bytes()[..], &start.to_le_bytes(), &words];
                expect_status(session, &Packet::new(0x14, 0x2B, data.concat()).bytes(), due);
            }
        }
        for count in [1, 2, 254] {
            for (start, due) in edges(GAINS, count) {
                let due = if colour == 0 { Refusal::Range.number() } else { due };
                let data = [&[colour], &start.to_le_bytes()[..], &(count as u16).to_le_bytes()];
                expect_status(session, &Packet::new(0x84, 0x2B, data.concat()).bytes(), due);
            }
        }
    }
}

/// Gains in range.
fn gain_bytes(session: &mut Session, count: usize) -> Vec<u8> {
    (0..count).flat_map(|_| session.random.word_within(0..=8191).to_le_bytes()).collect()
}

/// Starts for this count, with the status due.
fn edges(limit: usize, count: usize) -> Vec<(u16, u8)> {
    let starts =
        [0, 1, limit, 0x8000, 0xFFFE, 0xFFFF, 0x1_0000 - count, (limit + 0x1_0000 - count) % 0x1_0000];
    let near = [(limit + 1).saturating_sub(count), limit.saturating_sub(count)];
    let status = |start: usize| if start + count <= limit { 0 } else { 12 };
    starts.into_iter().chain(near).map(|start| (start as u16, status(start))).collect()
}

/// Two faults at once: the one tried first is answered. Refusal 12 below every fault of a packet,
/// and refusal 1 above them all.
pub fn order(session: &mut Session) {
    session.restart();
    for first in FAULTS.into_iter().filter(|first| !never_together(*first, Refusal::PastTable)) {
        for _ in 0..OFTEN {
            let (one, both) = Packet::pair(&mut session.random, first, Refusal::PastTable);
            expect_status(session, &one.bytes(), Refusal::PastTable.number());
            expect_status(session, &both.bytes(), first.number());
        }
    }
    for fault in FAULTS.into_iter().chain([Refusal::PastTable]) {
        for _ in 0..OFTEN {
            let packet = Packet::faulty(&mut session.random, fault).bytes();
            lending::with_bad_setting(session, |session| expect_status(session, &packet, 1));
            lending::with_wrong_length(session, |session| expect_status(session, &packet, 1));
            expect_status(session, &packet, fault.number());
        }
    }
}

/// After an apply, no packet but another one changes the live map and shape.
pub fn apply(session: &mut Session) {
    for _ in 0..300 {
        start(session);
        for opcode in [Opcode::ControlPoints, Opcode::Map, Opcode::Map] {
            accepted(session, opcode, Direction::Write, 0x14);
        }
        expect_status(session, &hex("04 36 01"), 0);
        let (block, live) = (session.bytes(Part::Block).to_vec(), session.bytes(Part::Live).to_vec());
        session.expect(block[201] == 1 && block[202..395] == block[8..201], || {
            format!("applied shape {:02X?} from {:02X?}", &block[201..395], &block[8..201])
        });
        let whole = live == session.bytes(Part::Staged);
        session.expect(whole, || "the live map isn't the staged one".to_string());
        for _ in 0..60 {
            let header = 0x14 | session.random.byte() & 0x68;
            match session.random.below(4) {
                0 => accepted(session, Opcode::Map, Direction::Write, header),
                1 => accepted(session, Opcode::ControlPoints, Direction::Write, header),
                2 => expect_status(session, &hex("04 36 00"), 0),
                _ => {
                    let mut packet = Packet::sound(&mut session.random);
                    if packet.opcode == 0x36 {
                        packet.data.fill(0);
                    }
                    session.send(&packet.bytes());
                }
            }
            let stays =
                session.bytes(Part::Live) == live && session.bytes(Part::Block)[202..395] == block[202..395];
            session.expect(stays, || "the live map or shape has changed".to_string());
        }
    }
}

/// Lists kept through mode 0, smooth points kept past those written, one level for 60h and 61h.
pub fn kept(session: &mut Session) {
    for _ in 0..500 {
        start(session);
        let lists = loop {
            let data =
                generate::data(&mut session.random, Opcode::ControlPoints, Direction::Write, LONGEST - 4);
            if data[0] == 1 {
                break data;
            }
        };
        expect_status(session, &Packet::new(0x14, 0x35, lists.clone()).bytes(), 0);
        accepted(session, Opcode::Apply, Direction::Write, 0x04);
        expect_status(session, &hex("14 35 05 00 00 03 00 04 00"), 0);
        let kept = session.bytes(Part::Block)[13..201] == lists[1..];
        session.expect(kept, || "mode 0 has changed the lists".to_string());

        accepted(session, Opcode::SmoothTable, Direction::Write, 0x14);
        let before = session.bytes(Part::Block)[395..497].to_vec();
        accepted(session, Opcode::SmoothTable, Direction::Write, 0x14);
        let after = session.bytes(Part::Block)[395..497].to_vec();
        let used = 2 + 4 * usize::from(after[0]) * usize::from(after[1]);
        session.expect(before[used..] == after[used..], || "38h has changed points past its own".to_string());

        let (pin, level) = (session.random.byte_within(0..=87), u8::from(session.random.flag()));
        expect_status(session, &[0x04, 0x60, pin, 0, level ^ 1, 1], 0);
        expect_status(session, &[0x04, 0x61, pin, level], 0);
        for (opcode, returned) in [(0x60, &[0, level, 1][..]), (0x61, &[level])] {
            let answer = session.send(&[0x84, opcode, pin]);
            let data = session.bytes(Part::Reply)[3..answer.length].to_vec();
            session.expect(data == returned, || format!("{opcode:02X}h returns {data:?}, not {returned:?}"));
        }
    }
}

/// Gains lent above 8,191 are read back as they lie; colour 0 writes all three thirds.
pub fn gains(session: &mut Session) {
    for _ in 0..1000 {
        session.restart();
        session.fill(Part::Gains, 0);
        let random = &mut session.random;
        let (colour, count) = (random.byte_within(1..=3), random.word_within(1..=254));
        let start = random.word_within(0..=2016 - count);
        let data = [&[colour][..], &start.to_le_bytes(), &count.to_le_bytes()].concat();
        let answer = session.send(&Packet::new(0x84, 0x2B, data).bytes());
        let place = 2 * (GAINS * usize::from(colour - 1) + usize::from(start));
        let due = session.bytes(Part::Gains)[place..][..2 * usize::from(count)].to_vec();
        let reply = session.bytes(Part::Reply)[3..answer.length].to_vec();
        session.expect(reply == due, || {
            format!("gains {start}, {count} of colour {colour} read back otherwise")
        });

        let count = count.min(250);
        let words = gain_bytes(session, count.into());
        let data = [&[0, 0][..], &count.to_le_bytes(), &start.to_le_bytes(), &words].concat();
        expect_status(session, &Packet::new(0x14, 0x2B, data).bytes(), 0);
        for third in 0..3 {
            let place = 2 * (GAINS * third + usize::from(start));
            let written = session.bytes(Part::Gains)[place..].starts_with(&words);
            session.expect(written, || format!("colour 0 leaves out third {third}"));
        }
    }
}

/// Random bytes, and random data of the right size in a frame without a fault.
pub fn random_bytes(session: &mut Session) {
    for round in 0..100_000 {
        if round % 5000 == 0 {
            start(session);
        }
        let most = session.random.pick(&[4, 8, 16, 600]);
        let length = session.random.below(most);
        let mut packet = session.random.bytes(length);
        session.send(&packet);
        if let Some(header) = packet.first_mut() {
            *header = *header & 0xF8 | 4;
            session.send(&packet);
        }
        let mut packet = Packet::sound(&mut session.random);
        packet.data = session.random.bytes(packet.data.len());
        session.send(&packet.bytes());
    }
}
