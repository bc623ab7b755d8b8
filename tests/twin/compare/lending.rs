//! Groups on what is lent: lengths, and each byte of the settings block.

use std::ops::RangeInclusive;

use twin::block;
use twin::command::{Direction, Opcode};
use twin::scripts::hex;
use twin::settings::{COLUMNS, ROWS};

use crate::library::{LIBRARY, WITH_NULL};
use crate::recipe::Packet;
use crate::session::{Part, Session};
use crate::talking::{accepted, expect_status};

/// Packets of every kind: reads, writes into block and tables, apply, reply asked for, refused, empty.
const PACKETS: [&str; 11] = [
    "84 11",
    "44 11 01",
    "C4 35",
    "84 38",
    "14 34 06 00 03 00 01 02 03 04",
    "A4 34 00 00 04 00 E4",
    "14 2B 08 00 00 00 01 00 DF 07 34 12",
    "64 36 01 99",
    "24 11 01 36",
    "60",
    "",
];

/// Lengths that are wrong for this part; too short ones alone for the reply buffer.
fn wrong_lengths(part: Part) -> Vec<usize> {
    let right = part.length();
    let mut lengths = vec![0, 1, 2, 3, right / 2, right - 4, right - 3, right - 2, right - 1];
    if part == Part::Reply {
        lengths.extend([4, 5, 255, 257]);
    } else {
        lengths.extend([1, 2, 3, 4, right - 1, right, 3 * right, 0x1_0000].map(|more| right + more));
        // Numbers in the place of bytes, and the lengths of the others.
        lengths.extend([2 * right + 1, right / 4, 512, 1024, 7936, 12_096, 6048, 3968, 1984]);
        lengths.retain(|length| *length != right);
    }
    lengths
}

/// Lengths that are right: longer reply buffers, also such that 16 bits count as too short.
fn right_lengths(part: Part) -> Vec<usize> {
    match part {
        Part::Reply => vec![512, 513, 600, 1023, 1024, 0xFFFF, 0x1_0000, 0x1_0000 + 511],
        _ => vec![part.length()],
    }
}

/// Each lent length wrong by itself, and several at once, on packets and on reset.
pub fn lengths(session: &mut Session) {
    // A state in which each packet would show.
    settle(session, true, false);
    for table in [Part::Staged, Part::Live, Part::Gains] {
        session.fill(table, 0);
    }
    for part in Part::ALL {
        for length in wrong_lengths(part) {
            session.with_lengths(&[(part, length)], |session| {
                for packet in PACKETS.map(hex) {
                    expect_status(session, &packet, 1);
                }
                // Reset is lent no reply buffer.
                expect_reset(session, u8::from(part != Part::Reply));
            });
        }
        for length in right_lengths(part) {
            session.with_lengths(&[(part, length)], |session| {
                for packet in PACKETS.map(hex) {
                    let status = session.send(&packet).status;
                    session.expect(status != 1, || format!("twin: refuses {part:?} of {length}"));
                }
                expect_reset(session, 0);
            });
        }
    }
    for _ in 0..5000 {
        let lengths = Part::ALL.map(|part| {
            let from = if session.random.below(3) == 0 { wrong_lengths(part) } else { right_lengths(part) };
            (part, session.random.pick(&from))
        });
        session.with_lengths(&lengths, |session| {
            let packet = Packet::sound(&mut session.random).bytes();
            session.send(&packet);
            session.restart();
        });
    }
}

/// Reset, on memory that holds anything; the twin's status is this one.
fn expect_reset(session: &mut Session, due: u8) {
    let status = session.restart();
    session.expect(status == due, || format!("twin: reset gives {status}, not {due}"));
}

/// NULL with length 0 is an empty slice: each by itself, several, all.
pub fn null_pointers(session: &mut Session) {
    session.restart();
    session.entries = WITH_NULL;
    expect_status(session, &[], 2);
    for empty in 1..1 << Part::ALL.len() {
        let parts = Part::ALL.into_iter().enumerate().filter(|(index, _)| empty >> index & 1 == 1);
        let lengths: Vec<(Part, usize)> = parts.map(|(_, part)| (part, 0)).collect();
        session.with_lengths(&lengths, |session| {
            for packet in PACKETS.map(hex) {
                expect_status(session, &packet, 1);
            }
            expect_reset(session, u8::from(lengths != [(Part::Reply, 0)]));
        });
    }
    session.entries = LIBRARY;
}

/// Runs with one length wrong.
pub fn with_wrong_length(session: &mut Session, run: impl FnOnce(&mut Session)) {
    let part = session.random.pick(&Part::ALL);
    let length = session.random.pick(&wrong_lengths(part));
    session.with_lengths(&[(part, length)], run);
}

/// Runs with one setting out of range, where 255 is so whatever the others are.
pub fn with_bad_setting(session: &mut Session, run: impl FnOnce(&mut Session)) {
    const SINGLE: [usize; 16] = [0, 1, 4, 6, 7, 8, 10, 12, 201, 202, 204, 206, 395, 396, 497, 834];
    let random = &mut session.random;
    let place = match random.below(4) {
        0 => random.pick(&SINGLE),
        1 => 498 + random.below(3 * 88),
        // The high byte of a frequency, duty, on.
        2 => 762 + 6 * random.below(12) + random.pick(&[3, 4, 5]),
        _ => 835 + random.below(30),
    };
    let before = session.bytes(Part::Block)[place];
    session.put(Part::Block, place, &[255]);
    run(session);
    session.put(Part::Block, place, &[before]);
}

/// A state whose settings are anything in range, the shapes in these modes.
fn settle(session: &mut Session, staged_listed: bool, live_listed: bool) {
    session.restart();
    session.fill(Part::Block, block::JUDGED);
    for opcode in Opcode::ALL.into_iter().cycle().take(20 * Opcode::ALL.len()) {
        if opcode != Opcode::ControlPoints {
            accepted(session, opcode, Direction::Write, 0x14);
        }
    }
    for (listed, apply) in [(live_listed, true), (staged_listed, false)] {
        loop {
            accepted(session, Opcode::ControlPoints, Direction::Write, 0x14);
            if (session.bytes(Part::Block)[8] == 1) == listed {
                break;
            }
        }
        if apply {
            expect_status(session, &hex("04 36 01"), 0);
        }
    }
}

/// Runs on states with the staged and the live shape in each mode.
fn in_both_modes(session: &mut Session, run: impl Fn(&mut Session, bool, bool)) {
    for (staged_listed, live_listed) in [(false, false), (false, true), (true, false), (true, true)] {
        settle(session, staged_listed, live_listed);
        run(session, staged_listed, live_listed);
    }
}

/// Each byte of the block through all its 256 values, those without a meaning too.
pub fn every_byte(session: &mut Session) {
    let packets = PACKETS.map(hex);
    in_both_modes(session, |session, _, _| {
        let settled = session.bytes(Part::Block).to_vec();
        for place in 0..block::BYTES {
            for value in 0..=255 {
                session.put(Part::Block, 0, &settled);
                session.put(Part::Block, place, &[value]);
                let packet = &packets[(usize::from(value) + place) % packets.len()];
                let status = session.send(packet).status;
                session.expect(place < block::JUDGED || status != 1, || format!("twin: judges byte {place}"));
            }
        }
    });
}

/// A field of the block: place, bytes, range.
type Field = (usize, usize, RangeInclusive<u32>);

/// The fields that are judged each by itself.
fn fields(staged_listed: bool, live_listed: bool) -> Vec<Field> {
    let mut fields: Vec<Field> = vec![
        (0, 1, 0..=4),
        (1, 1, 0..=1),
        (2, 2, 0..=0xFFFF),
        (4, 1, 2..=8), // and 0
        (5, 1, 0..=255),
        (6, 1, 0..=3),
        (7, 1, 0..=1),
        (201, 1, 0..=1),
        (395, 1, 3..=5),
        (396, 1, 3..=5),
        (497, 1, 0..=0),
        (834, 1, 0..=1),
    ];
    for (place, listed) in [(8, staged_listed), (202, live_listed)] {
        let (columns, rows) = if listed { (62, 32) } else { (2, 2) };
        fields.extend([(place + 1, 2, columns..=62), (place + 3, 2, rows..=32)]);
    }
    fields.extend((0..50).map(|word| (397 + 2 * word, 2, 0..=0xFFFF)));
    fields.extend((498..762).map(|place| (place, 1, 0..=1)));
    for place in (0..12).map(|port| 762 + 6 * port) {
        fields.extend([(place, 4, 20..=10_390_000), (place + 4, 1, 0..=100), (place + 5, 1, 0..=1)]);
    }
    for place in (0..3).map(|port| 835 + 10 * port) {
        let highest = [1, 11, 3, 1, 2, 1, 4, 4, 1, 1];
        fields
            .extend(highest.into_iter().enumerate().map(|(field, highest)| (place + field, 1, 0..=highest)));
    }
    fields
}

/// Each field at its limits, one past them, and where one of its bytes is left out; each shape's mode.
pub fn limits(session: &mut Session) {
    in_both_modes(session, |session, staged_listed, live_listed| {
        for (place, size, range) in fields(staged_listed, live_listed) {
            let (low, high) = (*range.start(), *range.end());
            let near = [low.wrapping_sub(1), low, low + 1, high.wrapping_sub(1), high, high.wrapping_add(1)];
            let moved = [0xFF, 0x100, 0x1_0000, 0x100_0000].map(|step| high.wrapping_add(step));
            for value in near.into_iter().chain(moved).chain([0, 1, 2, u32::MAX]) {
                let value = value & u32::MAX >> (32 - 8 * size);
                let good = range.contains(&value) || place == 4 && value == 0;
                try_setting(session, place, &value.to_le_bytes()[..size], good);
            }
        }
        for (place, listed) in [(8, staged_listed), (202, live_listed)] {
            let full = session.bytes(Part::Block)[place + 1..place + 5] == [62, 0, 32, 0];
            for mode in [0, 1, 2, 255] {
                try_setting(session, place, &[mode], mode == 0 || mode == 1 && (listed || full));
            }
            for columns in [1, 2, 61, 62, 63] {
                for rows in [1, 2, 31, 32, 33] {
                    for mode in [0, 1, 2] {
                        let good = match mode {
                            0 => (2..=62).contains(&columns) && (2..=32).contains(&rows),
                            1 => (columns, rows) == (62, 32),
                            _ => false,
                        };
                        try_setting(session, place, &[mode, columns, 0, rows, 0], good);
                    }
                }
            }
        }
    });
}

/// Sends packets on a block with these bytes in it, and puts the old ones back.
fn try_setting(session: &mut Session, place: usize, bytes: &[u8], good: bool) {
    let settled = session.bytes(Part::Block).to_vec();
    session.put(Part::Block, place, bytes);
    for packet in ["84 11", "44 11 01", ""].map(hex) {
        let status = session.send(&packet).status;
        session.expect((status != 1) == good, || format!("twin: {status}, {bytes:?} at {place}"));
    }
    session.put(Part::Block, 0, &settled);
}

/// Each entry of the four lists equal to, one below and one above those beside it, in both modes.
pub fn lists(session: &mut Session) {
    in_both_modes(session, |session, _, _| {
        for (place, length) in [(13, COLUMNS), (137, ROWS), (207, COLUMNS), (331, ROWS)] {
            let step = u16::MAX / length as u16;
            // With wide gaps, without gaps from 0 on, without gaps up to 65,535.
            for (first, step) in [(step / 2, step), (0, 1), (u16::MAX - (length as u16 - 1), 1)] {
                let list: Vec<u16> = (0..length as u16).map(|index| first + step * index).collect();
                let bytes: Vec<u8> = list.iter().flat_map(|entry| entry.to_le_bytes()).collect();
                let settled = session.bytes(Part::Block).to_vec();
                session.put(Part::Block, place, &bytes);
                for index in 0..length {
                    try_entry(session, place, &list, index);
                }
                session.put(Part::Block, 0, &settled);
            }
        }
    });
}

fn try_entry(session: &mut Session, place: usize, list: &[u16], index: usize) {
    let before = index.checked_sub(1).map(|before| list[before]);
    let behind = list.get(index + 1).copied();
    let own = list[index];
    let beside = [before, behind].into_iter().flatten();
    let near = beside.flat_map(|entry| [entry.wrapping_sub(1), entry, entry.wrapping_add(1)]);
    for value in near.chain([0, u16::MAX, own, own ^ 0x100, own ^ 0x8000, own.swap_bytes()]) {
        let rises = before.is_none_or(|before| before < value) && behind.is_none_or(|behind| value < behind);
        try_setting(session, place + 2 * index, &value.to_le_bytes(), rises);
    }
}

/// Bytes without a meaning hold anything, as the row mark does, and every packet leaves them so.
pub fn meaningless(session: &mut Session) {
    in_both_modes(session, |session, _, _| {
        for round in 0..20_000 {
            session.fill(Part::Block, block::JUDGED);
            let held = session.bytes(Part::Block)[block::MEANINGLESS..].to_vec();
            let opcode = Opcode::ALL[round % Opcode::ALL.len()];
            let direction = session.random.pick(&Direction::BOTH);
            accepted(session, opcode, direction, 0x14 | if direction == Direction::Read { 0x80 } else { 0 });
            let stays = session.bytes(Part::Block)[block::MEANINGLESS..] == held;
            session.expect(stays, || format!("{opcode:?} changes bytes without a meaning"));
        }
    });
}
