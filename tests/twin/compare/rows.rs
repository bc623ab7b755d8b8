//! Groups on the row mark: writes of points at the borders of rows, shapes, apply, everything that leaves
//! the mark; and the entry that counts its rows. The marks lent are right and wrong ones. The whole state is
//! held against the twin's, and the mark against one told point by point.

use std::ops::Range;

use twin::block;
use twin::command::{Direction, Opcode};
use twin::front_end::Answer;
use twin::packet::LONGEST;
use twin::refusal::Refusal;
use twin::scripts::hex;

use crate::counts::{headers, OFTEN};
use crate::fitting;
use crate::generate;
use crate::lending::{with_bad_setting, with_wrong_length};
use crate::library::{LIBRARY, WITH_NULL};
use crate::mark;
use crate::recipe::{Packet, FAULTS};
use crate::report;
use crate::row_counts::{Marked, Seen};
use crate::session::{Part, Session};

/// The most points of a write.
const MOST_POINTS: usize = 126;

fn marked(session: &Session) -> Marked {
    let [mark, right] = session.marks();
    let block = session.bytes(Part::Block);
    Marked { mode: mark::mode(block), shape: mark::shape(block), mark, right }
}

/// Sends a packet and counts what it did to the mark.
fn send(session: &mut Session, packet: &[u8]) -> Answer {
    let before = marked(session);
    let answer = session.send(packet);
    let touched = if answer.status == 0 { mark::touched(packet, session.bytes(Part::Block)) } else { 0 };
    let seen = Seen { packet, status: answer.status, before, after: marked(session), touched };
    session.rows.count(&seen);
    answer
}

/// Sends a packet; the twin's status is this one.
fn expect_status(session: &mut Session, packet: &[u8], due: u8) {
    let status = send(session, packet).status;
    session.expect(status == due, || format!("twin: {status}, not {due}: {}", report::hex(packet)));
}

/// A command that the state accepts, with room for every field and a few bytes more.
fn fitting(session: &mut Session, opcode: Opcode, direction: Direction, header: u8) -> Packet {
    let limit = fitting::limit(session.bytes(Part::Block), opcode);
    let data = fitting::data(&mut session.random, opcode, direction, LONGEST - 14, limit);
    Packet::new(header, opcode.number().into(), data)
}

fn put_mark(session: &mut Session, mark: u32) {
    session.put(Part::Block, block::MARK.start, &mark.to_le_bytes());
}

/// Lends a mark: the right one, all bits, none, one bit, or anything.
fn lend_mark(session: &mut Session) {
    let mark = match session.random.below(6) {
        0 | 1 => session.marks()[1],
        2 => u32::MAX,
        3 => 0,
        4 => 1 << session.random.below(32),
        _ => session.random.next() as u32,
    };
    session.fill(Part::Block, block::MEANINGLESS);
    put_mark(session, mark);
}

/// Two maps that hold anything and are alike, in this shape, with the right mark; in mode 0.
fn settle(session: &mut Session, columns: usize, rows: usize) {
    settle_by(session, vec![0, columns as u8, 0, rows as u8, 0]);
}

/// The same in mode 1: 62 × 32 by lists.
fn settle_listed(session: &mut Session) {
    let lists = generate::rising_lists(&mut session.random);
    settle_by(session, [&[1], lists.as_flattened()].concat());
}

fn settle_by(session: &mut Session, shape: Vec<u8>) {
    session.restart();
    session.fill(Part::Staged, 0);
    let staged = session.bytes(Part::Staged).to_vec();
    session.put(Part::Live, 0, &staged);
    expect_status(session, &Packet::new(0x14, 0x35, shape).bytes(), 0);
}

/// Lends so many bytes of the staged points with another bit, any of these points.
fn move_points(session: &mut Session, points: usize, moves: usize) {
    for _ in 0..moves {
        let place = session.random.below(4 * points);
        let byte = session.bytes(Part::Staged)[place] ^ 1 << session.random.below(8);
        session.put(Part::Staged, place, &[byte]);
    }
}

/// The live points of these indices.
fn live_points(session: &Session, place: &Range<usize>) -> Vec<u8> {
    session.bytes(Part::Live)[4 * place.start..4 * place.end].to_vec()
}

/// Points for these indices: the live ones, those but for one bit, the staged ones, or anything.
fn any_points(session: &mut Session, place: &Range<usize>) -> Vec<u8> {
    let live = live_points(session, place);
    match session.random.below(5) {
        0 | 1 => live,
        2 => moved(session, live),
        3 => session.bytes(Part::Staged)[4 * place.start..4 * place.end].to_vec(),
        _ => session.random.bytes(4 * place.len()),
    }
}

/// The points with one bit flipped.
fn moved(session: &mut Session, mut points: Vec<u8>) -> Vec<u8> {
    let byte = session.random.below(points.len());
    points[byte] ^= 1 << session.random.below(8);
    points
}

fn write_points(session: &mut Session, start: usize, points: &[u8]) {
    let data = [&(start as u16).to_le_bytes()[..], points].concat();
    let header = 0x14 | session.random.byte() & 0x28;
    expect_status(session, &Packet::new(header, 0x34, data).bytes(), 0);
}

/// Writes that begin and end at rows' borders, one point before them and one behind, and writes of as many
/// points as a packet takes; on every number of columns and of rows.
pub fn borders(session: &mut Session) {
    for columns in 2..=62 {
        let turn = 3 + columns % 28;
        for rows in [2, 3, turn, 31, 32] {
            settle(session, columns, rows);
            write_spans(session, columns, rows);
        }
    }
}

/// The same writes in mode 1, and a row's points equal again.
pub fn listed(session: &mut Session) {
    for _ in 0..10 {
        settle_listed(session);
        write_spans(session, 62, 32);
    }
    settle_listed(session);
    bring_back(session, 62, 32);
}

/// Writes near the borders of rows, some of whose points moved, on marks of every kind.
fn write_spans(session: &mut Session, columns: usize, rows: usize) {
    move_points(session, columns * rows, rows / 2);
    for place in spans(columns, rows) {
        lend_mark(session);
        let points = any_points(session, &place);
        write_points(session, place.start, &points);
    }
}

/// Places near the borders of the first rows, of some in the middle and of the last ones.
fn spans(columns: usize, rows: usize) -> Vec<Range<usize>> {
    let points = columns * rows;
    let middle = rows / 2;
    let borders = [0, 1, 2, middle, middle + 1, rows - 1, rows];
    let near = borders.into_iter().filter(|row| *row <= rows).flat_map(|row| {
        let border = columns * row;
        [border.saturating_sub(1), border, border + 1]
    });
    let mut near: Vec<usize> = near.filter(|place| *place <= points).collect();
    near.sort();
    near.dedup();
    let mut spans = Vec::new();
    for start in &near {
        let ends = near.iter().copied().chain([start + 1, points.min(start + MOST_POINTS)]);
        spans.extend(
            ends.filter(|end| (start + 1..=start + MOST_POINTS).contains(end)).map(|end| *start..end),
        );
    }
    spans.retain(|span| span.end <= points);
    spans
}

/// Writes over many rows at once: any place of maps of few columns.
pub fn narrow(session: &mut Session) {
    for (columns, rows) in [(2, 32), (2, 31), (3, 32), (3, 30), (4, 32), (5, 32)] {
        settle(session, columns, rows);
        move_points(session, columns * rows, rows);
        for _ in 0..1000 {
            let start = if session.random.flag() { 0 } else { session.random.below(columns * rows) };
            let most = MOST_POINTS.min(columns * rows - start);
            let count = if session.random.flag() { most } else { 1 + session.random.below(most) };
            lend_mark(session);
            let points = any_points(session, &(start..start + count));
            write_points(session, start, &points);
        }
    }
}

/// A row's only point that differs, at each of its places, made equal again; and one of two that differ.
pub fn equal_again(session: &mut Session) {
    for (columns, rows) in [(2, 2), (2, 32), (3, 17), (31, 32), (61, 31), (62, 32)] {
        settle(session, columns, rows);
        bring_back(session, columns, rows);
    }
}

/// Moves each point of two maps that are alike, then one beside it, and brings them back one by one.
fn bring_back(session: &mut Session, columns: usize, rows: usize) {
    for index in 0..columns * rows {
        let live = live_points(session, &(index..index + 1));
        let other = moved(session, live.clone());
        let row = 1 << (index / columns);
        write_points(session, index, &other);
        expect_mark(session, row);
        // Another point of the same row, beside it.
        let beside = if index % columns == 0 { index + 1 } else { index - 1 };
        let live_beside = live_points(session, &(beside..beside + 1));
        let other = moved(session, live_beside.clone());
        write_points(session, beside, &other);
        write_points(session, index, &live);
        expect_mark(session, row);
        write_points(session, beside, &live_beside);
        expect_mark(session, 0);
    }
}

fn expect_mark(session: &mut Session, due: u32) {
    let [mark, _] = session.marks();
    session.expect(mark == due, || format!("the mark is {mark:#x}, not {due:#x}"));
}

/// 35h from shapes of every number of columns to any, in both modes: all bits are worked out, whatever they
/// were.
pub fn shapes(session: &mut Session) {
    for round in 0..300 {
        let (columns, rows) = (2 + round % 61, 2 + session.random.below(31));
        settle(session, columns, rows);
        let moves = session.random.pick(&[1, 2, 5, 30]);
        move_points(session, 62 * 32, moves);
        for _ in 0..40 {
            lend_mark(session);
            let packet = fitting(session, Opcode::ControlPoints, Direction::Write, 0x14).bytes();
            expect_status(session, &packet, 0);
            let [mark, right] = session.marks();
            session.expect(mark == right, || format!("35h leaves {mark:#x}, not {right:#x}"));
        }
    }
}

/// 36h with 1 clears every mark, and with 0 leaves it.
pub fn apply(session: &mut Session) {
    for round in 0..1500 {
        settle(session, 2 + round % 61, 2 + round % 31);
        move_points(session, 62 * 32, 1 + round % 40);
        for _ in 0..2 {
            lend_mark(session);
            let [before, _] = session.marks();
            expect_status(session, &hex("04 36 00"), 0);
            expect_mark(session, before);
            let map = fitting(session, Opcode::Map, Direction::Write, 0x14).bytes();
            expect_status(session, &map, 0);
            expect_status(session, &hex("04 36 01"), 0);
            expect_mark(session, 0);
        }
    }
}

/// Reads, and writes of every other command, in every frame, on marks of every kind.
pub fn others(session: &mut Session) {
    let warps = [Opcode::Map, Opcode::ControlPoints, Opcode::Apply];
    for (opcode, direction, header) in headers() {
        if direction == Direction::Write && warps.contains(&opcode) {
            continue;
        }
        settle(session, 62, 32);
        move_points(session, 62 * 32, 20);
        for _ in 0..20 {
            lend_mark(session);
            let [before, _] = session.marks();
            let packet = fitting(session, opcode, direction, header).bytes();
            expect_status(session, &packet, 0);
            expect_mark(session, before);
        }
    }
}

/// Writes of points, shapes and applies that would work the mark out, each with a fault: the mark stays, as
/// all does; without the fault they are then accepted.
pub fn refused(session: &mut Session) {
    for round in 0..OFTEN as usize {
        if round % 20 == 0 {
            settle(session, 2 + round % 61, 2 + round % 31);
            move_points(session, 62 * 32, 20);
        }
        for opcode in [Opcode::Map, Opcode::ControlPoints, Opcode::Apply] {
            let sound = fitting(session, opcode, Direction::Write, 0x54);
            for fault in FAULTS.into_iter().chain([Refusal::PastTable]) {
                lend_mark(session);
                let packet = spoilt(session, &sound, fault).bytes();
                expect_status(session, &packet, fault.number());
            }
            let bytes = sound.bytes();
            put_mark(session, u32::MAX);
            with_bad_setting(session, |session| expect_lent_wrong(session, &bytes));
            with_wrong_length(session, |session| expect_lent_wrong(session, &bytes));
            expect_status(session, &bytes, 0);
        }
    }
}

/// This packet with a fault; if its command can't have that fault, any packet with it.
fn spoilt(session: &mut Session, sound: &Packet, fault: Refusal) -> Packet {
    let packet = sound.spoilt(&mut session.random, fault);
    packet.unwrap_or_else(|| Packet::faulty(&mut session.random, fault))
}

/// Writes and reads, every second one with a fault, on one state with two marks: answer, reply, tables and
/// settings are the same (rule 11.5).
pub fn unseen(session: &mut Session) {
    let faults = Vec::from_iter(FAULTS.into_iter().chain([Refusal::PastTable]));
    for round in 0..12_000 {
        if round % 40 == 0 {
            settle(session, 2 + round / 40 % 61, 2 + round / 40 % 31);
            move_points(session, 62 * 32, 20);
        }
        let mut packet = any_packet(session);
        if round % 2 == 1 {
            packet = spoilt(session, &packet, faults[round / 2 % faults.len()]);
        }
        let packet = packet.bytes();
        let [(one, first), (other, second)] = [0, 1].map(|_| outcome(session, &packet));
        session.expect(first == second, || format!("depends on the mark: {}", report::hex(&packet)));
        if one != other {
            session.rows.count_unseen(&packet, first.0.status);
        }
        send(session, &packet);
    }
}

/// A packet without a fault: a write of points or of a shape, an apply, a read of points, any read, or any
/// packet.
fn any_packet(session: &mut Session) -> Packet {
    match session.random.below(6) {
        0 => fitting(session, Opcode::Map, Direction::Write, 0x74),
        1 => fitting(session, Opcode::ControlPoints, Direction::Write, 0x54),
        2 => fitting(session, Opcode::Apply, Direction::Write, 0x44),
        3 => fitting(session, Opcode::Map, Direction::Read, 0xB4),
        4 => {
            let (opcode, header) = (session.random.pick(&Opcode::ALL), 0x84 | session.random.byte() & 0x78);
            fitting(session, opcode, Direction::Read, header)
        }
        _ => Packet::sound(&mut session.random),
    }
}

/// Some mark, and what comes of a packet on it, but for the mark; the state is then as it was.
fn outcome(session: &mut Session, packet: &[u8]) -> (u32, (Answer, Vec<u8>)) {
    let mut outcome = None;
    session.with_lengths(&[], |session| {
        lend_mark(session);
        let [mark, _] = session.marks();
        let answer = send(session, packet);
        let reply = &session.bytes(Part::Reply)[..answer.length];
        let settings = &session.bytes(Part::Block)[..block::JUDGED];
        let tables = [Part::Staged, Part::Live, Part::Gains].map(|part| session.bytes(part)).concat();
        outcome = Some((mark, (answer, [reply, settings, &tables].concat())));
    });
    outcome.expect("the packet was sent")
}

/// Sends a packet with refusal 1, on a mark of ones. Where the shape is wrong no mark is right.
fn expect_lent_wrong(session: &mut Session, packet: &[u8]) {
    let status = session.send(packet).status;
    session.expect(status == 1, || format!("twin: {status}, not 1: {}", report::hex(packet)));
    session.rows.count_status(status);
}

/// After each packet from reset on the mark is right, if nothing but packets writes (rule 11.3).
pub fn from_reset(session: &mut Session) {
    for _ in 0..120 {
        session.restart();
        for _ in 0..150 {
            let packet = match session.random.below(8) {
                0..4 => fitting(session, Opcode::Map, Direction::Write, 0x14),
                4 => fitting(session, Opcode::ControlPoints, Direction::Write, 0x14),
                5 if session.random.below(4) == 0 => fitting(session, Opcode::Apply, Direction::Write, 0x44),
                _ => Packet::sound(&mut session.random),
            };
            send(session, &packet.bytes());
            let [mark, right] = session.marks();
            session.expect(mark == right, || format!("the mark is {mark:#x}, not {right:#x}"));
        }
    }
}

/// Blocks of every length up to 2,048 bytes and some beyond, of any bytes, of none and of ones.
pub fn lengths(session: &mut Session) {
    for length in (0..=2 * block::BYTES).chain([7936, 12_096, 0x1_0000, 0x1_0000 + block::BYTES]) {
        let random = session.random.bytes(length);
        for bytes in [vec![0; length], vec![0xFF; length], random] {
            session.rows_of(&bytes);
        }
    }
    session.entries = WITH_NULL;
    session.rows_of(&[]);
    session.entries = LIBRARY;
}

/// Marks in blocks whose other bytes are those of a state, or anything: no bit, all, each one, each one
/// missing, each pair, all from each one on, and any.
pub fn marks(session: &mut Session) {
    let each = (0..32).map(|row| 1_u32 << row);
    let pairs = (0..32).flat_map(|row| (0..32).map(move |other| 1 << row | 1 << other));
    let sets: Vec<u32> = [0, u32::MAX]
        .into_iter()
        .chain(each.clone().flat_map(|bit| [bit, !bit, bit - 1, !(bit - 1)]))
        .chain(pairs)
        .collect();
    session.restart();
    let state = session.bytes(Part::Block).to_vec();
    for round in 0..20_000 {
        let mark = sets.get(round / 2).copied().unwrap_or(session.random.next() as u32);
        let mut bytes = if round % 2 == 0 { state.clone() } else { session.random.bytes(block::BYTES) };
        bytes[block::MARK].copy_from_slice(&mark.to_le_bytes());
        session.rows_of(&bytes);
    }
}
