//! The row mark by hand, on the twin itself.

use crate::block;
use crate::front_end::{self, Memory};
use crate::refusal::Refusal;
use crate::rows::{rows, Rows};
use crate::scripts::{hex, SCRIPTS};

fn mark(memory: &Memory) -> u32 {
    u32::from_le_bytes(memory.block[block::MARK].try_into().expect("four bytes"))
}

fn put_mark(memory: &mut Memory, mark: u32) {
    memory.block[block::MARK].copy_from_slice(&mark.to_le_bytes());
}

/// Sends packets, each with its status and the mark that it leaves.
fn leaves(memory: &mut Memory, steps: &[(&str, u8, u32)]) {
    for (packet, status, due) in steps {
        let answer = front_end::packet(&hex(packet), memory.lend(), &mut [0; 512]);
        assert_eq!((answer.status, mark(memory)), (*status, *due), "{packet}");
    }
}

/// The marks along the script of rows.
#[rustfmt::skip]
const SCRIPTED: [u32; 37] = [
    0b1, 0b11, 0, // borders of rows 0 and 1
    0x78, 0x78, 0x78, 0x78, 0x78, 0x68, // rows 3 to 6
    0, 0, 0x4000_0000, 0x4000_0000, 0x68, 0x68, 0, // shapes
    u32::MAX, u32::MAX, u32::MAX, u32::MAX, u32::MAX, 0, // all rows
    0x8000_0000, 0x8000_0000, 0x8000_0001, // the last row, and row 0
    0b1, 0b1, 0b11, 0b11, 0b11, 0b1, 0b101, // in 3 columns
    0b101, 0b101, 0, 0, 0,
];

#[test]
fn the_script_of_rows_leaves_its_marks() {
    let script = SCRIPTS.iter().find(|script| script.file == "rows").expect("there is one");
    assert_eq!(script.steps.len(), SCRIPTED.len());
    let memory = &mut Memory::default();
    for ((packet, status, _), mark) in script.steps.iter().zip(SCRIPTED) {
        leaves(memory, &[(packet, *status, mark)]);
    }
}

/// The bench packets of rule 8.1 that leave a mark, each after that of point 1983.
#[test]
fn bench_packets_leave_their_marks() {
    for (packet, due) in [
        ("14 34 06 00 BF 07 00 00 00 00", 0),
        ("14 35 05 00 00 02 00 02 00", 0),
        ("04 36 00", 0x8000_0000),
        ("04 36 01", 0),
    ] {
        leaves(
            &mut Memory::default(),
            &[("14 34 06 00 BF 07 01 00 02 00", 0, 0x8000_0000), (packet, 0, due)],
        );
    }
}

#[test]
fn points_mark_their_rows() {
    leaves(
        &mut Memory::default(),
        &[
            // The last point of row 0, the first of row 1, then both.
            ("14 34 06 00 3D 00 01 00 00 00", 0, 0b01),
            ("14 34 06 00 3E 00 01 00 00 00", 0, 0b11),
            ("14 34 0A 00 3D 00 0000*4", 0, 0b00),
            ("14 34 06 00 BF 07 00 00 00 01", 0, 0x8000_0000),
            // 126 points from the last of row 3 on: through rows 4 and 5 to the first of row 6.
            ("14 34 FA 01 F7 00 0100*252", 0, 0x8000_0078),
            // Points of row 4 alone, equal again; its other points still differ.
            ("14 34 F6 00 F8 00 0000*122", 0, 0x8000_0078),
            ("14 34 06 00 35 01 0000*2", 0, 0x8000_0068),
        ],
    );
}

#[test]
fn a_shape_marks_all_rows() {
    leaves(
        &mut Memory::default(),
        &[
            ("14 34 06 00 05 00 07 00 07 00", 0, 0b1),
            // Point 5 is in row 2 of two columns, in row 1 of three, and in no row of 2 × 2.
            ("14 35 05 00 00 02 00 03 00", 0, 0b100),
            ("14 35 05 00 00 03 00 02 00", 0, 0b10),
            ("14 35 05 00 00 02 00 02 00", 0, 0b0),
            ("14 35 BD 00 01 0..61 0..31", 0, 0b1),
            ("14 35 05 00 00 05 00 20 00", 0, 0b10),
        ],
    );
}

#[test]
fn an_apply_clears_the_mark() {
    leaves(
        &mut Memory::default(),
        &[
            ("14 34 06 00 05 00 07 00 07 00", 0, 1),
            ("04 36 00", 0, 1),
            ("04 36 02", 10, 1),
            ("04 36 01", 0, 0),
            ("04 36 00", 0, 0),
            ("14 34 06 00 05 00 07 00 07 00", 0, 0),
            ("14 34 06 00 05 00 00 00 00 00", 0, 1),
        ],
    );
}

#[test]
fn other_packets_leave_the_mark() {
    let mut memory = Memory::default();
    put_mark(&mut memory, 0xDEAD_BEEF);
    let packets = ["", "84 34 00 00 01 00", "84 35", "84 36", "04 39 00", "14 34 06 00 C0 07 01 00 02 00"];
    let refused = ["04 34 00 00 01 00 02 00", "14 35 05 00 00 01 00 02 00", "04 36 02", "24 36 01 00"];
    for packet in
        packets.into_iter().chain(refused).chain(["04 11 01", "14 2B 08 00 00 00 01 00 00 00 00 10"])
    {
        front_end::packet(&hex(packet), memory.lend(), &mut [0; 512]);
        assert_eq!(mark(&memory), 0xDEAD_BEEF, "{packet}");
    }
    assert_eq!(front_end::reset(memory.lend()), Ok(()));
    assert_eq!(mark(&memory), 0);
}

#[test]
fn a_wrong_mark_is_mended_where_it_is_worked_out() {
    let mut memory = Memory::default();
    put_mark(&mut memory, u32::MAX);
    leaves(
        &mut memory,
        &[
            // Rows 1 and 2, at their borders; then a row that differs.
            ("14 34 F4 01 3E 00 0000*249", 9, u32::MAX),
            ("14 34 F2 01 3E 00 0000*248", 0, 0xFFFF_FFF9),
            ("14 34 06 00 3E 00 01 00 00 00", 0, 0xFFFF_FFFB),
            ("14 35 05 00 00 3E 00 02 00", 0, 0b10),
        ],
    );
    put_mark(&mut memory, u32::MAX);
    leaves(&mut memory, &[("14 34 06 00 3E 00 00 00 00 00", 0, 0xFFFF_FFFD), ("04 36 01", 0, 0)]);
}

#[test]
fn marked_rows_are_counted() {
    let mut memory = Memory::default();
    for (mark, marked, lowest) in [
        (0, 0, 32),
        (1, 1, 0),
        (0x8000_0000, 1, 31),
        (0x0001_8000, 2, 15),
        (u32::MAX, 32, 0),
        (0xFFFF_FF00, 24, 8),
    ] {
        put_mark(&mut memory, mark);
        assert_eq!(rows(&memory.block), Ok(Rows { marked, lowest }), "{mark:#x}");
        // Nothing else is judged.
        let mut block = [0xFF; block::BYTES];
        block[block::MARK].copy_from_slice(&mark.to_le_bytes());
        assert_eq!(rows(&block), Ok(Rows { marked, lowest }), "{mark:#x}");
    }
    for length in (0..=2048).filter(|length| *length != block::BYTES) {
        assert_eq!(rows(&vec![1; length]), Err(Refusal::Lent), "{length}");
    }
}
