//! The bench packets of rule 8.1, and more by hand, on the twin itself.

use crate::block;
use crate::command::{Colour, Command, Direction, Opcode, Read, Target, Write};
use crate::fields::checksum;
use crate::front_end::{self, Lent, Memory};
use crate::packet::{self, assemble, Header};
use crate::planner::{self, Planned};
use crate::refusal::{Refusal, Refused};
use crate::reply::{self, Reply};
use crate::runs;
use crate::scripts::{hex, SCRIPTS};
use crate::settings::{Settings, Shape};

/// What reading gives of a packet in hex, seen by `see`.
fn reading<T>(text: &str, see: impl FnOnce(Result<Command, Refused>) -> T) -> T {
    see(packet::read(&hex(text)).map(|reading| reading.command))
}

fn assert_reads(text: &str, expected: Result<Command, Refused>) {
    reading(text, |command| assert_eq!(command, expected, "{text}"));
}

/// The refusal's number that reading gives, 0 for none.
fn refusal(text: &str) -> u8 {
    reading(text, |command| command.map_or_else(Refused::number, |_| 0))
}

/// One packet, and the reply written; what lies behind it is unchanged.
fn send(memory: &mut Memory, packet: &[u8]) -> (u8, Vec<u8>) {
    let mut reply = [0xAA; 600];
    let answer = front_end::packet(packet, memory.lend(), &mut reply);
    assert!(reply[answer.length..].iter().all(|byte| *byte == 0xAA));
    (answer.status, reply[..answer.length].to_vec())
}

/// The state after packets that are accepted without a reply, from reset.
fn after(packets: &[&str]) -> Memory {
    let mut memory = Memory::default();
    for text in packets {
        assert_eq!(send(&mut memory, &hex(text)), (0, vec![]), "{text}");
    }
    memory
}

fn settings(memory: &Memory) -> Settings {
    Settings::take(&memory.block).expect("packets leave settings in range")
}

#[test]
fn bench_packets_read() {
    let display = |value| Ok(Command::Write(Write::Display(value)));
    assert_eq!(refusal(""), 2);
    assert_eq!(refusal("24 11"), 2);
    assert_reads("04 11 01", display(1));
    assert_reads("84 11", Ok(Command::Read(Read::Display)));
    assert_reads("44 11 01", display(1));
    assert_reads("0C 11 00 01", display(1));
    assert_reads("24 11 01 8F", display(1));
    assert_eq!(refusal("24 11 01 36"), 5);
    assert_eq!(refusal("03 11 01"), 6);
    assert_eq!(refusal("14 11 02 00 01"), 4);
    assert_eq!(refusal("04 11 05"), 10);
    assert_eq!(refusal("04 1A 01"), 10);
    assert_reads("04 1A 02", Ok(Command::Write(Write::CurtainColour(2))));
    assert_eq!(refusal("04 39 01"), 11);
    assert_eq!(refusal("04 39 02"), 10);
    assert_eq!(refusal("04 34 00 00 08 00 10 00"), 8);
    assert_eq!(refusal("14 34 02 00 00 00"), 9);
    let points = &[[1, 0, 2, 0]];
    assert_reads("14 34 06 00 BF 07 01 00 02 00", Ok(Command::Write(Write::Map { start: 1983, points })));
    // Past the table, which is no matter of reading.
    assert_reads("14 34 06 00 C0 07 01 00 02 00", Ok(Command::Write(Write::Map { start: 1984, points })));
    let words = &[5120_u16.to_le_bytes()];
    let gains = Write::Gains { target: Target::One(Colour::Red), start: 2015, words };
    assert_reads("14 2B 08 00 00 01 01 00 DF 07 00 14", Ok(Command::Write(gains)));
    let pairs = &[runs::pair(2, 5120_u16.to_le_bytes())];
    let compressed = Write::CompressedGains { target: Target::One(Colour::Red), start: 2014, pairs };
    assert_reads("14 2B 0A 00 01 01 02 00 DE 07 02 00 00 14", Ok(Command::Write(compressed)));
}

#[test]
fn hex_repeats_and_counts() {
    assert_eq!(hex("0A 00FF*2 7F*0 B0"), [0x0A, 0x00, 0xFF, 0x00, 0xFF, 0xB0]);
    assert_eq!(hex("1..7/3 255..256"), [1, 0, 4, 0, 7, 0, 0xFF, 0, 0, 1]);
    assert_eq!(hex(""), []);
}

#[test]
fn scripts_give_their_answers() {
    for script in SCRIPTS {
        let mut memory = Memory::default();
        for (packet, status, reply) in script.steps {
            let due = (*status, hex(reply));
            assert_eq!(send(&mut memory, &hex(packet)), due, "{}: {packet}", script.name);
        }
    }
}

#[test]
fn bench_packets_change_what_they_name() {
    let mut expected = Memory::default();
    expected.staged[4 * 1983..].copy_from_slice(&[1, 0, 2, 0]);
    expected.block[block::MARK].copy_from_slice(&[0, 0, 0, 0x80]);
    assert_eq!(after(&["14 34 06 00 BF 07 01 00 02 00"]), expected);
    let mut expected = Memory::default();
    expected.gains[2 * 2015..2 * 2016].copy_from_slice(&[0x00, 0x14]);
    assert_eq!(after(&["14 2B 08 00 00 01 01 00 DF 07 00 14"]), expected);
    expected.gains[2 * 2014..2 * 2015].copy_from_slice(&[0x00, 0x14]);
    assert_eq!(after(&["14 2B 0A 00 01 01 02 00 DE 07 02 00 00 14"]), expected);
    let mut expected = Memory::default();
    expected.block[block::DISPLAY] = 1;
    assert_eq!(after(&["04 11 01"]), expected);
}

#[test]
fn reset_writes_everything() {
    let mut memory = Memory::default();
    memory.block.fill(0xEE);
    for table in [&mut memory.staged, &mut memory.live, &mut memory.gains] {
        table.fill(0xEE);
    }
    assert_eq!(front_end::reset(memory.lend()), Ok(()));
    assert_eq!(memory, Memory::default());
    assert_eq!(settings(&memory), Settings::default());
    assert!(memory.block[block::JUDGED..].iter().all(|byte| *byte == 0));
    assert!(memory.staged.iter().chain(&memory.live).all(|byte| *byte == 0));
    assert!(memory.gains.chunks(2).all(|gain| gain == [0x00, 0x10]));
}

#[test]
fn settings_and_blocks_go_both_ways() {
    // A different value in every field, where its range allows it.
    let memory = after(&[
        "04 11 04",
        "04 12 01",
        "04 13 01 02",
        "04 1A 08",
        "04 1B 09",
        "04 1C 03",
        "04 1D 01",
        "04 36 01",
        "14 35 05 00 00 03 00 04 00",
        "14 38 26 00 03 03 01 02 03 04 05 06 07 08 09 0A 0B 0C 0D 0E 0F 10 11 12 13 14 15 16 17 18 19 1A 1B \
         1C 1D 1E 1F 20 21 22 23 24",
        "04 60 00 01 00 01",
        "04 60 57 00 01 01",
        "04 65 00 15 16 17 00 18 01",
        "04 65 0D 15 16 17 00 19 01",
        "04 6C 01",
        "04 6D 00 01 0B 03 01 02 01 04 03 01 01",
        "04 6D 02 01 0A 02 01 01 01 02 01 01 01",
    ]);
    let taken = settings(&memory);
    assert_eq!(taken.bytes(), memory.block[..block::JUDGED]);
    let mut expected = Settings {
        display: 4,
        low_latency: true,
        look: 0x0201,
        curtain_colour: 8,
        splash_image: 9,
        flip: 3,
        freeze: true,
        staged: Shape { columns: 3, rows: 4, ..Shape::default() },
        enable: true,
        eeprom_lock: true,
        ..Settings::default()
    };
    for (index, byte) in expected.smooth.points.as_flattened_mut()[..36].iter_mut().enumerate() {
        *byte = index as u8 + 1;
    }
    (expected.pins[0].direction, expected.pins[0].drain) = (true, true);
    (expected.pins[87].level, expected.pins[87].drain) = (true, true);
    for (place, duty) in [(0, 0x18), (11, 0x19)] {
        let pwm = &mut expected.pwms[place];
        (pwm.frequency, pwm.duty, pwm.on) = (0x0017_1615, duty, true);
    }
    for (place, numbers) in [(0, [11, 3, 2, 4, 3]), (2, [10, 2, 1, 2, 1])] {
        let uart = &mut expected.uarts[place];
        (uart.on, uart.stop, uart.flow, uart.polarity, uart.source) = (true, true, true, true, true);
        let [baud, bits, parity, receive, send] = numbers;
        (uart.baud, uart.bits, uart.parity, uart.triggers) = (baud, bits, parity, [receive, send]);
    }
    assert_eq!(taken, expected);
}

#[test]
fn live_stays_when_staged_changes() {
    let memory = after(&[
        "14 34 06 00 05 00 01 00 02 00",
        "14 35 05 00 00 03 00 04 00",
        "04 36 01",
        "14 34 06 00 05 00 07 00 07 00",
        "14 35 05 00 00 02 00 02 00",
        "04 36 00",
    ]);
    let settings = settings(&memory);
    assert_eq!(memory.live[20..24], [1, 0, 2, 0]);
    assert_eq!((settings.live.columns, settings.live.rows), (3, 4));
    assert_eq!((settings.staged.columns, settings.staged.rows), (2, 2));
    assert!(!settings.enable);
    // Staged points keep their index when the shape shrinks (rule 5.5).
    assert_eq!(memory.staged[20..24], [7, 0, 7, 0]);
}

#[test]
fn mode_0_keeps_the_lists_of_mode_1() {
    let entries: Vec<u8> = (0..94).flat_map(|i: u16| (700 * (i % 62) + 5).to_le_bytes()).collect();
    let mut memory = after(&["14 35 05 00 00 03 00 04 00"]);
    let packet = [&[0x14, 0x35, 189, 0, 1][..], &entries].concat();
    assert_eq!(send(&mut memory, &packet), (0, vec![]));
    let shape = settings(&memory).staged;
    assert_eq!((shape.listed, shape.columns, shape.rows), (true, 62, 32));
    assert_eq!(shape.lists.as_flattened(), entries);
    assert_eq!(send(&mut memory, &hex("84 35")).1, [&[0, 189, 0, 1][..], &entries].concat());
    assert_eq!(send(&mut memory, &hex("14 35 05 00 00 03 00 04 00")), (0, vec![]));
    assert_eq!(settings(&memory).staged, Shape { listed: false, columns: 3, rows: 4, ..shape });
    assert_eq!(send(&mut memory, &hex("84 35")).1, hex("00 05 00 00 03 00 04 00"));
}

#[test]
fn smooth_points_past_those_written_stay() {
    let mut memory = Memory::default();
    let write = |columns: u8, rows: u8, fill: u8| {
        let size = 2 + 4 * usize::from(columns * rows);
        let mut packet = vec![0x14, 0x38, size as u8, 0, columns, rows];
        packet.resize(4 + size, fill);
        packet
    };
    assert_eq!(send(&mut memory, &write(5, 5, 7)), (0, vec![]));
    assert_eq!(send(&mut memory, &write(3, 4, 9)), (0, vec![]));
    let smooth = settings(&memory).smooth;
    assert_eq!((smooth.columns, smooth.rows), (3, 4));
    assert_eq!(smooth.points[..12], [[9; 4]; 12]);
    assert_eq!(smooth.points[12..], [[7; 4]; 13]);
    assert_eq!(send(&mut memory, &hex("84 38")).1.len(), 3 + 2 + 48);
}

#[test]
fn the_longest_replies_fill_512_bytes() {
    let mut memory = Memory::default();
    // Gains above 8,191 are taken as they lie.
    memory.gains.fill(0xFF);
    for text in ["A4 34 00 00 7F 00 DA", "A4 2B 01 00 00 FE 00 7F"] {
        let (status, reply) = send(&mut memory, &hex(text));
        assert_eq!((status, reply.len()), (0, 512), "{text}");
        assert_eq!(reply::read(&reply, true).map(|reply| reply.data.len()), Ok(508));
    }
    assert_eq!(send(&mut memory, &hex("84 2B 03 00 00 01 00")).1, hex("00 02 00 FF FF"));
}

#[test]
fn wrong_lengths_are_refused_first() {
    let mut memory = Memory::default();
    let answer = |memory: &mut Memory, lengths: [usize; 4], reply: usize| {
        let lent = memory.lend();
        let mut block = lent.block.to_vec();
        block.resize(lengths[0], 0);
        let mut tables = [lent.staged.to_vec(), lent.live.to_vec(), lent.gains.to_vec()];
        for (table, length) in tables.iter_mut().zip(&lengths[1..]) {
            table.resize(*length, 0);
        }
        let [staged, live, gains] = &mut tables;
        let lent = Lent { block: &mut block, staged, live, gains };
        let answer = front_end::packet(&hex("84 11"), lent, &mut vec![0; reply]);
        (answer.status, answer.length)
    };
    let right = [1024, 7936, 7936, 12_096];
    assert_eq!(answer(&mut memory, right, 512), (0, 4));
    assert_eq!(answer(&mut memory, right, 600), (0, 4));
    assert_eq!(answer(&mut memory, right, 511), (1, 0));
    for place in 0..4 {
        for wrong in [0, 1, right[place] - 1, right[place] + 1, right[place] + 4, 2 * right[place]] {
            let mut lengths = right;
            lengths[place] = wrong;
            assert_eq!(answer(&mut memory, lengths, 512), (1, 0), "{lengths:?}");
        }
    }
}

#[test]
fn a_setting_out_of_range_is_refused_first() {
    for packet in ["", "60", "84 11", "44 11 01", "24 11 01 36"] {
        for place in [0, 1, 4, 6, 7, 8, 201, 202, 395, 396, 497, 498, 761, 766, 767, 834, 835, 864] {
            let mut memory = Memory::default();
            memory.block[place] = 255;
            let before = memory.clone();
            assert_eq!(send(&mut memory, &hex(packet)), (1, vec![]), "{packet}, byte {place}");
            assert_eq!(memory, before);
        }
    }
    // Changes to a shape after reset; the live shape lies 194 bytes behind the staged one.
    let cases: [(&[(usize, u8)], u8); 12] = [
        (&[(8, 1)], 0),
        (&[(9, 61)], 0),
        (&[(9, 1)], 1),
        (&[(11, 1)], 1),
        // Mode 1 takes no shape but 62 × 32.
        (&[(8, 1), (9, 61)], 1),
        (&[(8, 1), (11, 31)], 1),
        // Lists not rising: the first entry, the last, equal to the one beside it.
        (&[(13, 1)], 1),
        (&[(135, 60)], 1),
        (&[(135, 62)], 0),
        (&[(137, 1)], 1),
        (&[(199, 30)], 1),
        (&[(8, 1), (199, 30)], 1),
    ];
    for (changes, status) in cases {
        for shape in [0, 194] {
            let mut memory = Memory::default();
            for (place, value) in changes {
                memory.block[shape + place] = *value;
            }
            assert_eq!(send(&mut memory, &hex("04 11 01")).0, status, "{changes:?}");
        }
    }
}

#[test]
fn sizes_and_values_of_2bh_35h_and_38h() {
    assert_eq!(refusal("14 35 00 00"), 9);
    assert_eq!(refusal("14 35 01 00 02"), 10);
    assert_eq!(refusal("14 35 01 00 01"), 9);
    assert_eq!(refusal("14 35 05 00 00 01 00 02 00"), 10);
    assert_eq!(refusal("14 38 01 00 02"), 9);
    assert_eq!(refusal("14 38 02 00 02 03"), 10);
    assert_eq!(refusal("14 38 02 00 03 06"), 10);
    assert_eq!(refusal("14 38 02 00 03 03"), 9);
    // Count 0, colour 4 and a word too large; with flag 1 an odd count comes before them.
    assert_eq!(refusal("14 2B 06 00 00 01 00 00 00 00"), 10);
    assert_eq!(refusal("14 2B 06 00 01 01 00 00 00 00"), 10);
    assert_eq!(refusal("14 2B 08 00 00 04 01 00 00 00 00 00"), 10);
    assert_eq!(refusal("14 2B 08 00 01 04 01 00 00 00 00 00"), 9);
    assert_eq!(refusal("14 2B 08 00 01 01 01 00 00 00 28 23"), 9);
    assert_eq!(refusal("14 2B 08 00 00 01 01 00 00 00 28 23"), 10);
    assert_eq!(refusal("14 2B 08 00 02 01 01 00 00 00 28 03"), 10);
    assert_eq!(refusal("14 2B 08 00 02 01 02 00 00 00 28 03"), 9);
    // A count of 32,769 asks for 2 bytes in 16 bits.
    assert_eq!(refusal("14 2B 08 00 00 01 01 80 00 00 00 14"), 9);
}

#[test]
fn lengths_of_512_and_more() {
    let mut packet = hex("84 11");
    for (length, number) in [(512, 9), (513, 3), (65_536, 3), (65_538, 3)] {
        packet.resize(length, 0);
        assert_eq!(packet::read(&packet).unwrap_err().number(), number, "{length} bytes");
    }
}

#[test]
fn headers_and_commands_go_both_ways() {
    for byte in 0..=255 {
        assert_eq!(Header::from_byte(byte).byte(), byte);
    }
    for number in 0..=u16::MAX {
        let carried = Opcode::ALL.into_iter().find(|opcode| u16::from(opcode.number()) == number);
        assert_eq!(Opcode::find(number), carried);
    }
    for opcode in Opcode::ALL {
        for direction in Direction::BOTH {
            for size in 0..12 {
                let Ok(command) = Command::parse(direction, opcode, &[0; 12][..size]) else { continue };
                assert_eq!((command.direction(), command.opcode()), (direction, opcode));
                assert_eq!(command.data(), &[0; 12][..size]);
            }
        }
    }
}

#[test]
fn making_gives_the_bench_packets() {
    for text in [
        "04 11 01",
        "84 11",
        "44 11 01",
        "0C 11 00 01",
        "24 11 01 8F",
        "14 34 06 00 BF 07 01 00 02 00",
        "14 2B 08 00 00 01 01 00 DF 07 00 14",
        "14 2B 0A 00 01 01 02 00 DE 07 02 00 00 14",
    ] {
        let expected = hex(text);
        let reading = packet::read(&expected).unwrap();
        assert_eq!(assemble(reading.options, &reading.command), expected);
        let mut buffer = vec![0xAA; 600];
        let data = &expected[reading.place.clone()];
        let opcode = reading.command.opcode().number().into();
        assert_eq!(packet::make(reading.header(), opcode, data, &mut buffer), Ok(expected.len()));
        assert_eq!(buffer[..expected.len()], expected);
        assert!(buffer[expected.len()..].iter().all(|byte| *byte == 0xAA));
    }
}

#[test]
fn making_refuses_in_order() {
    let make = |header, opcode, data: &[u8], room| {
        let mut buffer = vec![0; room];
        let made = packet::make(Header::from_byte(header), opcode, data, &mut buffer);
        made.map_or_else(Refused::number, |_| 0)
    };
    assert_eq!(make(0x00, 0x111, &[9; 600], 511), 1);
    assert_eq!(make(0x00, 0x111, &[9; 511], 512), 3);
    assert_eq!(make(0x08, 0x111, &[9; 1], 512), 7);
    assert_eq!(make(0x00, 0x34, &[9; 1], 512), 8);
    assert_eq!(make(0x10, 0x34, &[9; 1], 512), 9);
    assert_eq!(make(0x00, 0x11, &[9; 1], 512), 10);
    assert_eq!(make(0x00, 0x39, &[1; 1], 512), 11);
    // 126 points fill 510 bytes; 127 do not fit.
    assert_eq!(make(0x10, 0x34, &[0; 2 + 4 * 126], 512), 0);
    assert_eq!(make(0x10, 0x34, &[0; 2 + 4 * 127], 512), 3);
}

#[test]
fn the_low_byte_of_the_second_sum_is_sent() {
    for (bytes, due) in
        [("", 0), ("24 11 01", 0x8F), ("02 00 00", 0x06), ("F0 21 03", 0x15), ("FF*509", 0xFD)]
    {
        assert_eq!(checksum(&hex(bytes)), due, "{bytes}");
    }
    // A byte counts as often as there are bytes from it on, modulo 256. Of the 4,088 bits before the
    // checksum of a longest packet, 502 may change unseen.
    let mut unseen = 0;
    for place in 0..511 {
        for bit in 0..8 {
            let mut changed = [0; 511];
            changed[place] = 1 << bit;
            assert_eq!(usize::from(checksum(&changed)), ((511 - place) << bit) % 256, "{place}, {bit}");
            unseen += usize::from(checksum(&changed) == checksum(&[0; 511]));
        }
    }
    assert_eq!(unseen, 502);
}

#[test]
fn replies_read_back() {
    for status in 0..=12 {
        for size in [0, 1, 255, 256, 508] {
            for with_checksum in [false, true] {
                let data = vec![status; size];
                let mut buffer = [0xAA; 600];
                let parts = data.split_at(size / 3);
                let length = reply::write(&mut buffer, status, parts.into(), with_checksum);
                assert_eq!(length, 3 + size + usize::from(with_checksum));
                assert_eq!(reply::read(&buffer[..length], with_checksum), Ok(Reply { status, data: &data }));
                assert!(buffer[length..].iter().all(|byte| *byte == 0xAA));
            }
        }
    }
}

#[test]
fn reply_reading_refuses_in_order() {
    let read = |text, checksum| reply::read(&hex(text), checksum).map_or_else(Refusal::number, |_| 0);
    assert_eq!(read("0D 01", false), 2);
    assert_eq!(read("00 00 00", true), 2);
    assert_eq!(reply::read(&[0x0D; 513], true), Err(Refusal::TooLong));
    assert_eq!(read("0D 01 00", false), 4);
    assert_eq!(read("0D 00 00 00", true), 5);
    assert_eq!(read("0C 00 00 0C", true), 5);
    assert_eq!(read("0C 00 00 24", true), 0);
    assert_eq!(read("0D 00 00 27", true), 10);
    assert_eq!(read("0D 00 00", false), 10);
    assert_eq!(read("0C 00 00", false), 0);
}

/// A plan: the answer, the (start, count) list, room and choices.
struct BenchPlan {
    planned: Planned,
    list: Vec<(usize, usize)>,
    room: Vec<u32>,
    choices: Vec<u8>,
}

/// Plans between maps of so many points that differ in these. What lies behind list, room, choices and
/// batch is unchanged, and the batch is made of the packets that the list names.
fn plan(points: usize, differs: impl Fn(usize) -> bool) -> BenchPlan {
    let held: Vec<u8> = (0..4 * points).map(|place| (place * 7) as u8).collect();
    let wanted: Vec<u8> =
        held.iter().enumerate().map(|(place, byte)| byte ^ u8::from(differs(place / 4))).collect();
    let mut written = [7936, 508 + 3, 1984 + 1, 8032 + 5].map(|length| vec![0xAA; length]);
    let [plan, room, choices, batch] = &mut written;
    let lent = planner::Lent { held: &held, wanted: &wanted, plan, room, choices, batch };
    let planned = planner::plan(points as u32, lent).expect("number and lengths are right");
    let used = [4 * planned.packets, 508, 1984, planned.bytes];
    let mut behind = written.iter().zip(used).flat_map(|(bytes, used)| &bytes[used..]);
    assert!(behind.all(|byte| *byte == 0xAA));
    let [list, room, choices, batch]: [&[u8]; 4] = std::array::from_fn(|part| &written[part][..used[part]]);
    let list: Vec<(usize, usize)> = list
        .as_chunks()
        .0
        .iter()
        .map(|[a, b, c, d]| (u16::from_le_bytes([*a, *b]).into(), u16::from_le_bytes([*c, *d]).into()))
        .collect();
    let packets = list.iter().flat_map(|(start, count)| {
        let points = wanted[4 * start..4 * (start + count)].as_chunks().0;
        let command = Command::Write(Write::Map { start: *start as u16, points });
        assemble(Header::from_byte(0x14).options, &command)
    });
    assert_eq!(packets.collect::<Vec<u8>>(), batch);
    let room = room.as_chunks().0.iter().map(|number| u32::from_le_bytes(*number)).collect();
    BenchPlan { planned, list, room, choices: choices.to_vec() }
}

/// The rooms begin with these numbers and choices, and have zeros behind them.
fn expect_rooms(plan: &BenchPlan, numbers: &[u32], choices: &[u8]) {
    assert_eq!(plan.room[..numbers.len()], *numbers);
    assert_eq!(plan.choices[..choices.len()], *choices);
    assert!(plan.room[numbers.len()..].iter().all(|bytes| *bytes == 0));
    assert!(plan.choices[choices.len()..].iter().all(|count| *count == 0));
}

#[test]
fn bench_plans() {
    let due = |plan: &BenchPlan, bytes: usize, list: &[(usize, usize)]| {
        assert_eq!(plan.planned, Planned { packets: list.len(), bytes });
        assert_eq!(plan.list, list);
    };
    let bridged = plan(5, |place| place == 0 || place == 2);
    due(&bridged, 18, &[(0, 3)]);
    expect_rooms(&bridged, &[18, 10, 10], &[3, 0, 1]);
    let apart = plan(4, |place| place == 0 || place == 3);
    due(&apart, 20, &[(0, 1), (3, 1)]);
    expect_rooms(&apart, &[20, 10, 10, 10], &[1, 0, 0, 1]);
    let halves = plan(128, |place| place != 63);
    due(&halves, 520, &[(0, 63), (64, 64)]);
    assert_eq!((&halves.room[..3], &halves.choices[..3]), (&[520, 516, 510][..], &[63, 62, 126][..]));
    let equal = plan(1984, |_| false);
    due(&equal, 0, &[]);
    expect_rooms(&equal, &[], &[]);
}

#[test]
fn bench_plans_of_full_packets() {
    let full = plan(1984, |_| true);
    assert_eq!((full.planned, full.list[0]), (Planned { packets: 16, bytes: 8032 }, (0, 94)));
    assert!(full.list[1..].iter().all(|(_, count)| *count == 126));
    assert_eq!(full.room[93..95], [7660, 7650]);
    // As many as come before a whole number of full packets, from each point on.
    for (point, count) in full.choices.iter().enumerate() {
        assert_eq!(usize::from(*count), (1983 - point) % 126 + 1);
    }
    let one_more = plan(127, |_| true);
    let numbers: Vec<u32> =
        (0..127).map(|point| if point == 0 { 520 } else { 6 + 4 * (127 - point) }).collect();
    let choices: Vec<u8> = (0..127).map(|point| if point == 0 { 1 } else { 127 - point }).collect();
    expect_rooms(&one_more, &numbers, &choices);
}

#[test]
fn planning_refuses_in_order() {
    let refusal = |points, [held, wanted, plan, room, choices, batch]: [usize; 6]| {
        let maps = [vec![1; held], vec![2; wanted]];
        let mut written = [plan, room, choices, batch].map(|length| vec![0xAA; length]);
        let [plan, room, choices, batch] = &mut written;
        let lent = planner::Lent { held: &maps[0], wanted: &maps[1], plan, room, choices, batch };
        let refusal = planner::plan(points, lent);
        let unchanged = written.iter().flatten().all(|byte| *byte == 0xAA);
        assert_eq!(refusal.is_err(), unchanged);
        refusal.map_or_else(Refusal::number, |_| 0)
    };
    for number in [0, 1985, u32::MAX] {
        assert_eq!(refusal(number, [0; 6]), 10);
        assert_eq!(refusal(number, [7940, 7940, 7936, 508, 1984, 8032]), 10);
    }
    let right = [12, 12, 7936, 508, 1984, 8032];
    assert_eq!(refusal(3, right), 0);
    assert_eq!(refusal(3, [12, 12, 7936, 7940, 2000, 9000]), 0);
    for place in 0..6 {
        for wrong in [0, 1, right[place] - 1, right[place] + 1, right[place] + 3, 2 * right[place]] {
            let mut lengths = right;
            lengths[place] = wrong;
            let due = if place >= 3 && wrong > right[place] { 0 } else { 1 };
            assert_eq!(refusal(3, lengths), due, "{lengths:?}");
        }
    }
}
