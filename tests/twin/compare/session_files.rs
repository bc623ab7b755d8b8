//! The session files of tests/sessions, as a table: what is in each, what its replay prints, and what
//! it shows. The answers are written by hand, or follow from the row that a packet is made of; the
//! twin's replay is held against them.

use twin::fields::checksum;
use twin::replay::{session, OPENING};
use twin::scripts::{hex, SCRIPTS};

use crate::recipe::Packet;

pub struct SessionFile {
    pub name: &'static str,
    pub shows: &'static str,
    pub bytes: Vec<u8>,
    /// What a replay prints.
    pub text: String,
}

/// A packet, its status and its reply.
struct Step {
    packet: Vec<u8>,
    status: u8,
    reply: Vec<u8>,
}

/// Every file, in the order of the index.
pub fn all() -> Vec<SessionFile> {
    let [example, scripts @ ..] = SCRIPTS else { panic!("there are scripts") };
    let script = |script: &twin::scripts::Script| {
        let steps = script.steps.iter().map(|(packet, status, reply)| Step {
            packet: hex(packet),
            status: *status,
            reply: hex(reply),
        });
        whole(script.file, script.name, &Vec::from_iter(steps))
    };
    let mut files = vec![script(example)];
    files.extend(beginnings());
    files.extend(cuts());
    files.extend(scripts.iter().map(script));
    files.push(whole(
        "commands",
        "every command written and read back, plain, with checksums, with replies, with both",
        &commands(),
    ));
    files.push(whole(
        "every-refusal",
        "each refusal from 2 to 12, plain, with a checksum, with a reply, with both",
        &every_refusal(),
    ));
    files.push(whole(
        "over-long",
        "records of 513 bytes and more are passed over, with every kind of reply and none",
        &over_long(),
    ));
    files
}

/// A file that ends behind its last record.
fn whole(name: &'static str, shows: &'static str, steps: &[Step]) -> SessionFile {
    let packets: Vec<&[u8]> = steps.iter().map(|step| &step.packet[..]).collect();
    let text = lines(steps) + &format!("end {}\n", steps.len());
    SessionFile { name, shows, bytes: session(&packets), text }
}

/// The lines of whole records (rule 9.2).
fn lines(steps: &[Step]) -> String {
    let line = |(number, step): (usize, &Step)| {
        let reply: String = step.reply.iter().map(|byte| format!(" {byte:02X}")).collect();
        format!("{number} {}{reply}\n", step.status)
    };
    (1..).zip(steps).map(line).collect()
}

/// What begins like a session file, and what does not (rule 9.4).
fn beginnings() -> Vec<SessionFile> {
    let file = |name, shows, bytes: &str, text: &str| SessionFile {
        name,
        shows,
        bytes: hex(bytes),
        text: text.to_string(),
    };
    vec![
        file(
            "no-records",
            "mark and version alone are a session, of no records",
            "50 4A 4C 01 00",
            "end 0\n",
        ),
        file("no-bytes", "an empty file is not a session", "", "not a session\n"),
        file(
            "too-short",
            "four bytes are not a session, though they begin one",
            "50 4A 4C 01",
            "not a session\n",
        ),
        file(
            "other-mark",
            "another mark, and a record behind it",
            "50 4A 4D 01 00 03 00 04 11 01",
            "not a session\n",
        ),
        file(
            "other-version",
            "another version, and a record behind it",
            "50 4A 4C 02 00 03 00 04 11 01",
            "not a session\n",
        ),
    ]
}

/// Files that end inside a record (rule 9.3).
fn cuts() -> Vec<SessionFile> {
    let steps = [step("04 11 01", 0, ""), step("84 11", 0, "00 01 00 01")];
    let cut = |name, shows, rest: &str| SessionFile {
        name,
        shows,
        bytes: [whole(name, shows, &steps).bytes, hex(rest)].concat(),
        text: lines(&steps) + "3 cut\nend 2\n",
    };
    vec![
        cut("cut", "a file that ends inside a record's packet", "03 00 04 1A"),
        cut("cut-at-packet", "a file that ends behind a record's length", "03 00"),
        cut("cut-in-length", "a file that ends inside a record's length", "03"),
        cut("cut-over-long", "a file that ends inside a record that is passed over", "58 02 C4*599"),
    ]
}

fn step(packet: &str, status: u8, reply: &str) -> Step {
    Step { packet: hex(packet), status, reply: hex(reply) }
}

/// No option, a checksum, a reply, both.
const FRAMES: [u8; 4] = [0x00, 0x20, 0x40, 0x60];

/// A command by its opcode, what stands ahead of the value in a write, what a read sends, and two
/// values, so that each write shows in the read behind it.
type Row = (u16, &'static str, &'static str, [&'static str; 2]);

const ROWS: [Row; 18] = [
    (0x11, "", "", ["01", "04"]),
    (0x12, "", "", ["01", "00"]),
    (0x13, "", "", ["34 12", "FF FF"]),
    (0x1A, "", "", ["02", "08"]),
    (0x1B, "", "", ["FE", "FF"]),
    (0x1C, "", "", ["03", "02"]),
    (0x1D, "", "", ["01", "00"]),
    (0x2B, "00 02 02 00 05 00", "02 05 00 02 00", ["64 00 C8 00", "FF 1F 00 00"]),
    (0x34, "07 00", "07 00 02 00", ["01 00 02 00 03 00 04 00", "FF FF FE FF FD FF FC FF"]),
    (0x35, "", "", ["00 3D 00 1F 00", "01 0..183/3 1..156/5"]),
    (0x36, "", "", ["01", "00"]),
    (0x38, "", "", ["03 03 1..18", "05 05 101..150"]),
    (0x39, "", "", ["00", "00"]),
    (0x60, "57", "57", ["01 00 01", "00 01 00"]),
    (0x61, "57", "57", ["00", "01"]),
    (0x65, "0D", "0D", ["15 00 00 00 01 00", "F0 89 9E 00 64 01"]),
    (0x6C, "", "", ["01", "00"]),
    (0x6D, "02", "02", ["01 0B 03 01 02 01 04 03 01 01", "00 00 01 00 00 00 00 01 00 00"]),
];

/// Each row's writes and reads in every frame.
fn commands() -> Vec<Step> {
    let mut steps = Vec::new();
    for (opcode, ahead, sent, values) in ROWS {
        let length = if matches!(opcode, 0x2B | 0x34 | 0x35 | 0x38) { 0x10 } else { 0 };
        for (frame, value) in FRAMES.into_iter().zip(values.map(hex).into_iter().cycle()) {
            let written = [hex(ahead), value.clone()].concat();
            steps.push(answered(Packet::new(0x04 | length | frame, opcode, written), 0, &[]));
            steps.push(answered(Packet::new(0x84 | frame, opcode, hex(sent)), 0, &value));
        }
    }
    steps
}

/// A packet with its status and, if its header asks for one, a reply with this data (rule 3.1).
fn answered(packet: Packet, status: u8, data: &[u8]) -> Step {
    let mut reply = Vec::new();
    if packet.header & 0xC0 != 0 {
        reply.push(status);
        reply.extend((data.len() as u16).to_le_bytes());
        reply.extend(data);
        if packet.header & 0x20 != 0 {
            reply.push(checksum(&reply));
        }
    }
    Step { packet: packet.bytes(), status, reply }
}

/// A packet for each refusal, in every frame that it can have.
fn every_refusal() -> Vec<Step> {
    let packet = |header, opcode, data| Packet::new(header, opcode, hex(data));
    let rows = [
        (2, Packet { kept: 1, ..packet(0x04, 0x11, "01") }),
        (3, packet(0x04, 0x11, "01*511")),
        (4, Packet { length_error: 1, ..packet(0x14, 0x11, "01") }),
        (5, Packet { checksum_error: 1, ..packet(0x24, 0x11, "01") }),
        (6, packet(0x03, 0x11, "01")),
        (7, packet(0x04, 0x10, "01")),
        (8, packet(0x04, 0x34, "00 00 08 00 10 00")),
        (9, packet(0x04, 0x11, "01 01")),
        (10, packet(0x04, 0x11, "05")),
        (11, packet(0x04, 0x39, "01")),
        (12, packet(0x14, 0x34, "C0 07 01 00 02 00")),
    ];
    let mut steps = Vec::new();
    for (status, packet) in rows {
        // A wrong checksum needs one.
        for frame in FRAMES.into_iter().filter(|frame| packet.header & 0x20 == frame & packet.header & 0x20) {
            let framed = Packet { header: packet.header | frame, ..packet.clone() };
            // Refused by 10 is the display here, at place 0.
            let data: &[u8] = if status == 10 { &[0, 0] } else { &[] };
            steps.push(answered(framed, status, data));
        }
    }
    steps.push(step("84 11", 0, "00 01 00 00"));
    steps
}

/// Records over 512 bytes, between others that show where these begin and end (rule 9.5).
fn over_long() -> Vec<Step> {
    let mut steps = vec![step("04 11 03", 0, "")];
    let lengths = [513, 514, 515, 516, 1024, 1025, 2000, 65_535];
    let headers = [0x04, 0x44, 0x84, 0xC4, 0x24, 0x64, 0xA4, 0xE4];
    for (length, header) in lengths.into_iter().zip(headers) {
        let packet = Packet { kept: length, ..Packet::new(header, 0x11, vec![0x11; length]) };
        steps.push(answered(packet, 3, &[]));
        steps.push(step("84 11", 0, "00 01 00 03"));
    }
    steps
}

/// The records of all files that end behind a record, one after another: what a session without end
/// repeats.
pub fn repeated() -> Vec<u8> {
    let files = all();
    let whole = files.iter().filter(|file| file.text.contains("end") && !file.text.contains("cut"));
    whole.flat_map(|file| file.bytes[OPENING.len()..].to_vec()).collect()
}
