//! Groups on `vermolgas_read`, and on `vermolgas_make` where both take the same inputs.

use twin::command::Opcode;
use twin::fields::checksum;
use twin::packet::{self, Header, LONGEST};
use twin::runs;

use crate::bench::Bench;
use crate::counts::{commands, headers, OFTEN};
use crate::generate;
use crate::recipe::{never_together, other_opcode, Packet, FAULTS};

/// Data as a packet's, in a frame without a fault, and as what a packet is made from.
fn read_and_make(bench: &mut Bench, header: u8, opcode: Opcode, data: &[u8]) {
    let number = opcode.number().into();
    bench.read(&Packet::new(header, number, data.to_vec()).bytes());
    let any_destination = header ^ bench.random.byte() & 7;
    bench.make(number, any_destination, data, LONGEST);
}

/// Commands with values in range, in every frame.
pub fn accepted(bench: &mut Bench) {
    for (opcode, direction, header) in headers() {
        let room = LONGEST - Header::from_byte(header).options.overhead();
        for _ in 0..OFTEN {
            let data = generate::data(&mut bench.random, opcode, direction, room);
            let packet = Packet::new(header, opcode.number().into(), data);
            let bytes = packet.bytes();
            let read = packet::read(&bytes).map(|reading| reading.command);
            let meant = read.map(|command| (command.opcode(), command.direction(), command.data()));
            let due = Ok((opcode, direction, packet.data.clone()));
            bench.expect(meant == due, || format!("twin: {meant:?}, not {due:?}"));
            bench.read(&bytes);
            let any_destination = header ^ bench.random.byte() & 7;
            let room = bench.random.pick(&[512, 512, 513, 1024]);
            bench.make(packet.opcode, any_destination, &packet.data, room);
        }
    }
}

/// Uniformly random bytes; then random data of the right size in a frame without a fault.
pub fn random_bytes(bench: &mut Bench) {
    for _ in 0..200_000 {
        let most = bench.random.pick(&[4, 8, 16, 600]);
        let length = bench.random.below(most);
        let mut packet = bench.random.bytes(length);
        bench.read(&packet);
        if let Some(header) = packet.first_mut() {
            *header = *header & 0xF8 | 4;
            bench.read(&packet);
        }
    }
    for _ in 0..200_000 {
        let mut packet = Packet::sound(&mut bench.random);
        packet.data = bench.random.bytes(packet.data.len());
        bench.read(&packet.bytes());
        packet.opcode = bench.random.byte().into();
        bench.read(&packet.bytes());
    }
}

/// The pins and ports at, below and past the limits of 60h, 61h, 65h and 6Dh; none for other
/// commands.
fn numbers(opcode: Opcode) -> &'static [u8] {
    match opcode {
        Opcode::Pin | Opcode::PinLevel => &[0, 1, 86, 87, 88, 255],
        Opcode::Pwm => &[0, 1, 9, 10, 11, 12, 13, 14, 255],
        Opcode::Uart => &[0, 1, 2, 3, 255],
        _ => &[],
    }
}

/// Each data byte of each command through all its 256 values, the others in range; and this with
/// each pin or port at and past its limits.
pub fn every_byte(bench: &mut Bench) {
    for (opcode, direction) in commands() {
        for round in 0..18 {
            // Room for the short forms: a few words or points, 35h in mode 0.
            let mut data = generate::data(&mut bench.random, opcode, direction, 14);
            let numbers = numbers(opcode);
            if !numbers.is_empty() {
                data[0] = numbers[round % numbers.len()];
            }
            let header = Packet::of(&mut bench.random, opcode, direction).header;
            every_byte_of(bench, header, opcode, &data);
        }
    }
    for _ in 0..2 {
        let lists: [u16; 62] = generate::rising(&mut bench.random);
        let data = [&[1][..], &word_bytes(&lists), &word_bytes(&lists[..32])].concat();
        every_byte_of(bench, 0x14, Opcode::ControlPoints, &data);
    }
}

fn every_byte_of(bench: &mut Bench, header: u8, opcode: Opcode, data: &[u8]) {
    let mut changed = data.to_vec();
    for place in 0..data.len() {
        for value in 0..=255 {
            changed[place] = value;
            read_and_make(bench, header, opcode, &changed);
        }
        changed[place] = data[place];
    }
}

/// Numbers at, below and past limits, also where a byte or half of a number is left out or
/// swapped.
fn around(limits: &[u32]) -> Vec<u32> {
    let near = |limit: u32| {
        let swapped = (limit as u16).swap_bytes().into();
        let moved = [0, 1, 0xFF, 0x100, 0x1_0000, 0x100_0000].map(|step| limit.wrapping_add(step));
        [limit.wrapping_sub(1), limit ^ 0x80, limit ^ 0x8000, swapped, limit.swap_bytes(), 0, u32::MAX]
            .into_iter()
            .chain(moved)
    };
    limits.iter().copied().flat_map(near).collect()
}

/// Each field of more than one byte at, below and past its limits.
pub fn limits(bench: &mut Bench) {
    for value in 0..=u16::MAX {
        read_and_make(bench, 0x04, Opcode::Look, &value.to_le_bytes());
        read_and_make(bench, 0x04, Opcode::PinLevel, &value.to_le_bytes());
        // Counts of reads: 1-254 gains, 1-127 points.
        let start = bench.random.word();
        let colour = bench.random.byte_within(1..=3);
        let gains = [&[colour][..], &word_bytes(&[start, value])].concat();
        read_and_make(bench, 0x84, Opcode::Gains, &gains);
        read_and_make(bench, 0x84, Opcode::Map, &word_bytes(&[start, value]));
    }
    for frequency in around(&[20, 10_390_000]) {
        for port in numbers(Opcode::Pwm) {
            for duty in [0, 99, 100, 101] {
                let [a, b, c, d] = frequency.to_le_bytes();
                read_and_make(bench, 0x04, Opcode::Pwm, &[*port, a, b, c, d, duty, 1]);
            }
        }
    }
    for columns in around(&[2, 62]) {
        for rows in around(&[2, 32]) {
            let shape = [&[0][..], &word_bytes(&[columns as u16, rows as u16])].concat();
            read_and_make(bench, 0x14, Opcode::ControlPoints, &shape);
        }
    }
}

/// 35h in mode 1: each entry equal to, below and just above the one before it.
pub fn lists(bench: &mut Bench) {
    for _ in 0..40 {
        let columns: [u16; 62] = generate::rising(&mut bench.random);
        let rows: [u16; 32] = generate::rising(&mut bench.random);
        let entries = [&columns[..], &rows].concat();
        for place in 1..entries.len() {
            let before = entries[place - 1];
            let near =
                [before, before.wrapping_sub(1), before.wrapping_add(1), before ^ 0x100, before ^ 0x8000];
            for entry in near {
                let mut changed = entries.clone();
                changed[place] = entry;
                let data = [&[1][..], &word_bytes(&changed)].concat();
                read_and_make(bench, 0x14, Opcode::ControlPoints, &data);
            }
        }
    }
}

/// 2Bh writes: counts that differ from the words there, also by what 16 bits lose when a count is
/// doubled, with each flag and colour, and each word at its limit.
pub fn gains(bench: &mut Bench) {
    for there in [0, 1, 2, 3, 125, 250, 251, 252, 253] {
        let words: Vec<u16> = (0..there).map(|_| bench.random.word_within(0..=8191)).collect();
        other_heads(bench, &words);
        for place in 0..there {
            let flag = u8::from(bench.random.below(4) == 0);
            other_words(bench, flag, &words, place, &GAIN_LIMITS);
        }
    }
}

/// 2Bh writes with flag 1: the same, with each run at its limits, too.
pub fn pairs(bench: &mut Bench) {
    for there in [1, 2, 3, 62, 125, 126] {
        let pairs = generate::fitting_pairs(&mut bench.random, there);
        let words: Vec<u16> = pairs.iter().flat_map(|pair| [runs::run(pair), gain_of(pair)]).collect();
        other_heads(bench, &words);
        for place in 0..words.len() {
            let limits = if place % 2 == 0 { RUN_LIMITS } else { GAIN_LIMITS };
            other_words(bench, 1, &words, place, &limits);
        }
        for half in [1, 2 * there - 1] {
            other_heads(bench, &words[..half]);
        }
    }
}

/// Gains and runs around their limits, also where a byte or a bit of them is left out.
const GAIN_LIMITS: [u16; 9] = [8190, 8191, 8192, 8193, 0x3FFF, 0x4000, 0x8000, 0xFF1F, 0xFFFF];
const RUN_LIMITS: [u16; 9] = [0, 1, 2015, 2016, 2017, 0x1000, 0x87E0, 0xFF00, 0xFFFF];

fn gain_of(pair: &runs::Pair) -> u16 {
    u16::from_le_bytes(runs::gain(pair))
}

/// Words of a 2Bh write behind each flag, colour and count.
fn other_heads(bench: &mut Bench, words: &[u16]) {
    for step in [0, 1, 2, 256, 32_766, 32_767, 32_768, 32_770, 65_533, 65_534, 65_535] {
        for (flag, colour) in (0..4).flat_map(|flag| (0..6).map(move |colour| (flag, colour))) {
            let head = word_bytes(&[(words.len() as u16).wrapping_add(step), bench.random.word()]);
            let data = [&[flag, colour][..], &head, &word_bytes(words)].concat();
            read_and_make(bench, 0x14, Opcode::Gains, &data);
        }
    }
}

/// Words of a 2Bh write, one of them each of these in turn.
fn other_words(bench: &mut Bench, flag: u8, words: &[u16], place: usize, others: &[u16]) {
    for word in others {
        let mut changed = words.to_vec();
        changed[place] = *word;
        let head = word_bytes(&[words.len() as u16, bench.random.word()]);
        let data = [&[flag, 3][..], &head, &word_bytes(&changed)].concat();
        read_and_make(bench, 0x14, Opcode::Gains, &data);
    }
}

/// Data of every size up to and past what fits, for each command; and each shape of 38h and mode
/// of 35h with each size near theirs.
pub fn sizes(bench: &mut Bench) {
    for (opcode, direction) in commands() {
        for size in 0..=LONGEST {
            let packet = Packet::of(&mut bench.random, opcode, direction);
            let mut data = packet.data;
            data.resize(size, 1);
            read_and_make(bench, packet.header, opcode, &data);
        }
    }
    for (columns, rows) in (0..8).flat_map(|columns| (0..8).map(move |rows| (columns, rows))) {
        for size in 0..=2 + 4 * 36 {
            let mut data = vec![columns, rows];
            data.resize(size, 0);
            read_and_make(bench, 0x14, Opcode::SmoothTable, &data);
        }
    }
    for mode in [0, 1, 2, 3, 255] {
        // Entries 2, 3, 4 and so on are rising, and a shape that is allowed.
        let lists: Vec<u16> = (2..64).chain(2..36).collect();
        let data = [&[mode][..], &word_bytes(&lists)].concat();
        for size in 0..data.len() {
            read_and_make(bench, 0x14, Opcode::ControlPoints, &data[..size]);
        }
    }
}

/// Accepted packets with one thing changed: a bit, a byte, the checksum, the length field; cut at
/// every length, and longer.
pub fn damaged(bench: &mut Bench) {
    for (opcode, direction, header) in headers() {
        for _ in 0..4 {
            let data = generate::data(&mut bench.random, opcode, direction, LONGEST - 6);
            let packet = Packet::new(header, opcode.number().into(), data);
            changed_bytes(bench, &packet.bytes());
            changed_fields(bench, &packet);
        }
    }
}

fn changed_bytes(bench: &mut Bench, packet: &[u8]) {
    for length in 0..packet.len() {
        bench.read(&packet[..length]);
    }
    for more in 1..4 {
        let tail = bench.random.bytes(more);
        bench.read(&[packet, &tail].concat());
    }
    bench.read(&[packet, packet].concat());
    for change in 0..96 {
        let mut changed = packet.to_vec();
        if change < 64 {
            // Each bit of the first eight bytes.
            changed[change / 8 % packet.len()] ^= 1 << (change % 8);
        } else {
            changed[bench.random.below(packet.len())] = bench.random.byte();
        }
        bench.read(&changed);
        // The same change with the checksum made right, so that it is not found by that.
        if changed[0] & 0x20 != 0 {
            let last = changed.len() - 1;
            changed[last] = checksum(&changed[..last]);
            bench.read(&changed);
        }
    }
}

fn changed_fields(bench: &mut Bench, packet: &Packet) {
    for error in [1, 2, 128, 254, 255] {
        bench.read(&Packet { checksum_error: error, ..packet.clone() }.bytes());
    }
    // The checksum counted in, off by one either way, by 256, by what 16 bits can't tell.
    for error in [1, 2, 3, 5, 0x100, 0x8000, 0xFF00, 0xFFFE, 0xFFFF] {
        bench.read(&Packet { length_error: error, ..packet.clone() }.bytes());
    }
    for high in [1, 2, 0x80, 0xFF] {
        bench.read(&Packet { opcode: packet.opcode | high << 8, ..packet.clone() }.bytes());
        let header = packet.header | 0x08;
        bench.read(&Packet { opcode: packet.opcode | high << 8, header, ..packet.clone() }.bytes());
    }
    for destination in 0..8 {
        bench.read(&Packet { header: packet.header & 0xF8 | destination, ..packet.clone() }.bytes());
    }
    let opcode = other_opcode(&mut bench.random);
    bench.read(&Packet { opcode, ..packet.clone() }.bytes());
}

/// Packets of 512 and 513 bytes, and so long that 16 bits count the length of an accepted one.
pub fn long(bench: &mut Bench) {
    for total in 505..=520 {
        for _ in 0..300 {
            let mut packet = Packet::sound(&mut bench.random);
            let overhead = Header::from_byte(packet.header).options.overhead();
            packet.data.resize(total - overhead, 0);
            bench.read(&packet.bytes());
        }
        // 126 points and 250 gains fill 512 bytes with every field present.
        for (opcode, head) in [(Opcode::Map, vec![0, 0]), (Opcode::Gains, vec![0, 0, 250, 0, 0, 0])] {
            let mut packet = Packet::new(0x3C, opcode.number().into(), head);
            packet.data.resize(total - 6, 0);
            bench.read(&packet.bytes());
        }
    }
    for _ in 0..2000 {
        let packet = Packet::sound(&mut bench.random).bytes();
        let wraps = bench.random.pick(&[0x1_0000, 0x2_0000, 0x3_0000]);
        let mut longer = packet.clone();
        longer.resize(wraps + packet.len(), 0);
        // The data could also be taken up to the end, with its checksum there.
        let last = longer.len() - 1;
        longer[last] = checksum(&longer[..last]);
        bench.read(&longer);
        let length = wraps + bench.random.below(packet.len());
        bench.read(&longer[..length]);
    }
}

/// Two faults at once: the one tried first is answered. Each pair of refusals that one packet can
/// call for.
pub fn order(bench: &mut Bench) {
    for (index, first) in FAULTS.into_iter().enumerate() {
        for second in FAULTS.into_iter().skip(index + 1) {
            if never_together(first, second) {
                continue;
            }
            for _ in 0..OFTEN {
                let (one, both) = Packet::pair(&mut bench.random, first, second);
                for (packet, due) in [(one.bytes(), second), (both.bytes(), first)] {
                    let refusal = packet::read(&packet).err().map(|refused| refused.refusal);
                    bench.expect(refusal == Some(due), || format!("twin: {refusal:?}, not {due:?}"));
                    bench.read(&packet);
                }
            }
        }
    }
}

fn word_bytes(words: &[u16]) -> Vec<u8> {
    words.iter().flat_map(|word| word.to_le_bytes()).collect()
}
