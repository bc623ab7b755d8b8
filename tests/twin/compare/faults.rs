//! Data with values out of range, and the place that their refusal has to name: that of the field into
//! which the fault was put, and of several the first. It is written down here, and not taken from the twin.

use twin::command::{Direction, Opcode};
use twin::packet::{Header, LONGEST};
use twin::scripts::hex;

use crate::counts::headers;
use crate::generate;
use crate::random::Random;

/// Data of a command, and where its fault is; none if no value is out of range, whatever else may be.
#[derive(Clone, Debug)]
pub struct Case {
    pub opcode: Opcode,
    pub direction: Direction,
    pub data: Vec<u8>,
    pub place: Option<u16>,
}

impl Case {
    fn write(opcode: Opcode, data: Vec<u8>, place: usize) -> Self {
        Case { opcode, direction: Direction::Write, data, place: Some(place as u16) }
    }

    /// The header byte of every frame that the data fits, with and without a reply and a checksum.
    pub fn headers(&self) -> Vec<u8> {
        let own =
            headers().filter(|(opcode, direction, _)| (*opcode, *direction) == (self.opcode, self.direction));
        let fits = |header: &u8| Header::from_byte(*header).options.overhead() + self.data.len() <= LONGEST;
        own.map(|(_, _, header)| header).filter(fits).collect()
    }
}

/// Makes the cases of one kind.
pub type Cases = fn(&mut Random) -> Vec<Case>;

/// The kinds, by their names.
pub const PLACES: [(&str, Cases); 7] = [
    ("each field at its limits", limits),
    ("two fields at once", two_at_once),
    ("35h and 38h of any size", any_size),
    ("each entry of 35h's lists", lists),
    ("two entries of 35h's lists", two_entries),
    ("each word of 2Bh", words),
    ("each word of 2Bh's pairs", pairs),
];

/// A field that can be at fault: its place in the data, its bytes, and the ranges of what it takes.
type Field = (usize, usize, &'static [(u32, u32)]);

const FLAG: &[(u32, u32)] = &[(0, 1)];
const ANY_WORD: &[(u32, u32)] = &[(0, 0xFFFF)];
const PIN: &[(u32, u32)] = &[(0, 87)];
const PWM_PORT: &[(u32, u32)] = &[(0, 10), (13, 13)];
const UART_PORT: &[(u32, u32)] = &[(0, 2)];

/// A command's data in range, in hex, and its fields. The first so many of these decide on the size.
struct Form {
    opcode: Opcode,
    direction: Direction,
    data: &'static str,
    fields: &'static [Field],
    sizing: usize,
}

const fn write(opcode: Opcode, data: &'static str, fields: &'static [Field], sizing: usize) -> Form {
    Form { opcode, direction: Direction::Write, data, fields, sizing }
}

const fn read(opcode: Opcode, data: &'static str, fields: &'static [Field]) -> Form {
    Form { opcode, direction: Direction::Read, data, fields, sizing: 0 }
}

#[rustfmt::skip]
const FORMS: [Form; 22] = [
    write(Opcode::Display, "00", &[(0, 1, &[(0, 4)])], 0),
    write(Opcode::LowLatency, "00", &[(0, 1, FLAG)], 0),
    write(Opcode::CurtainColour, "00", &[(0, 1, &[(0, 0), (2, 8)])], 0),
    write(Opcode::Flip, "00", &[(0, 1, &[(0, 3)])], 0),
    write(Opcode::Freeze, "00", &[(0, 1, FLAG)], 0),
    write(
        Opcode::Gains, "00 00 02 00 00 00 01 00 02 00",
        &[(0, 1, FLAG), (1, 1, &[(0, 3)]), (4, 2, ANY_WORD), (6, 2, &[(0, 8191)]), (8, 2, &[(0, 8191)])], 1,
    ),
    write(
        Opcode::Gains, "01 00 04 00 00 00 01 00 02 00 03 00 04 00",
        &[
            (0, 1, FLAG), (1, 1, &[(0, 3)]), (4, 2, ANY_WORD), (6, 2, &[(1, 2016)]), (8, 2, &[(0, 8191)]),
            (10, 2, &[(1, 2016)]), (12, 2, &[(0, 8191)]),
        ], 1,
    ),
    write(
        Opcode::ControlPoints, "00 3E 00 20 00", &[(0, 1, FLAG), (1, 2, &[(2, 62)]), (3, 2, &[(2, 32)])], 1,
    ),
    write(Opcode::Apply, "00", &[(0, 1, FLAG)], 0),
    write(Opcode::SmoothTable, "03 04 00*48", &[(0, 1, &[(3, 5)]), (1, 1, &[(3, 5)])], 2),
    // A 1 is refusal 11.
    write(Opcode::UpdateMode, "00", &[(0, 1, FLAG)], 0),
    write(Opcode::Pin, "00 00 00 00", &[(0, 1, PIN), (1, 1, FLAG), (2, 1, FLAG), (3, 1, FLAG)], 0),
    write(Opcode::PinLevel, "00 00", &[(0, 1, PIN), (1, 1, FLAG)], 0),
    write(
        Opcode::Pwm, "00 14 00 00 00 00 00",
        &[(0, 1, PWM_PORT), (1, 4, &[(20, 10_390_000)]), (5, 1, &[(0, 100)]), (6, 1, FLAG)], 0,
    ),
    write(Opcode::EepromLock, "00", &[(0, 1, FLAG)], 0),
    write(
        Opcode::Uart, "00*11",
        &[
            (0, 1, UART_PORT), (1, 1, FLAG), (2, 1, &[(0, 11)]), (3, 1, &[(0, 3)]), (4, 1, FLAG),
            (5, 1, &[(0, 2)]), (6, 1, FLAG), (7, 1, &[(0, 4)]), (8, 1, &[(0, 4)]), (9, 1, FLAG), (10, 1, FLAG),
        ], 0,
    ),
    read(Opcode::Gains, "01 00 00 01 00", &[(0, 1, &[(1, 3)]), (1, 2, ANY_WORD), (3, 2, &[(1, 254)])]),
    read(Opcode::Map, "00 00 01 00", &[(0, 2, ANY_WORD), (2, 2, &[(1, 127)])]),
    read(Opcode::Pin, "00", &[(0, 1, PIN)]),
    read(Opcode::PinLevel, "00", &[(0, 1, PIN)]),
    read(Opcode::Pwm, "00", &[(0, 1, PWM_PORT)]),
    read(Opcode::Uart, "00", &[(0, 1, UART_PORT)]),
];

/// The values at the ends of what a field takes.
fn inside((_, _, taken): &Field) -> Vec<u32> {
    taken.iter().flat_map(|(low, high)| [*low, *high]).collect()
}

/// Values that a field does not take: one past each end, the least and the most of its bytes, and what
/// loses a byte or a bit on its way into a smaller number.
fn outside((_, bytes, taken): &Field) -> Vec<u32> {
    let most = u32::MAX >> (32 - 8 * bytes);
    let past = taken.iter().flat_map(|(low, high)| [low.wrapping_sub(1), high.wrapping_add(1)]);
    let lost =
        taken.iter().flat_map(|(low, _)| [0x80, 0x100, 0x8000, 0x1_0000, 0x100_0000].map(|bit| low | bit));
    let mut values: Vec<u32> = past.chain(lost).chain([0, most]).filter(|value| *value <= most).collect();
    values.retain(|value| !taken.iter().any(|(low, high)| (low..=high).contains(&value)));
    values.sort_unstable();
    values.dedup();
    values
}

fn put(data: &mut [u8], (place, bytes, _): &Field, value: u32) {
    data[*place..place + bytes].copy_from_slice(&value.to_le_bytes()[..*bytes]);
}

impl Form {
    /// Data with any values in range, but for those that decide on its size.
    fn sound(&self, random: &mut Random) -> Vec<u8> {
        let mut data = hex(self.data);
        for field in &self.fields[self.sizing..] {
            let (low, high) = random.pick(field.2);
            put(&mut data, field, random.within(low..=high));
        }
        data
    }

    /// Such data with these values in the place of others, of which the first is at fault.
    fn faulty(&self, random: &mut Random, values: &[(&Field, u32)]) -> Case {
        let mut data = self.sound(random);
        for (field, value) in values {
            put(&mut data, field, *value);
        }
        let (first, _) = values[0];
        Case { opcode: self.opcode, direction: self.direction, data, place: Some(first.0 as u16) }
    }

    /// Data with a field at one of its limits. Another flag or mode than the form's has other ranges, in
    /// which the form's own values lie.
    fn at_limit(&self, random: &mut Random, index: usize, value: u32) -> Case {
        let mut data = if index < self.sizing { hex(self.data) } else { self.sound(random) };
        put(&mut data, &self.fields[index], value);
        Case { opcode: self.opcode, direction: self.direction, data, place: None }
    }
}

/// Each field of each command at each of its limits, and past them.
pub fn limits(random: &mut Random) -> Vec<Case> {
    let mut cases = Vec::new();
    for form in FORMS.iter().cycle().take(4 * FORMS.len()) {
        for (index, field) in form.fields.iter().enumerate() {
            cases.extend(inside(field).iter().map(|value| form.at_limit(random, index, *value)));
            cases.extend(outside(field).iter().map(|value| form.faulty(random, &[(field, *value)])));
        }
    }
    cases.extend(no_words());
    cases
}

/// 2Bh without a word: the count is at fault, unless the flag or the colour ahead of it is.
fn no_words() -> Vec<Case> {
    let starts = [0, 2016, 0xFFFF_u16];
    let heads = [0, 1, 2, 0x80, 255].into_iter().flat_map(|flag| [0, 3, 4, 255].map(|colour| (flag, colour)));
    let case = |(flag, colour): (u8, u8), start: u16| {
        let place = match (flag, colour) {
            (2.., _) => 0,
            (_, 4..) => 1,
            _ => 2,
        };
        let data = [&[flag, colour, 0, 0][..], &start.to_le_bytes()].concat();
        Case::write(Opcode::Gains, data, place)
    };
    heads.flat_map(|head| starts.map(|start| case(head, start))).collect()
}

/// Two fields at fault at once, each pair of each command; and all fields from one on.
pub fn two_at_once(random: &mut Random) -> Vec<Case> {
    let mut cases = Vec::new();
    for form in &FORMS {
        let faulty: Vec<&Field> = form.fields.iter().filter(|field| !outside(field).is_empty()).collect();
        for (index, first) in faulty.iter().enumerate() {
            let mut all = vec![(*first, random.pick(&outside(first)))];
            for second in &faulty[index + 1..] {
                all.push((second, random.pick(&outside(second))));
                for value in outside(first) {
                    let values = [(*first, value), (*second, random.pick(&outside(second)))];
                    cases.push(form.faulty(random, &values));
                }
            }
            cases.push(form.faulty(random, &all));
        }
    }
    cases
}

/// A mode of 35h, and columns and rows of 38h, out of range in data of many sizes, right and wrong.
pub fn any_size(random: &mut Random) -> Vec<Case> {
    let mut cases = Vec::new();
    for size in (1..200).chain([255, 256, 300, 400, 506]) {
        let mode = [random.pick(&[2, 3, 128, 255])];
        let data = [&mode[..], &random.bytes(size - 1)].concat();
        cases.push(Case::write(Opcode::ControlPoints, data, 0));
        let (good, bad) = (random.byte_within(3..=5), random.pick(&[0, 1, 2, 6, 7, 255]));
        let other = random.byte();
        for (head, place) in [([bad, other], 0), ([good, bad], 1)] {
            let data = [&head[..], &random.bytes(size - 1)].concat();
            cases.push(Case::write(Opcode::SmoothTable, data, place));
        }
    }
    cases
}

/// The entries of both lists that have one before them in their own.
fn entries() -> impl Iterator<Item = usize> {
    (1..62).chain(63..94)
}

/// The data of 35h in mode 1.
fn listed(entries: &[u16]) -> Vec<u8> {
    [&[1][..], &word_bytes(entries)].concat()
}

fn word_bytes(words: &[u16]) -> Vec<u8> {
    words.iter().flat_map(|word| word.to_le_bytes()).collect()
}

/// Both lists, rising.
fn rising(random: &mut Random) -> Vec<u16> {
    let (columns, rows): ([u16; 62], [u16; 32]) = (generate::rising(random), generate::rising(random));
    [&columns[..], &rows].concat()
}

/// Each entry of 35h's lists that can be at fault, equal to the one before it and below it, by its own
/// value and by that of the one before; and the entries of the second list below all of the first, which
/// is no fault.
pub fn lists(random: &mut Random) -> Vec<Case> {
    let mut cases = Vec::new();
    for entry in (0..3).flat_map(|_| entries()) {
        let rising = rising(random);
        let before = rising[entry - 1];
        let own = rising[entry];
        let low = [before, before.saturating_sub(1), before / 2, 0].map(|value| (entry, value));
        let high = [own, u16::MAX].map(|value| (entry - 1, value));
        for (changed, value) in low.into_iter().chain(high) {
            let mut entries = rising.clone();
            entries[changed] = value;
            cases.push(Case::write(Opcode::ControlPoints, listed(&entries), 1 + 2 * entry));
        }
    }
    for (first, second) in [(0, 0), (0, 1000), (1000, 0), (65_474, 65_504)] {
        let entries: Vec<u16> =
            (0..62).map(|entry| first + entry).chain((0..32).map(|entry| second + entry)).collect();
        let sound = Case::write(Opcode::ControlPoints, listed(&entries), 0);
        cases.push(Case { place: None, ..sound });
    }
    cases
}

/// Two entries at fault: each of the first list with each of the second, and each with a later one of
/// its own; all entries equal, and all falling.
pub fn two_entries(random: &mut Random) -> Vec<Case> {
    let mut cases = Vec::new();
    for (first, second) in (1..62).flat_map(|first| (63..94).map(move |second| (first, second))) {
        let mut entries = rising(random);
        entries[first] = entries[first - 1];
        entries[second] = entries[second - 1];
        cases.push(Case::write(Opcode::ControlPoints, listed(&entries), 1 + 2 * first));
    }
    for entry in entries() {
        let mut entries = rising(random);
        let last = if entry < 62 { 62 } else { 94 };
        let before = entries[entry - 1];
        entries[entry..last].fill(before);
        cases.push(Case::write(Opcode::ControlPoints, listed(&entries), 1 + 2 * entry));
    }
    for step in [0, 1, 700] {
        let falling: Vec<u16> = (0..94).map(|entry| 65_535 - step * entry).collect();
        cases.push(Case::write(Opcode::ControlPoints, listed(&falling), 3));
    }
    cases
}

/// The data of a 2Bh write whose count is that of its words.
fn gains(random: &mut Random, flag: u8, words: &[u16]) -> Vec<u8> {
    let head = [flag, random.byte_within(0..=3)];
    [&head[..], &word_bytes(&[words.len() as u16, random.word()]), &word_bytes(words)].concat()
}

/// The most words that a packet takes.
const MOST_WORDS: usize = 251;

/// Each word of 2Bh too large, alone and with others behind it.
pub fn words(random: &mut Random) -> Vec<Case> {
    let mut cases = Vec::new();
    for count in [1, 2, 3, 4, 125, 250, MOST_WORDS] {
        let sound: Vec<u16> = (0..count).map(|_| random.word_within(0..=8191)).collect();
        for word in 0..count {
            for value in [8192, 8193, 0x2FFF, 0x4000, 0x8000, 0xFF00, 0xFFFF] {
                let mut words = sound.clone();
                words[word] = value;
                let place = 6 + 2 * word;
                cases.push(Case::write(Opcode::Gains, gains(random, 0, &words), place));
                words[word..].fill(value);
                cases.push(Case::write(Opcode::Gains, gains(random, 0, &words), place));
            }
        }
        cases.push(Case { place: None, ..Case::write(Opcode::Gains, gains(random, 0, &sound), 0) });
    }
    cases
}

/// Each run and each gain of 2Bh's pairs out of range, alone and with the rest of its pair and the next.
pub fn pairs(random: &mut Random) -> Vec<Case> {
    let mut cases = Vec::new();
    for count in [1, 2, 3, 62, 124, 125] {
        let sound: Vec<u16> =
            (0..count).flat_map(|_| [random.word_within(1..=2016), random.word_within(0..=8191)]).collect();
        for word in 0..2 * count {
            for value in if word % 2 == 0 { [0, 2017, 0x8001] } else { [8192, 0x8000, 0xFFFF] } {
                let mut words = sound.clone();
                words[word] = value;
                let place = 6 + 2 * word;
                cases.push(Case::write(Opcode::Gains, gains(random, 1, &words), place));
                let end = words.len().min(word + 3);
                words[word + 1..end].fill(0xFFFF);
                cases.push(Case::write(Opcode::Gains, gains(random, 1, &words), place));
            }
        }
        cases.push(Case { place: None, ..Case::write(Opcode::Gains, gains(random, 1, &sound), 0) });
    }
    cases
}

/// Every place that a refusal can name, by its command.
pub fn places() -> Vec<(Opcode, Direction, u16)> {
    let of_form = |form: &'static Form| {
        let faulty = form.fields.iter().filter(|field| !outside(field).is_empty());
        faulty.map(|field| (form.opcode, form.direction, field.0))
    };
    let count = [(Opcode::Gains, Direction::Write, 2)].into_iter();
    let entries = entries().map(|entry| (Opcode::ControlPoints, Direction::Write, 1 + 2 * entry));
    let words = (0..MOST_WORDS).map(|word| (Opcode::Gains, Direction::Write, 6 + 2 * word));
    let all = FORMS.iter().flat_map(of_form).chain(count).chain(entries).chain(words);
    let mut places: Vec<_> =
        all.map(|(opcode, direction, place)| (opcode, direction, place as u16)).collect();
    places.sort_unstable_by_key(|(opcode, direction, place)| {
        (opcode.number(), *direction == Direction::Read, *place)
    });
    places.dedup();
    places
}
