//! The data of commands, its values inside their ranges, at the limits half of the time.

use std::collections::BTreeSet;
use std::ops::Range;

use twin::command::{Colour, Direction, Opcode, Read, Target, Write};
use twin::fields::Word;
use twin::runs::{self, Pair, LONGEST_RUN};
use twin::settings::{ControlPoints, Lists, Pin, Point, Pwm, Uart, PWM_PORTS};

use crate::random::Random;

/// The data of a command of this opcode and direction, at most `room` bytes.
pub fn data(random: &mut Random, opcode: Opcode, direction: Direction, room: usize) -> Vec<u8> {
    match direction {
        Direction::Write => write(random, opcode, room),
        Direction::Read => read(random, opcode).data(),
    }
}

fn write(random: &mut Random, opcode: Opcode, room: usize) -> Vec<u8> {
    let (words, pairs, points, lists): (Vec<Word>, Vec<Pair>, Vec<Point>, Lists);
    let write = match opcode {
        Opcode::Display => Write::Display(random.byte_within(0..=4)),
        Opcode::LowLatency => Write::LowLatency(random.flag()),
        Opcode::Look => Write::Look(random.word()),
        Opcode::CurtainColour => Write::CurtainColour(random.pick(&[0, 2, 3, 4, 5, 6, 7, 8])),
        Opcode::SplashImage => Write::SplashImage(random.byte()),
        Opcode::Flip => Write::Flip(random.byte_within(0..=3)),
        Opcode::Freeze => Write::Freeze(random.flag()),
        Opcode::Gains if random.flag() => {
            let count = count(random, (room - 6) / 4);
            pairs = fitting_pairs(random, count);
            Write::CompressedGains { target: target(random), start: random.word(), pairs: &pairs }
        }
        Opcode::Gains => {
            let count = count(random, (room - 6) / 2);
            words = (0..count).map(|_| gain(random)).collect();
            Write::Gains { target: target(random), start: random.word(), words: &words }
        }
        Opcode::Map => {
            let count = count(random, (room - 2) / 4);
            points = (0..count).map(|_| point(random)).collect();
            Write::Map { start: random.word(), points: &points }
        }
        Opcode::ControlPoints if room >= 189 && random.flag() => {
            lists = rising_lists(random);
            Write::ControlPoints(ControlPoints::Listed(&lists))
        }
        Opcode::ControlPoints => {
            let (columns, rows) = (random.word_within(2..=62), random.word_within(2..=32));
            Write::ControlPoints(ControlPoints::Even { columns, rows })
        }
        Opcode::Apply => Write::Apply(random.flag()),
        Opcode::SmoothTable => {
            let (columns, rows) = (random.byte_within(3..=5), random.byte_within(3..=5));
            points = (0..columns * rows).map(|_| point(random)).collect();
            Write::SmoothTable { columns, rows, points: &points }
        }
        Opcode::UpdateMode => Write::UpdateMode,
        Opcode::Pin => Write::Pin {
            pin: random.byte_within(0..=87),
            config: Pin { direction: random.flag(), level: random.flag(), drain: random.flag() },
        },
        Opcode::PinLevel => Write::PinLevel { pin: random.byte_within(0..=87), level: random.flag() },
        Opcode::Pwm => Write::Pwm {
            port: random.pick(&PWM_PORTS),
            config: Pwm {
                frequency: random.within(20..=10_390_000),
                duty: random.byte_within(0..=100),
                on: random.flag(),
            },
        },
        Opcode::EepromLock => Write::EepromLock(random.flag()),
        Opcode::Uart => Write::Uart {
            port: random.byte_within(0..=2),
            config: Uart {
                on: random.flag(),
                baud: random.byte_within(0..=11),
                bits: random.byte_within(0..=3),
                stop: random.flag(),
                parity: random.byte_within(0..=2),
                flow: random.flag(),
                triggers: [random.byte_within(0..=4), random.byte_within(0..=4)],
                polarity: random.flag(),
                source: random.flag(),
            },
        },
    };
    write.data()
}

fn read(random: &mut Random, opcode: Opcode) -> Read {
    match opcode {
        Opcode::Display => Read::Display,
        Opcode::LowLatency => Read::LowLatency,
        Opcode::Look => Read::Look,
        Opcode::CurtainColour => Read::CurtainColour,
        Opcode::SplashImage => Read::SplashImage,
        Opcode::Flip => Read::Flip,
        Opcode::Freeze => Read::Freeze,
        Opcode::Gains => Read::Gains {
            colour: random.pick(&Colour::ALL),
            start: random.word(),
            count: random.word_within(1..=254),
        },
        Opcode::Map => Read::Map { start: random.word(), count: random.word_within(1..=127) },
        Opcode::ControlPoints => Read::ControlPoints,
        Opcode::Apply => Read::Apply,
        Opcode::SmoothTable => Read::SmoothTable,
        Opcode::UpdateMode => Read::UpdateMode,
        Opcode::Pin => Read::Pin(random.byte_within(0..=87)),
        Opcode::PinLevel => Read::PinLevel(random.byte_within(0..=87)),
        Opcode::Pwm => Read::Pwm(random.pick(&PWM_PORTS)),
        Opcode::EepromLock => Read::EepromLock,
        Opcode::Uart => Read::Uart(random.byte_within(0..=2)),
    }
}

/// Where the data of this command has its start, if it has one.
pub fn start_place(opcode: Opcode, direction: Direction) -> Option<Range<usize>> {
    match (opcode, direction) {
        (Opcode::Map, _) => Some(0..2),
        (Opcode::Gains, Direction::Write) => Some(4..6),
        (Opcode::Gains, Direction::Read) => Some(1..3),
        _ => None,
    }
}

/// From 1 to `most`, small numbers more often.
fn count(random: &mut Random, most: usize) -> usize {
    let most = if random.below(3) == 0 { most } else { most.min(8) };
    random.within(1..=most as u32) as usize
}

fn target(random: &mut Random) -> Target {
    let one = Target::One(random.pick(&Colour::ALL));
    random.pick(&[Target::All, one, one, one])
}

pub fn gain(random: &mut Random) -> Word {
    random.word_within(0..=8191).to_le_bytes()
}

/// So many pairs that stand for no more gains than a colour has.
pub fn fitting_pairs(random: &mut Random, count: usize) -> Vec<Pair> {
    let most = LONGEST_RUN / count as u16;
    (0..count).map(|_| runs::pair(random.word_within(1..=most), gain(random))).collect()
}

fn point(random: &mut Random) -> Point {
    let [[a, b], [c, d]] = [random.word(), random.word()].map(u16::to_le_bytes);
    [a, b, c, d]
}

/// The two lists of 35h.
pub fn rising_lists(random: &mut Random) -> Lists {
    let (columns, rows) = (rising::<62>(random), rising::<32>(random));
    let mut entries = columns.iter().chain(&rows);
    std::array::from_fn(|_| entries.next().expect("62 and 32 entries").to_le_bytes())
}

/// A strictly rising list: scattered, or without a gap at either end of the numbers.
pub fn rising<const N: usize>(random: &mut Random) -> [u16; N] {
    let mut numbers = BTreeSet::new();
    match random.below(4) {
        0 => numbers.extend(0..N as u16),
        1 => numbers.extend(u16::MAX - (N as u16 - 1)..=u16::MAX),
        _ => {
            while numbers.len() < N {
                numbers.insert(random.word());
            }
        }
    }
    Vec::from_iter(numbers).try_into().expect("N numbers")
}
