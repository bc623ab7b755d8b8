//! The settings that commands write and read, typed, with their ranges and their values after reset.

use crate::fields::{Fields, OutOfRange, Word};

/// Columns of a full warp map.
pub const COLUMNS: usize = 62;
/// Rows of a full warp map.
pub const ROWS: usize = 32;
/// Points of a warp map (rule 1.3).
pub const POINTS: usize = COLUMNS * ROWS;
/// Points of a full smooth table.
pub const SMOOTH_POINTS: usize = 25;
/// Gains of one colour.
pub const GAINS: usize = 2016;
/// Pins of 60h and 61h.
pub const PINS: usize = 88;
/// The ports that 65h takes (rule 5.1); any other is refusal 10.
pub const PWM_PORTS: [u8; 12] = [0, 1, 2, 3, 4, 5, 6, 7, 8, 9, 10, 13];
/// Ports of 6Dh.
pub const UARTS: usize = 3;

/// A warp map point as it lies in packets, tables and the block: x, then y, any 16 bits each (13.3
/// fixed point).
pub type Point = [u8; 4];

/// The two lists of 35h as they lie there: 62 entries for the columns, then 32 for the rows.
pub type Lists = [Word; COLUMNS + ROWS];

/// Rule 5.5: both lists rise strictly. At fault is the first entry no greater than its predecessor; the
/// first entry of each list has none. This is measured alone, too, as one call, hence the inlining.
#[inline]
pub fn rising(lists: &Lists) -> Result<&Lists, OutOfRange> {
    let (columns, rows) = lists.split_at(COLUMNS);
    match first_fall(columns).or_else(|| Some(COLUMNS + first_fall(rows)?)) {
        Some(index) => Err(OutOfRange { place: size_of::<Word>() * index }),
        None => Ok(lists),
    }
}

/// The index of the first entry that is not above the one before it.
fn first_fall(list: &[Word]) -> Option<usize> {
    let falls = |beside: &[Word]| u16::from_le_bytes(beside[0]) >= u16::from_le_bytes(beside[1]);
    Some(list.windows(2).position(falls)? + 1)
}

/// 1Ah: curtain colour 0, 2-8.
pub fn curtain_colour(colour: u8) -> Option<u8> {
    matches!(colour, 0 | 2..=8).then_some(colour)
}

/// A pin as 60h sets it: direction, level, drain. 61h shares the level (rule 5.3).
#[derive(Clone, Copy, Debug, Default, PartialEq, Eq)]
pub struct Pin {
    pub direction: bool,
    pub level: bool,
    pub drain: bool,
}

impl Pin {
    pub fn take(fields: &mut Fields) -> Result<Self, OutOfRange> {
        Ok(Pin { direction: fields.flag()?, level: fields.flag()?, drain: fields.flag()? })
    }

    pub fn bytes(self) -> [u8; 3] {
        [self.direction, self.level, self.drain].map(u8::from)
    }
}

/// A PWM output as 65h sets it.
#[derive(Clone, Copy, Debug, PartialEq, Eq)]
pub struct Pwm {
    /// 20-10,390,000.
    pub frequency: u32,
    /// 0-100.
    pub duty: u8,
    pub on: bool,
}

impl Pwm {
    pub fn take(fields: &mut Fields) -> Result<Self, OutOfRange> {
        Ok(Pwm {
            frequency: fields.long_within(20..=10_390_000)?,
            duty: fields.byte_within(0..=100)?,
            on: fields.flag()?,
        })
    }

    pub fn bytes(self) -> [u8; 6] {
        let [a, b, c, d] = self.frequency.to_le_bytes();
        [a, b, c, d, self.duty, self.on.into()]
    }
}

impl Default for Pwm {
    /// After reset the frequency is 20 (rule 5.10).
    fn default() -> Self {
        Pwm { frequency: 20, duty: 0, on: false }
    }
}

/// A UART as 6Dh sets it.
#[derive(Clone, Copy, Debug, Default, PartialEq, Eq)]
pub struct Uart {
    pub on: bool,
    /// 0-11.
    pub baud: u8,
    /// 0-3.
    pub bits: u8,
    pub stop: bool,
    /// 0-2.
    pub parity: u8,
    pub flow: bool,
    /// 0-4 each.
    pub triggers: [u8; 2],
    pub polarity: bool,
    pub source: bool,
}

impl Uart {
    pub fn take(fields: &mut Fields) -> Result<Self, OutOfRange> {
        Ok(Uart {
            on: fields.flag()?,
            baud: fields.byte_within(0..=11)?,
            bits: fields.byte_within(0..=3)?,
            stop: fields.flag()?,
            parity: fields.byte_within(0..=2)?,
            flow: fields.flag()?,
            triggers: [fields.byte_within(0..=4)?, fields.byte_within(0..=4)?],
            polarity: fields.flag()?,
            source: fields.flag()?,
        })
    }

    pub fn bytes(self) -> [u8; 10] {
        [
            self.on.into(),
            self.baud,
            self.bits,
            self.stop.into(),
            self.parity,
            self.flow.into(),
            self.triggers[0],
            self.triggers[1],
            self.polarity.into(),
            self.source.into(),
        ]
    }
}

/// What a 35h write carries.
#[derive(Clone, Copy, Debug, PartialEq, Eq)]
pub enum ControlPoints<'a> {
    /// Mode 0: 2-62 columns, 2-32 rows.
    Even { columns: u16, rows: u16 },
    /// Mode 1: the two lists, for 62 × 32 points.
    Listed(&'a Lists),
}

impl<'a> ControlPoints<'a> {
    /// Mode 0's two numbers.
    pub fn take_even(fields: &mut Fields) -> Result<Self, OutOfRange> {
        Ok(ControlPoints::Even {
            columns: fields.word_within(2..=COLUMNS as u16)?,
            rows: fields.word_within(2..=ROWS as u16)?,
        })
    }

    /// Mode 1's two lists.
    pub fn take_listed(fields: &mut Fields<'a>) -> Result<Self, OutOfRange> {
        let ahead = fields.place();
        let lists = rising(fields.array()).map_err(|fault| fault.behind(ahead))?;
        Ok(ControlPoints::Listed(lists))
    }

    /// The written form.
    pub fn bytes(&self) -> Vec<u8> {
        match self {
            ControlPoints::Even { columns, rows } => {
                [&[0][..], &columns.to_le_bytes(), &rows.to_le_bytes()].concat()
            }
            ControlPoints::Listed(lists) => [&[1], lists.as_flattened()].concat(),
        }
    }
}

/// Shape, mode and lists, as they are staged or live.
#[derive(Clone, Copy, Debug, PartialEq, Eq)]
pub struct Shape {
    pub listed: bool,
    pub columns: u16,
    pub rows: u16,
    pub lists: Lists,
}

impl Shape {
    /// A shape that was judged.
    pub fn take(fields: &mut Fields) -> Result<Self, OutOfRange> {
        let listed = fields.flag()?;
        Ok(Shape { listed, columns: fields.word(), rows: fields.word(), lists: *fields.array() })
    }

    pub fn bytes(&self) -> Vec<u8> {
        let (columns, rows) = (self.columns.to_le_bytes(), self.rows.to_le_bytes());
        [&[self.listed.into()], &columns[..], &rows, self.lists.as_flattened()].concat()
    }
}

impl Default for Shape {
    /// After reset 62 × 32 in mode 0, and lists that count from 0 (rule 5.10).
    fn default() -> Self {
        let number = |i| if i < COLUMNS { i } else { i - COLUMNS } as u16;
        Shape {
            listed: false,
            columns: COLUMNS as u16,
            rows: ROWS as u16,
            lists: std::array::from_fn(|i| number(i).to_le_bytes()),
        }
    }
}

/// The smooth table of 38h: columns × rows of its 25 stored points are in use.
#[derive(Clone, Copy, Debug, PartialEq, Eq)]
pub struct SmoothTable {
    pub columns: u8,
    pub rows: u8,
    pub points: [Point; SMOOTH_POINTS],
}

impl SmoothTable {
    /// A table that was judged.
    pub fn take(fields: &mut Fields) -> Self {
        SmoothTable { columns: fields.byte(), rows: fields.byte(), points: *fields.array() }
    }

    pub fn bytes(&self) -> Vec<u8> {
        [&[self.columns, self.rows], self.points.as_flattened()].concat()
    }
}

impl Default for SmoothTable {
    /// After reset 3 × 3 (rule 5.10).
    fn default() -> Self {
        SmoothTable { columns: 3, rows: 3, points: [[0; 4]; SMOOTH_POINTS] }
    }
}

/// All settings, in the order of the block.
#[derive(Clone, Debug, PartialEq, Eq)]
pub struct Settings {
    pub display: u8,
    pub low_latency: bool,
    pub look: u16,
    pub curtain_colour: u8,
    pub splash_image: u8,
    pub flip: u8,
    pub freeze: bool,
    pub staged: Shape,
    pub enable: bool,
    pub live: Shape,
    pub smooth: SmoothTable,
    /// 0: merge mode is not carried (rule 5.1, 39h).
    pub update_mode: u8,
    pub pins: [Pin; PINS],
    pub pwms: [Pwm; PWM_PORTS.len()],
    pub eeprom_lock: bool,
    pub uarts: [Uart; UARTS],
}

impl Default for Settings {
    /// After reset (rule 5.10) all is 0, but for the fields that have defaults of their own.
    fn default() -> Self {
        Settings {
            display: 0,
            low_latency: false,
            look: 0,
            curtain_colour: 0,
            splash_image: 0,
            flip: 0,
            freeze: false,
            staged: Shape::default(),
            enable: false,
            live: Shape::default(),
            smooth: SmoothTable::default(),
            update_mode: 0,
            pins: [Pin::default(); PINS],
            pwms: Default::default(),
            eeprom_lock: false,
            uarts: Default::default(),
        }
    }
}
