//! The eighteen commands of rule 5.1 as types, and how their data is read and written.

use crate::fields::{Fields, OutOfRange, Word};
use crate::refusal::{Refusal, Refused};
use crate::runs::{self, Pair};
use crate::settings::{
    curtain_colour, rising, ControlPoints, Lists, Pin, Point, Pwm, Uart, PINS, PWM_PORTS, UARTS,
};

/// Bit 7 of the header.
#[derive(Clone, Copy, Debug, PartialEq, Eq)]
pub enum Direction {
    Write,
    Read,
}

impl Direction {
    pub const BOTH: [Direction; 2] = [Direction::Write, Direction::Read];
}

/// The opcodes carried.
#[derive(Clone, Copy, Debug, PartialEq, Eq)]
#[repr(u8)]
pub enum Opcode {
    Display = 0x11,
    LowLatency = 0x12,
    Look = 0x13,
    CurtainColour = 0x1A,
    SplashImage = 0x1B,
    Flip = 0x1C,
    Freeze = 0x1D,
    Gains = 0x2B,
    Map = 0x34,
    ControlPoints = 0x35,
    Apply = 0x36,
    SmoothTable = 0x38,
    UpdateMode = 0x39,
    Pin = 0x60,
    PinLevel = 0x61,
    Pwm = 0x65,
    EepromLock = 0x6C,
    Uart = 0x6D,
}

impl Opcode {
    pub const ALL: [Opcode; 18] = [
        Opcode::Display,
        Opcode::LowLatency,
        Opcode::Look,
        Opcode::CurtainColour,
        Opcode::SplashImage,
        Opcode::Flip,
        Opcode::Freeze,
        Opcode::Gains,
        Opcode::Map,
        Opcode::ControlPoints,
        Opcode::Apply,
        Opcode::SmoothTable,
        Opcode::UpdateMode,
        Opcode::Pin,
        Opcode::PinLevel,
        Opcode::Pwm,
        Opcode::EepromLock,
        Opcode::Uart,
    ];

    pub fn number(self) -> u8 {
        self as u8
    }

    /// The opcode of this number; none (refusal 7) if it is not carried.
    pub fn find(number: u16) -> Option<Opcode> {
        *BY_NUMBER.get(usize::from(number))?
    }

    /// Whether a write needs a length field (rule 4.1, 8).
    pub fn is_variable(self) -> bool {
        matches!(self, Opcode::Gains | Opcode::Map | Opcode::ControlPoints | Opcode::SmoothTable)
    }
}

/// Each opcode at the index of its number.
const BY_NUMBER: [Option<Opcode>; 256] = {
    let mut by_number = [None; 256];
    let mut index = 0;
    while index < Opcode::ALL.len() {
        by_number[Opcode::ALL[index] as usize] = Some(Opcode::ALL[index]);
        index += 1;
    }
    by_number
};

/// The colours that a 2Bh write names.
#[derive(Clone, Copy, Debug, PartialEq, Eq)]
pub enum Target {
    All,
    One(Colour),
}

impl Target {
    /// Rule 5.8: 0 all three, 1-3 one colour.
    fn from_byte(byte: u8) -> Option<Self> {
        match byte {
            0 => Some(Target::All),
            _ => Colour::from_byte(byte).map(Target::One),
        }
    }

    fn byte(self) -> u8 {
        match self {
            Target::All => 0,
            Target::One(colour) => colour as u8,
        }
    }
}

/// Rule 5.8: 1 red, 2 green, 3 blue.
#[derive(Clone, Copy, Debug, PartialEq, Eq)]
#[repr(u8)]
pub enum Colour {
    Red = 1,
    Green = 2,
    Blue = 3,
}

impl Colour {
    pub const ALL: [Colour; 3] = [Colour::Red, Colour::Green, Colour::Blue];

    fn from_byte(byte: u8) -> Option<Self> {
        Colour::ALL.into_iter().find(|colour| *colour as u8 == byte)
    }
}

/// What a write asks for, its values in range. Words and points lie where the packet has them.
#[derive(Clone, Copy, Debug, PartialEq, Eq)]
pub enum Write<'a> {
    /// 11h: display 0-4.
    Display(u8),
    /// 12h.
    LowLatency(bool),
    /// 13h: look, any 16-bit number.
    Look(u16),
    /// 1Ah: curtain colour 0, 2-8.
    CurtainColour(u8),
    /// 1Bh: any byte.
    SplashImage(u8),
    /// 1Ch: 0-3.
    Flip(u8),
    /// 1Dh.
    Freeze(bool),
    /// 2Bh with flag 0, rule 5.8: as many words, 0-8191, as the packet counts.
    Gains { target: Target, start: u16, words: &'a [Word] },
    /// 2Bh with flag 1, rule 5.11: one pair or more of a run, 1-2,016, and a gain, 0-8191.
    CompressedGains { target: Target, start: u16, pairs: &'a [Pair] },
    /// 34h, rule 5.4: one point or more.
    Map { start: u16, points: &'a [Point] },
    /// 35h, rule 5.5.
    ControlPoints(ControlPoints<'a>),
    /// 36h, rule 5.6.
    Apply(bool),
    /// 38h, rule 5.7: columns 3-5, rows 3-5, and a point for each of columns × rows.
    SmoothTable { columns: u8, rows: u8, points: &'a [Point] },
    /// 39h: only mode 0 is carried.
    UpdateMode,
    /// 60h: pin 0-87.
    Pin { pin: u8, config: Pin },
    /// 61h: pin 0-87.
    PinLevel { pin: u8, level: bool },
    /// 65h: ports 0-10 and 13.
    Pwm { port: u8, config: Pwm },
    /// 6Ch.
    EepromLock(bool),
    /// 6Dh: port 0-2.
    Uart { port: u8, config: Uart },
}

impl<'a> Write<'a> {
    /// A write's data as what it asks for: refusals 9, 10 and 11, in this order, with the
    /// exceptions of rule 5.9 for 35h and 38h. Fields are taken as they stand, so that the first at
    /// fault is the one whose place is named.
    pub fn parse(opcode: Opcode, data: &'a [u8]) -> Result<Self, Refused> {
        Ok(match opcode {
            Opcode::Display => Write::Display(sized(data, 1)?.byte_within(0..=4)?),
            Opcode::LowLatency => Write::LowLatency(sized(data, 1)?.flag()?),
            Opcode::Look => Write::Look(sized(data, 2)?.word()),
            Opcode::CurtainColour => Write::CurtainColour(sized(data, 1)?.byte_as(curtain_colour)?),
            Opcode::SplashImage => Write::SplashImage(sized(data, 1)?.byte()),
            Opcode::Flip => Write::Flip(sized(data, 1)?.byte_within(0..=3)?),
            Opcode::Freeze => Write::Freeze(sized(data, 1)?.flag()?),
            Opcode::Gains => return Write::parse_gains(data),
            Opcode::Map => return Write::parse_map(data),
            Opcode::ControlPoints => return Write::parse_control_points(data),
            Opcode::Apply => Write::Apply(sized(data, 1)?.flag()?),
            Opcode::SmoothTable => return Write::parse_smooth_table(data),
            Opcode::UpdateMode => match sized(data, 1)?.flag()? {
                false => Write::UpdateMode,
                true => return Err(Refusal::NotCarried.into()),
            },
            Opcode::Pin => {
                let mut fields = sized(data, 4)?;
                Write::Pin { pin: pin(&mut fields)?, config: Pin::take(&mut fields)? }
            }
            Opcode::PinLevel => {
                let mut fields = sized(data, 2)?;
                Write::PinLevel { pin: pin(&mut fields)?, level: fields.flag()? }
            }
            Opcode::Pwm => {
                let mut fields = sized(data, 7)?;
                Write::Pwm { port: pwm_port(&mut fields)?, config: Pwm::take(&mut fields)? }
            }
            Opcode::EepromLock => Write::EepromLock(sized(data, 1)?.flag()?),
            Opcode::Uart => {
                let mut fields = sized(data, 11)?;
                Write::Uart { port: uart_port(&mut fields)?, config: Uart::take(&mut fields)? }
            }
        })
    }

    /// 2Bh, rules 5.8, 5.9 and 5.11: compression, colour, count, start, words. A count of 0 is out of range; with
    /// flag 1 an odd one is a wrong size.
    fn parse_gains(data: &'a [u8]) -> Result<Self, Refused> {
        let [compression, _, low, high, ..] = *data.first_chunk::<6>().ok_or(Refusal::Size)?;
        let count = u16::from_le_bytes([low, high]);
        expect_size(compression != 1 || count % 2 == 0)?;
        let mut fields = sized(data, 6 + 2 * usize::from(count))?;
        let compressed = fields.flag()?;
        let target = fields.byte_as(Target::from_byte)?;
        fields.word_within(1..=u16::MAX)?;
        let start = fields.word();
        let ahead = fields.place();
        let behind_head = |fault: OutOfRange| fault.behind(ahead);
        Ok(if compressed {
            let pairs = runs::pairs_in_range(fields.all()).map_err(behind_head)?;
            Write::CompressedGains { target, start, pairs }
        } else {
            let words = runs::gains_in_range(fields.all()).map_err(behind_head)?;
            Write::Gains { target, start, words }
        })
    }

    /// 34h, rule 5.9: a start, and one point or more of 4 bytes.
    fn parse_map(data: &'a [u8]) -> Result<Self, Refused> {
        expect_size(data.len() >= 6 && data.len() % 4 == 2)?;
        let mut fields = Fields::new(data);
        Ok(Write::Map { start: fields.word(), points: fields.all() })
    }

    /// 35h, rule 5.9: with no byte it is refusal 9; a mode above 1 is refusal 10, whatever the
    /// size.
    fn parse_control_points(data: &'a [u8]) -> Result<Self, Refused> {
        expect_size(!data.is_empty())?;
        let mut fields = Fields::new(data);
        let listed = fields.flag()?;
        expect_size(data.len() == if listed { 189 } else { 5 })?;
        Ok(Write::ControlPoints(if listed {
            ControlPoints::take_listed(&mut fields)?
        } else {
            ControlPoints::take_even(&mut fields)?
        }))
    }

    /// 38h, rule 5.9: with under 2 bytes it is refusal 9; columns or rows outside 3-5 are refusal
    /// 10, whatever the size.
    fn parse_smooth_table(data: &'a [u8]) -> Result<Self, Refused> {
        expect_size(data.len() >= 2)?;
        let mut fields = Fields::new(data);
        let columns = fields.byte_within(3..=5)?;
        let rows = fields.byte_within(3..=5)?;
        expect_size(data.len() == 2 + 4 * usize::from(columns) * usize::from(rows))?;
        Ok(Write::SmoothTable { columns, rows, points: fields.all() })
    }

    pub fn opcode(&self) -> Opcode {
        match self {
            Write::Display(_) => Opcode::Display,
            Write::LowLatency(_) => Opcode::LowLatency,
            Write::Look(_) => Opcode::Look,
            Write::CurtainColour(_) => Opcode::CurtainColour,
            Write::SplashImage(_) => Opcode::SplashImage,
            Write::Flip(_) => Opcode::Flip,
            Write::Freeze(_) => Opcode::Freeze,
            Write::Gains { .. } | Write::CompressedGains { .. } => Opcode::Gains,
            Write::Map { .. } => Opcode::Map,
            Write::ControlPoints(_) => Opcode::ControlPoints,
            Write::Apply(_) => Opcode::Apply,
            Write::SmoothTable { .. } => Opcode::SmoothTable,
            Write::UpdateMode => Opcode::UpdateMode,
            Write::Pin { .. } => Opcode::Pin,
            Write::PinLevel { .. } => Opcode::PinLevel,
            Write::Pwm { .. } => Opcode::Pwm,
            Write::EepromLock(_) => Opcode::EepromLock,
            Write::Uart { .. } => Opcode::Uart,
        }
    }

    /// The write data that asks for this.
    pub fn data(&self) -> Vec<u8> {
        match self {
            Write::Display(value)
            | Write::CurtainColour(value)
            | Write::SplashImage(value)
            | Write::Flip(value) => vec![*value],
            Write::LowLatency(flag) | Write::Freeze(flag) | Write::Apply(flag) | Write::EepromLock(flag) => {
                vec![u8::from(*flag)]
            }
            Write::Look(look) => look.to_le_bytes().to_vec(),
            Write::Gains { target, start, words } => gains_data(0, *target, *start, words.as_flattened()),
            Write::CompressedGains { target, start, pairs } => {
                gains_data(1, *target, *start, pairs.as_flattened())
            }
            Write::Map { start, points } => [&start.to_le_bytes(), points.as_flattened()].concat(),
            Write::ControlPoints(written) => written.bytes(),
            Write::SmoothTable { columns, rows, points } => {
                [&[*columns, *rows], points.as_flattened()].concat()
            }
            Write::UpdateMode => vec![0],
            Write::Pin { pin, config } => [&[*pin][..], &config.bytes()].concat(),
            Write::PinLevel { pin, level } => vec![*pin, u8::from(*level)],
            Write::Pwm { port, config } => [&[*port][..], &config.bytes()].concat(),
            Write::Uart { port, config } => [&[*port][..], &config.bytes()].concat(),
        }
    }
}

/// What a read asks for.
#[derive(Clone, Copy, Debug, PartialEq, Eq)]
pub enum Read {
    Display,
    LowLatency,
    Look,
    CurtainColour,
    SplashImage,
    Flip,
    Freeze,
    /// 2Bh, rule 5.8: colour 1-3, count 1-254.
    Gains {
        colour: Colour,
        start: u16,
        count: u16,
    },
    /// 34h, rule 5.4: count 1-127, of staged points.
    Map {
        start: u16,
        count: u16,
    },
    ControlPoints,
    Apply,
    SmoothTable,
    UpdateMode,
    Pin(u8),
    PinLevel(u8),
    Pwm(u8),
    EepromLock,
    Uart(u8),
}

impl Read {
    /// A read's data as what it asks for: refusals 9 and 10.
    pub fn parse(opcode: Opcode, data: &[u8]) -> Result<Self, Refused> {
        let size = match opcode {
            Opcode::Gains => 5,
            Opcode::Map => 4,
            Opcode::Pin | Opcode::PinLevel | Opcode::Pwm | Opcode::Uart => 1,
            _ => 0,
        };
        let fields = &mut sized(data, size)?;
        Ok(match opcode {
            Opcode::Display => Read::Display,
            Opcode::LowLatency => Read::LowLatency,
            Opcode::Look => Read::Look,
            Opcode::CurtainColour => Read::CurtainColour,
            Opcode::SplashImage => Read::SplashImage,
            Opcode::Flip => Read::Flip,
            Opcode::Freeze => Read::Freeze,
            Opcode::Gains => Read::Gains {
                colour: fields.byte_as(Colour::from_byte)?,
                start: fields.word(),
                count: fields.word_within(1..=254)?,
            },
            Opcode::Map => Read::Map { start: fields.word(), count: fields.word_within(1..=127)? },
            Opcode::ControlPoints => Read::ControlPoints,
            Opcode::Apply => Read::Apply,
            Opcode::SmoothTable => Read::SmoothTable,
            Opcode::UpdateMode => Read::UpdateMode,
            Opcode::Pin => Read::Pin(pin(fields)?),
            Opcode::PinLevel => Read::PinLevel(pin(fields)?),
            Opcode::Pwm => Read::Pwm(pwm_port(fields)?),
            Opcode::EepromLock => Read::EepromLock,
            Opcode::Uart => Read::Uart(uart_port(fields)?),
        })
    }

    pub fn opcode(&self) -> Opcode {
        match self {
            Read::Display => Opcode::Display,
            Read::LowLatency => Opcode::LowLatency,
            Read::Look => Opcode::Look,
            Read::CurtainColour => Opcode::CurtainColour,
            Read::SplashImage => Opcode::SplashImage,
            Read::Flip => Opcode::Flip,
            Read::Freeze => Opcode::Freeze,
            Read::Gains { .. } => Opcode::Gains,
            Read::Map { .. } => Opcode::Map,
            Read::ControlPoints => Opcode::ControlPoints,
            Read::Apply => Opcode::Apply,
            Read::SmoothTable => Opcode::SmoothTable,
            Read::UpdateMode => Opcode::UpdateMode,
            Read::Pin(_) => Opcode::Pin,
            Read::PinLevel(_) => Opcode::PinLevel,
            Read::Pwm(_) => Opcode::Pwm,
            Read::EepromLock => Opcode::EepromLock,
            Read::Uart(_) => Opcode::Uart,
        }
    }

    /// The read data that asks for this.
    pub fn data(&self) -> Vec<u8> {
        match *self {
            Read::Gains { colour, start, count } => {
                [&[colour as u8][..], &start.to_le_bytes(), &count.to_le_bytes()].concat()
            }
            Read::Map { start, count } => [start.to_le_bytes(), count.to_le_bytes()].concat(),
            Read::Pin(number) | Read::PinLevel(number) | Read::Pwm(number) | Read::Uart(number) => {
                vec![number]
            }
            _ => Vec::new(),
        }
    }
}

/// A command: what reading ends in, apart from the options.
#[derive(Clone, Copy, Debug, PartialEq, Eq)]
pub enum Command<'a> {
    Write(Write<'a>),
    Read(Read),
}

impl<'a> Command<'a> {
    /// Refusals 9, 10 and 11.
    pub fn parse(direction: Direction, opcode: Opcode, data: &'a [u8]) -> Result<Self, Refused> {
        match direction {
            Direction::Write => Write::parse(opcode, data).map(Command::Write),
            Direction::Read => Read::parse(opcode, data).map(Command::Read),
        }
    }

    pub fn direction(&self) -> Direction {
        match self {
            Command::Write(_) => Direction::Write,
            Command::Read(_) => Direction::Read,
        }
    }

    pub fn opcode(&self) -> Opcode {
        match self {
            Command::Write(write) => write.opcode(),
            Command::Read(read) => read.opcode(),
        }
    }

    pub fn data(&self) -> Vec<u8> {
        match self {
            Command::Write(write) => write.data(),
            Command::Read(read) => read.data(),
        }
    }
}

/// The bytes ahead of the lists in the data of a 35h write: its mode.
const AHEAD_OF_LISTS: usize = 1;

/// The two lists of 35h alone: refusals 9 and 10 as of a write of mode 1 that has them, and the place of
/// a fault is the one in that write's data. This is measured as one call, hence the inlining.
#[inline]
pub fn judge_lists(lists: &[u8]) -> Result<(), Refused> {
    let mut fields = sized(lists, size_of::<Lists>())?;
    rising(fields.array()).map_err(|fault| fault.behind(AHEAD_OF_LISTS))?;
    Ok(())
}

/// The fields of data of exactly this size; any other size is refusal 9.
fn sized(data: &[u8], size: usize) -> Result<Fields<'_>, Refusal> {
    expect_size(data.len() == size)?;
    Ok(Fields::new(data))
}

/// Refusal 9 unless the size is right.
fn expect_size(right: bool) -> Result<(), Refusal> {
    right.then_some(()).ok_or(Refusal::Size)
}

/// The data of a 2Bh write, whose count is that of its words.
fn gains_data(compression: u8, target: Target, start: u16, words: &[u8]) -> Vec<u8> {
    let (count, start) = ((words.len() as u16 / 2).to_le_bytes(), start.to_le_bytes());
    [&[compression, target.byte()], &count[..], &start, words].concat()
}

/// 60h and 61h: pin 0-87.
fn pin(fields: &mut Fields) -> Result<u8, OutOfRange> {
    fields.byte_within(0..=PINS as u8 - 1)
}

/// 65h: ports 0-10 and 13.
fn pwm_port(fields: &mut Fields) -> Result<u8, OutOfRange> {
    fields.byte_as(|port| PWM_PORTS.contains(&port).then_some(port))
}

/// 6Dh: port 0-2.
fn uart_port(fields: &mut Fields) -> Result<u8, OutOfRange> {
    fields.byte_within(0..=UARTS as u8 - 1)
}
