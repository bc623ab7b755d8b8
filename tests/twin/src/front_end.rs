//! The front end: takes a packet and gives a reply or none (rule 1.1); and reset.
//!
//! Settings, staged map, live map and gains are the host's, lent as bytes with each call. They are
//! judged, read and written where they lie.

use std::ops::Range;
use std::sync::LazyLock;

use crate::block;
use crate::command::{Colour, Command, Read, Target, Write};
use crate::fields::{Fields, Word};
use crate::packet::{self, Header, LONGEST};
use crate::refusal::{Refusal, Refused};
use crate::reply;
use crate::rows;
use crate::runs;
use crate::settings::{ControlPoints, Point, Settings, COLUMNS, GAINS, POINTS, PWM_PORTS, ROWS};

/// Bytes of the staged and of the live map.
pub const MAP_BYTES: usize = 4 * POINTS;
/// Bytes of the gains.
pub const GAINS_BYTES: usize = 2 * GAINS * 3;

/// What a host lends with each call (rule 1.3). Tables are bytes, low byte first.
pub struct Lent<'a> {
    pub block: &'a mut [u8],
    pub staged: &'a mut [u8],
    pub live: &'a mut [u8],
    /// Red, green, blue.
    pub gains: &'a mut [u8],
}

/// The answer to one packet (rule 3.4): 0 or the refusal's number, the length of the reply, 0 where
/// there is none, and with refusal 10 the place of the fault, else 0.
#[derive(Clone, Copy, Debug, PartialEq, Eq)]
pub struct Answer {
    pub status: u8,
    pub length: usize,
    pub place: u16,
}

/// Reset (rule 5.10): every byte of the block and of the tables. A wrong length is refused with 1,
/// and nothing changes.
pub fn reset(lent: Lent) -> Result<(), Refusal> {
    static SETTINGS: LazyLock<Vec<u8>> = LazyLock::new(|| Settings::default().bytes());
    let state = State::of(lent)?;
    let (settings, rest) = state.block.split_at_mut(block::JUDGED);
    settings.copy_from_slice(&SETTINGS);
    rest.fill(0);
    state.staged.fill([0; 4]);
    state.live.fill([0; 4]);
    state.gains.as_flattened_mut().fill(4096_u16.to_le_bytes());
    Ok(())
}

/// One packet. There is a reply exactly if the packet is not empty, bit 6 or bit 7 of its first byte
/// is set, and the refusal is not 1 (rule 3.2). An accepted read carries data, and refusal 10 its place
/// (rule 3.3).
pub fn packet(packet: &[u8], lent: Lent, reply: &mut [u8]) -> Answer {
    let Ok(mut state) = State::judged(lent, reply) else {
        return Answer { status: Refusal::Lent.number(), length: 0, place: 0 };
    };
    let outcome = packet::read(packet).and_then(|reading| Ok(state.perform(&reading.command)?));
    let place_bytes: [u8; 2];
    let (status, place, data) = match outcome {
        Ok(data) => (0, 0, data),
        Err(Refused { refusal: Refusal::Range, place }) => {
            place_bytes = place.to_le_bytes();
            (Refusal::Range.number(), place, [&place_bytes[..], &[]])
        }
        Err(refused) => (refused.number(), 0, NOTHING),
    };
    let length = match packet.first().map(|byte| Header::from_byte(*byte)) {
        Some(header) if header.is_replied_to() => {
            reply::write(reply, status, data, header.options.checksum_present)
        }
        _ => 0,
    };
    Answer { status, length, place }
}

/// What a read returns, in the two parts in which it lies.
type Data<'a> = [&'a [u8]; 2];

/// The data of a write's reply, and of a refusal's but 10.
const NOTHING: Data = [&[], &[]];

/// What was lent, of the right lengths.
struct State<'a> {
    block: &'a mut [u8; block::BYTES],
    staged: &'a mut [Point; POINTS],
    live: &'a mut [Point; POINTS],
    gains: &'a mut [[Word; GAINS]; 3],
}

impl<'a> State<'a> {
    /// Refusal 1 for a wrong length, counted in bytes (rule 1.3).
    fn of(lent: Lent<'a>) -> Result<Self, Refusal> {
        Ok(State {
            block: lent.block.try_into().map_err(|_| Refusal::Lent)?,
            staged: exactly(whole(lent.staged)?)?,
            live: exactly(whole(lent.live)?)?,
            gains: exactly(whole(whole(lent.gains)?)?)?,
        })
    }

    /// Refusal 1 (rule 4.1): lengths, then every setting. What tables hold is not judged (rule 1.4).
    fn judged(lent: Lent<'a>, reply: &[u8]) -> Result<Self, Refusal> {
        let state = State::of(lent)?;
        if reply.len() < LONGEST || block::judge(state.block).is_err() {
            return Err(Refusal::Lent);
        }
        Ok(state)
    }

    /// A command's effect, and the data that it returns.
    fn perform(&mut self, command: &Command) -> Result<Data<'_>, Refusal> {
        match command {
            Command::Write(write) => self.write(write).map(|()| NOTHING),
            Command::Read(read) => self.read(read),
        }
    }

    /// A write is taken whole, or (refusal 12, rule 4.3) not at all.
    fn write(&mut self, write: &Write) -> Result<(), Refusal> {
        let block = &mut *self.block;
        match *write {
            Write::Display(display) => block[block::DISPLAY] = display,
            Write::LowLatency(flag) => block[block::LOW_LATENCY] = flag.into(),
            Write::Look(look) => block[block::LOOK].copy_from_slice(&look.to_le_bytes()),
            Write::CurtainColour(colour) => block[block::CURTAIN_COLOUR] = colour,
            Write::SplashImage(image) => block[block::SPLASH_IMAGE] = image,
            Write::Flip(flip) => block[block::FLIP] = flip,
            Write::Freeze(flag) => block[block::FREEZE] = flag.into(),
            Write::Gains { target, start, words } => {
                let place = place(start, words.len(), GAINS)?;
                self.each_colour(target, |gains| gains[place.clone()].copy_from_slice(words));
            }
            Write::CompressedGains { target, start, pairs } => {
                let place = place(start, runs::length(pairs), GAINS)?;
                self.each_colour(target, |gains| runs::expand(pairs, &mut gains[place.clone()]));
            }
            Write::Map { start, points } => self.write_points(start, points)?,
            Write::ControlPoints(written) => self.write_shape(&written),
            Write::Apply(true) => self.apply(),
            Write::Apply(false) => block[block::ENABLE] = 0,
            Write::SmoothTable { columns, rows, points } => {
                // Rule 5.7: points stored behind these stay.
                let smooth = &mut block[block::SMOOTH];
                smooth[..2].copy_from_slice(&[columns, rows]);
                smooth[2..][..4 * points.len()].copy_from_slice(points.as_flattened());
            }
            Write::UpdateMode => block[block::UPDATE_MODE] = 0,
            Write::Pin { pin, config } => block[block::pin(pin)].copy_from_slice(&config.bytes()),
            Write::PinLevel { pin, level } => block[block::pin(pin)][1] = level.into(),
            Write::Pwm { port, config } => block[block::pwm(pwm(port))].copy_from_slice(&config.bytes()),
            Write::EepromLock(flag) => block[block::EEPROM_LOCK] = flag.into(),
            Write::Uart { port, config } => block[block::uart(port)].copy_from_slice(&config.bytes()),
        }
        Ok(())
    }

    /// 34h: points, and the marks of the rows that they lie in.
    fn write_points(&mut self, start: u16, points: &[Point]) -> Result<(), Refusal> {
        let [columns, rows] = self.staged_shape();
        let place = place(start, points.len(), columns * rows)?;
        self.staged[place.clone()].copy_from_slice(points);
        self.mark_rows(place.start / columns..(place.end - 1) / columns + 1);
        Ok(())
    }

    /// 35h: the shape, and the marks of its rows; past the last one no bit is set.
    fn write_shape(&mut self, written: &ControlPoints) {
        write_shape(&mut self.block[block::STAGED], written);
        let [_, rows] = self.staged_shape();
        self.block[block::MARK].fill(0);
        self.mark_rows(0..rows);
    }

    /// 36h with 1 (rule 5.6). Then no row differs.
    fn apply(&mut self) {
        self.block[block::ENABLE] = 1;
        self.block.copy_within(block::STAGED, block::LIVE.start);
        self.live.copy_from_slice(self.staged);
        self.block[block::MARK].fill(0);
    }

    /// Writes the gains of each colour that is named.
    fn each_colour(&mut self, target: Target, mut write: impl FnMut(&mut [Word; GAINS])) {
        for colour in Colour::ALL {
            if target == Target::All || target == Target::One(colour) {
                write(&mut self.gains[third(colour)]);
            }
        }
    }

    fn read(&self, read: &Read) -> Result<Data<'_>, Refusal> {
        let block = &*self.block;
        let byte = |place: usize| &block[place..place + 1];
        let data = match *read {
            Read::Display => byte(block::DISPLAY),
            Read::LowLatency => byte(block::LOW_LATENCY),
            Read::Look => &block[block::LOOK],
            Read::CurtainColour => byte(block::CURTAIN_COLOUR),
            Read::SplashImage => byte(block::SPLASH_IMAGE),
            Read::Flip => byte(block::FLIP),
            Read::Freeze => byte(block::FREEZE),
            Read::Gains { colour, start, count } => {
                self.gains[third(colour)][place(start, count.into(), GAINS)?].as_flattened()
            }
            Read::Map { start, count } => {
                let [columns, rows] = self.staged_shape();
                self.staged[place(start, count.into(), columns * rows)?].as_flattened()
            }
            Read::ControlPoints => return Ok(written_shape(&block[block::STAGED])),
            Read::Apply => byte(block::ENABLE),
            Read::SmoothTable => {
                let smooth = &block[block::SMOOTH];
                &smooth[..2 + 4 * usize::from(smooth[0]) * usize::from(smooth[1])]
            }
            Read::UpdateMode => byte(block::UPDATE_MODE),
            Read::Pin(pin) => &block[block::pin(pin)],
            Read::PinLevel(pin) => &block[block::pin(pin)][1..2],
            Read::Pwm(port) => &block[block::pwm(pwm(port))],
            Read::EepromLock => byte(block::EEPROM_LOCK),
            Read::Uart(port) => &block[block::uart(port)],
        };
        Ok([data, &[]])
    }

    /// Works the marks of these rows out afresh (rule 11.2).
    fn mark_rows(&mut self, touched: Range<usize>) {
        let [columns, _] = self.staged_shape();
        let before = Fields::new(&self.block[block::MARK]).long();
        let mark = rows::refreshed(before, touched, columns, self.staged, self.live);
        self.block[block::MARK].copy_from_slice(&mark.to_le_bytes());
    }

    /// Columns and rows as staged. Start + count of 34h may not pass columns × rows (rule 5.4).
    fn staged_shape(&self) -> [usize; 2] {
        let mut fields = Fields::new(&self.block[block::STAGED][1..block::SHAPE_HEAD]);
        [fields.word(), fields.word()].map(usize::from)
    }
}

/// A 35h write into mode, columns, rows and lists (rule 5.5). In mode 0 the stored lists stay.
fn write_shape(stored: &mut [u8], written: &ControlPoints) {
    let (head, stored_lists) = stored.split_at_mut(block::SHAPE_HEAD);
    let (mode, columns, rows) = match *written {
        ControlPoints::Even { columns, rows } => (0, columns, rows),
        ControlPoints::Listed(lists) => {
            stored_lists.copy_from_slice(lists.as_flattened());
            (1, COLUMNS as u16, ROWS as u16)
        }
    };
    head[0] = mode;
    head[1..3].copy_from_slice(&columns.to_le_bytes());
    head[3..5].copy_from_slice(&rows.to_le_bytes());
}

/// What a 35h read returns of mode, columns, rows and lists: the written form (rule 5.5).
fn written_shape(stored: &[u8]) -> Data<'_> {
    let (head, lists) = stored.split_at(block::SHAPE_HEAD);
    match head[0] {
        0 => [head, &[]],
        _ => [&head[..1], lists],
    }
}

/// Where `count` entries from `start` on lie; refusal 12 if they run past the `limit`.
fn place(start: u16, count: usize, limit: usize) -> Result<Range<usize>, Refusal> {
    let start = usize::from(start);
    let end = start + count;
    if end <= limit {
        Ok(start..end)
    } else {
        Err(Refusal::PastTable)
    }
}

/// The place of a colour's gains among the three.
fn third(colour: Colour) -> usize {
    colour as usize - 1
}

/// The place of a PWM port among those carried.
fn pwm(port: u8) -> usize {
    PWM_PORTS.iter().position(|carried| *carried == port).expect("the port was judged in reading")
}

/// A table's parts of `W` numbers; refusal 1 if some are left over.
fn whole<T, const W: usize>(table: &mut [T]) -> Result<&mut [[T; W]], Refusal> {
    match table.as_chunks_mut() {
        (parts, []) => Ok(parts),
        _ => Err(Refusal::Lent),
    }
}

/// A table of `N`; refusal 1 if it has more or fewer.
fn exactly<T, const N: usize>(table: &mut [T]) -> Result<&mut [T; N], Refusal> {
    table.try_into().map_err(|_| Refusal::Lent)
}

/// Memory for one controller, of the right lengths.
#[derive(Clone, Debug, PartialEq, Eq)]
pub struct Memory {
    pub block: [u8; block::BYTES],
    pub staged: Vec<u8>,
    pub live: Vec<u8>,
    pub gains: Vec<u8>,
}

impl Memory {
    pub fn lend(&mut self) -> Lent<'_> {
        Lent {
            block: &mut self.block,
            staged: &mut self.staged,
            live: &mut self.live,
            gains: &mut self.gains,
        }
    }
}

impl Default for Memory {
    /// After reset.
    fn default() -> Self {
        let mut memory = Memory {
            block: [0; block::BYTES],
            staged: vec![0; MAP_BYTES],
            live: vec![0; MAP_BYTES],
            gains: vec![0; GAINS_BYTES],
        };
        reset(memory.lend()).expect("the lengths are right");
        memory
    }
}
