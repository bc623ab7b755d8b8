//! The settings block (docs/LAYOUT.md): 1,024 bytes, lent with each call.
//!
//! In opcode order, each command's fields in the order of its write data (without the pin or port
//! byte). Behind the settings lies the row mark, which is not judged; the bytes behind that have no
//! meaning.

use std::ops::Range;

use crate::fields::{Fields, OutOfRange};
use crate::settings::{
    curtain_colour, rising, Pin, Pwm, Settings, Shape, SmoothTable, Uart, COLUMNS, PINS, PWM_PORTS, ROWS,
    SMOOTH_POINTS, UARTS,
};

pub const BYTES: usize = 1024;

/// The settings' bytes, which are judged.
pub const JUDGED: usize = 865;

/// The row mark (section 11), 32 bits.
pub const MARK: Range<usize> = 865..869;
/// Where the bytes without a meaning begin.
pub const MEANINGLESS: usize = 869;

pub const DISPLAY: usize = 0;
pub const LOW_LATENCY: usize = 1;
pub const LOOK: Range<usize> = 2..4;
pub const CURTAIN_COLOUR: usize = 4;
pub const SPLASH_IMAGE: usize = 5;
pub const FLIP: usize = 6;
pub const FREEZE: usize = 7;
/// Mode, columns, rows, lists, as staged.
pub const STAGED: Range<usize> = 8..201;
pub const ENABLE: usize = 201;
/// The same as live.
pub const LIVE: Range<usize> = 202..395;
/// Columns, rows, 25 points.
pub const SMOOTH: Range<usize> = 395..497;
pub const UPDATE_MODE: usize = 497;
pub const EEPROM_LOCK: usize = 834;

/// Mode, columns and rows, ahead of the lists in `STAGED` and `LIVE`.
pub const SHAPE_HEAD: usize = 5;

/// Direction, level and drain of a pin.
pub fn pin(pin: u8) -> Range<usize> {
    entry(498, 3, pin.into())
}

/// Frequency, duty and on of the PWM output at this place among those carried.
pub fn pwm(place: usize) -> Range<usize> {
    entry(762, 6, place)
}

/// The ten fields of a UART.
pub fn uart(port: u8) -> Range<usize> {
    entry(835, 10, port.into())
}

fn entry(first: usize, size: usize, index: usize) -> Range<usize> {
    let start = first + size * index;
    start..start + size
}

/// Refusal 1 (rule 4.1): each setting lies in its range.
pub fn judge(block: &[u8; BYTES]) -> Result<(), OutOfRange> {
    let fields = &mut Fields::new(block);
    fields.byte_within(0..=4)?; // display
    fields.flag()?; // low latency
    fields.word(); // look
    fields.byte_as(curtain_colour)?;
    fields.byte(); // splash image
    fields.byte_within(0..=3)?; // flip
    fields.flag()?; // freeze
    judge_shape(fields)?; // staged
    fields.flag()?; // enable
    judge_shape(fields)?; // live
    fields.byte_within(3..=5)?; // smooth columns
    fields.byte_within(3..=5)?; // smooth rows
    fields.array::<4, SMOOTH_POINTS>();
    fields.byte_within(0..=0)?; // update mode
    let ahead = fields.place();
    let flags = fields.array::<3, PINS>().as_flattened();
    if let Some(index) = flags.iter().position(|flag| *flag > 1) {
        return Err(OutOfRange { place: ahead + index });
    }
    for _ in PWM_PORTS {
        Pwm::take(fields)?;
    }
    fields.flag()?; // EEPROM lock
    for _ in 0..UARTS {
        Uart::take(fields)?;
    }
    Ok(())
}

/// Mode 0 with 2-62 columns and 2-32 rows, or mode 1 with 62 × 32; lists rising in either mode.
fn judge_shape(fields: &mut Fields) -> Result<(), OutOfRange> {
    let (most_columns, most_rows) = (COLUMNS as u16, ROWS as u16);
    let (columns, rows) = if fields.flag()? { (most_columns, most_rows) } else { (2, 2) };
    fields.word_within(columns..=most_columns)?;
    fields.word_within(rows..=most_rows)?;
    rising(fields.array())?;
    Ok(())
}

impl Settings {
    /// The settings in a block, if all are in range.
    pub fn take(block: &[u8; BYTES]) -> Result<Self, OutOfRange> {
        judge(block)?;
        let fields = &mut Fields::new(block);
        Ok(Settings {
            display: fields.byte(),
            low_latency: fields.flag()?,
            look: fields.word(),
            curtain_colour: fields.byte(),
            splash_image: fields.byte(),
            flip: fields.byte(),
            freeze: fields.flag()?,
            staged: Shape::take(fields)?,
            enable: fields.flag()?,
            live: Shape::take(fields)?,
            smooth: SmoothTable::take(fields),
            update_mode: fields.byte(),
            pins: fields.each(Pin::take)?,
            pwms: fields.each(Pwm::take)?,
            eeprom_lock: fields.flag()?,
            uarts: fields.each(Uart::take)?,
        })
    }

    /// The bytes that are judged.
    pub fn bytes(&self) -> Vec<u8> {
        let mut bytes = vec![self.display, self.low_latency.into()];
        bytes.extend(self.look.to_le_bytes());
        bytes.extend([self.curtain_colour, self.splash_image, self.flip, self.freeze.into()]);
        bytes.extend(self.staged.bytes());
        bytes.push(self.enable.into());
        bytes.extend(self.live.bytes());
        bytes.extend(self.smooth.bytes());
        bytes.push(self.update_mode);
        bytes.extend(self.pins.map(Pin::bytes).as_flattened());
        bytes.extend(self.pwms.map(Pwm::bytes).as_flattened());
        bytes.push(self.eeprom_lock.into());
        bytes.extend(self.uarts.map(Uart::bytes).as_flattened());
        bytes
    }
}
