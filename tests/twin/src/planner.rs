//! Upload planning (section 6 of docs/RULES.md): the cheapest list of 34h writes that turns one warp
//! map into another.

use crate::front_end::MAP_BYTES;
use crate::packet::LONGEST;
use crate::refusal::Refusal;
use crate::settings::{Point, POINTS};

/// Bytes of a plan: a start and a count of 16 bits each for every packet that there may be.
pub const PLAN_BYTES: usize = MAP_BYTES;
/// The room has at least this many bytes: 127 numbers of 32 bits.
pub const ROOM_BYTES: usize = 4 * 127;
/// The choices have at least this many bytes: one for each point of a full map.
pub const CHOICES_BYTES: usize = POINTS;
/// The batch buffer has at least this many bytes: what a full map takes.
pub const BATCH_BYTES: usize = most_bytes(POINTS);

/// What a packet has besides its points: header, opcode, length, start.
pub const HEAD: usize = 6;
/// The most points that a packet has room for.
pub const MOST: usize = (LONGEST - HEAD) / size_of::<Point>();

/// Rule 6.2: no plan takes more bytes.
pub const fn most_bytes(points: usize) -> usize {
    4 * points + HEAD * points.div_ceil(MOST)
}

/// What a host lends for planning. Maps, plan and room are lent as their bytes, low byte first.
pub struct Lent<'a> {
    pub held: &'a [u8],
    pub wanted: &'a [u8],
    /// Start and count of each packet.
    pub plan: &'a mut [u8],
    /// Rule 6.5: at each index the fewest bytes for the points from there on.
    pub room: &'a mut [u8],
    /// Rule 6.5: for each point that differs the count of the packet that would start there.
    pub choices: &'a mut [u8],
    /// The packets back to back.
    pub batch: &'a mut [u8],
}

/// The answer: the number of packets, and the bytes of the batch.
#[derive(Clone, Copy, Debug, Default, PartialEq, Eq)]
pub struct Planned {
    pub packets: usize,
    pub bytes: usize,
}

/// Plans the upload of `points` points. Refusals (rule 6.4): 10 for their number, else 1 for a lent
/// length; nothing is changed then. After success plan and batch are unchanged behind what is used,
/// and room and choices behind the least that they may have.
pub fn plan(points: u32, lent: Lent) -> Result<Planned, Refusal> {
    let points = usize::try_from(points).unwrap_or(usize::MAX);
    if !(1..=POINTS).contains(&points) {
        return Err(Refusal::Range);
    }
    let map = size_of::<Point>() * points;
    let exact = [(lent.held.len(), map), (lent.wanted.len(), map), (lent.plan.len(), PLAN_BYTES)];
    let least =
        [(lent.room.len(), ROOM_BYTES), (lent.choices.len(), CHOICES_BYTES), (lent.batch.len(), BATCH_BYTES)];
    if exact.iter().any(|(length, due)| length != due) || least.iter().any(|(length, due)| length < due) {
        return Err(Refusal::Lent);
    }
    let (held, wanted) = (lent.held.as_chunks().0, lent.wanted.as_chunks().0);
    let choices = &mut lent.choices[..CHOICES_BYTES];
    choices.fill(0);
    let fewest = choose(held, wanted, choices);
    for (number, bytes) in lent.room[..ROOM_BYTES].as_chunks_mut().0.iter_mut().zip(fewest) {
        *number = bytes.to_le_bytes();
    }
    Ok(write(wanted, choices, lent.plan.as_chunks_mut().0, lent.batch))
}

/// The fewest bytes for each point and those behind it, and the choices (rule 6.5), from the last
/// point back: none behind the last; a point that doesn't differ needs no packet; at one that does a
/// packet starts, with the count that costs least together with what is left behind it.
fn choose(held: &[Point], wanted: &[Point], choices: &mut [u8]) -> [u32; POINTS + 1] {
    let mut fewest = [0; POINTS + 1];
    for start in (0..wanted.len()).rev() {
        let behind = &fewest[start + 1..=wanted.len().min(start + MOST)];
        (fewest[start], choices[start]) =
            if held[start] == wanted[start] { (behind[0], 0) } else { cheapest(behind) };
    }
    fewest
}

/// The bytes of the cheapest packet and of what is left behind it, and its count. Rule 6.2: of several
/// counts the smallest. `behind` has for each count from 1 on the bytes for what is left.
fn cheapest(behind: &[u32]) -> (u32, u8) {
    let costs = (1..).zip(behind).map(|(count, rest)| (count as u8, packet_bytes(count) as u32 + rest));
    // As one number, the count in its low byte: the least of them is the cheapest with the smallest count.
    let least = costs.map(|(count, cost)| cost << 8 | u32::from(count)).min().expect("a count of 1 fits");
    (least >> 8, least as u8)
}

/// A packet's bytes.
pub const fn packet_bytes(count: usize) -> usize {
    HEAD + size_of::<Point>() * count
}

/// The plan and its packets, header 14h, with wanted's points. They start at the first point that
/// differs, and behind each packet at the next one.
fn write(wanted: &[Point], choices: &[u8], plan: &mut [[u8; 4]], batch: &mut [u8]) -> Planned {
    let mut planned = Planned::default();
    let mut start = 0;
    while start < wanted.len() {
        let count = usize::from(choices[start]);
        if count == 0 {
            start += 1;
            continue;
        }
        let points = wanted[start..start + count].as_flattened();

        let [start_low, start_high] = (start as u16).to_le_bytes();
        let [count_low, count_high] = (count as u16).to_le_bytes();
        plan[planned.packets] = [start_low, start_high, count_low, count_high];

        let [length_low, length_high] = (2 + points.len() as u16).to_le_bytes();
        let (head, data) = batch[planned.bytes..][..packet_bytes(count)].split_at_mut(HEAD);
        head.copy_from_slice(&[0x14, 0x34, length_low, length_high, start_low, start_high]);
        data.copy_from_slice(points);

        planned = Planned { packets: planned.packets + 1, bytes: planned.bytes + packet_bytes(count) };
        start += count;
    }
    planned
}
