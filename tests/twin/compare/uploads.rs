//! Groups of uploads: which points differ and how, and what is lent.

use twin::planner::MOST;
use twin::refusal::Refusal;
use twin::settings::{Point, POINTS};

use crate::covers::patterns;
use crate::library::{LIBRARY, WITH_NULL};
use crate::upload::{shapes, Lengths, Upload, LARGEST};

/// In what a point differs.
#[derive(Clone, Copy, Debug)]
pub enum Kind {
    /// Anything, or only what the others say.
    Any,
    X,
    Y,
    HighByte,
    LowByte,
    Bit,
}

impl Kind {
    const ALL: [Kind; 6] = [Kind::Any, Kind::X, Kind::Y, Kind::HighByte, Kind::LowByte, Kind::Bit];
}

/// Numbers of points with few or no divisors, and those around a packet's most.
pub const NUMBERS: [usize; 28] = [
    1, 2, 3, 5, 7, 13, 31, 61, 113, 125, 126, 127, 128, 131, 251, 252, 253, 377, 378, 379, 631, 997, 1009,
    1511, 1889, 1979, 1983, 1984,
];

/// Two maps of so many points that differ in these.
pub fn maps(
    upload: &mut Upload,
    points: usize,
    kind: Kind,
    differs: impl Fn(usize) -> bool,
) -> (Vec<u8>, Vec<u8>) {
    let held = upload.random.bytes(size_of::<Point>() * points);
    let mut wanted = held.clone();
    for (place, point) in wanted.as_chunks_mut().0.iter_mut().enumerate() {
        if differs(place) {
            change(upload, point, kind);
        }
    }
    (held, wanted)
}

fn change(upload: &mut Upload, point: &mut Point, kind: Kind) {
    let random = &mut upload.random;
    let mask: Point = match kind {
        Kind::Any => match random.below(8) {
            0 => return change(upload, point, Kind::X),
            1 => return change(upload, point, Kind::Y),
            2 => return change(upload, point, Kind::HighByte),
            3 => return change(upload, point, Kind::Bit),
            _ => [0xFF; 4],
        },
        Kind::X => [0xFF, 0xFF, 0, 0],
        Kind::Y => [0, 0, 0xFF, 0xFF],
        Kind::HighByte => random.pick(&[[0, 0xFF, 0, 0], [0, 0, 0, 0xFF]]),
        Kind::LowByte => random.pick(&[[0xFF, 0, 0, 0], [0, 0, 0xFF, 0]]),
        Kind::Bit => (1_u32 << random.below(32)).to_le_bytes(),
    };
    let mask = u32::from_le_bytes(mask);
    let changed = loop {
        let changed = random.next() as u32 & mask;
        if changed != 0 {
            break changed;
        }
    };
    *point = (u32::from_le_bytes(*point) ^ changed).to_le_bytes();
}

fn any_kind(upload: &mut Upload) -> Kind {
    upload.random.pick(&Kind::ALL)
}

/// Plans between two maps that differ in these points, in any way.
fn plan_differing(
    upload: &mut Upload,
    points: usize,
    differs: impl Fn(usize) -> bool,
) -> (Vec<(usize, usize)>, usize) {
    let kind = any_kind(upload);
    let (held, wanted) = maps(upload, points, kind, differs);
    let outcome = upload.plan(&held, &wanted);
    (outcome.plan, outcome.bytes)
}

/// The plans of rule 8.1, and larger ones by hand.
pub fn bench_plans(upload: &mut Upload) {
    let mut due = |points: usize, differs: &dyn Fn(usize) -> bool, plan: &[(usize, usize)], bytes: usize| {
        let found = plan_differing(upload, points, differs);
        upload.expect(found == (plan.to_vec(), bytes), || format!("{found:?}, not {bytes} bytes: {plan:?}"));
    };
    for points in [4, 5, 97, POINTS] {
        due(points, &|place| place == 0 || place == 2, &[(0, 3)], 18);
        due(points, &|place| place == 0 || place == 3, &[(0, 1), (3, 1)], 20);
        due(points, &|_| false, &[], 0);
        due(points, &|place| place == points - 1, &[(points - 1, 1)], 10);
    }
    // Filling to 126 from the left costs 524.
    for points in [128, 131, POINTS] {
        due(points, &|place| place < 128 && place != 63, &[(0, 63), (64, 64)], 520);
    }
    // A full map: 94 points and then 15 times 126.
    let full: Vec<(usize, usize)> =
        (0..16).map(|index| if index == 0 { (0, 94) } else { (94 + 126 * (index - 1), 126) }).collect();
    due(POINTS, &|_| true, &full, 8032);
    due(127, &|_| true, &[(0, 1), (1, 126)], 520);
}

/// Every pattern of up to 12 points, differing in each kind.
pub fn every_pattern(upload: &mut Upload) {
    for points in 1..=12 {
        for pattern in patterns(points) {
            for kind in Kind::ALL {
                let (held, wanted) = maps(upload, points, kind, |place| pattern >> place & 1 == 1);
                upload.plan(&held, &wanted);
            }
        }
    }
}

/// Whether each point differs: so many of 1,000, at random.
pub fn at_random(upload: &mut Upload, points: usize, of_thousand: usize) -> Vec<bool> {
    (0..points).map(|_| upload.random.below(1000) < of_thousand).collect()
}

fn plan_random(upload: &mut Upload, points: usize, of_thousand: usize) {
    let differing = at_random(upload, points, of_thousand);
    plan_differing(upload, points, |place| differing[place]);
}

/// Every number of points, also those that no shape has.
pub fn every_number(upload: &mut Upload) {
    for points in 1..=POINTS {
        let of_thousand = upload.random.below(1001);
        plan_random(upload, points, of_thousand);
        let of_thousand = upload.random.pick(&[5, 950, 990]);
        plan_random(upload, points, of_thousand);
    }
}

/// From no point to all of them.
pub fn densities(upload: &mut Upload) {
    for of_thousand in (0..=1000).step_by(10).chain([1, 2, 5, 15, 985, 995, 998, 999]) {
        for points in NUMBERS {
            plan_random(upload, points, of_thousand);
        }
        for _ in 0..100 {
            let points = 1 + upload.random.below(POINTS);
            plan_random(upload, points, of_thousand);
        }
    }
}

/// Runs about as long as a packet, with gaps of few points between them, and points missing in them.
pub fn runs(upload: &mut Upload) {
    for length in 120..=130 {
        for gap in 0..=4 {
            for lead in 0..=2 {
                let run = move |place: usize| place >= lead && (place - lead) % (length + gap) < length;
                for points in [length, length + lead, 2 * (length + gap) + lead, 1009, POINTS] {
                    plan_differing(upload, points, run);
                    let missing = lead + upload.random.below(length);
                    plan_differing(upload, points, |place| run(place) && place != missing);
                    let every = 1 + upload.random.below(80);
                    plan_differing(upload, points, |place| run(place) && place % every != 0);
                }
            }
        }
    }
    // One run with one point missing, at each place.
    for length in [MOST + 1, MOST + 2, MOST + 3, 2 * MOST + 1] {
        for missing in 0..length {
            plan_differing(upload, length, |place| place != missing);
        }
    }
}

/// All different, every second, every third and so on, from the first point on or a later one.
pub fn regular(upload: &mut Upload) {
    for step in 1..=6 {
        for lead in 0..step {
            for points in NUMBERS {
                plan_differing(upload, points, |place| place % step == lead);
                // The others: all but every second, all but every third.
                plan_differing(upload, points, |place| place % step != lead);
            }
        }
    }
    // With nothing missing, at every number of points.
    for points in 1..=POINTS {
        if points < 400 || points % 7 == 0 || points % MOST < 2 {
            plan_differing(upload, points, |_| true);
        }
    }
}

/// Maps that are equal: of the same numbers, or the same bytes lent twice; and maps that overlap.
pub fn alike(upload: &mut Upload) {
    for points in (1..=300).chain(NUMBERS) {
        plan_differing(upload, points, |_| false);
        let length = size_of::<Point>() * points;
        let bytes = upload.random.bytes(length + 4);
        upload.plan(&bytes[..length], &bytes[..length]);
        upload.plan(&bytes[..length], &bytes[4..]);
        upload.plan(&bytes[1..][..length], &bytes[..length]);
        let fill = upload.random.byte();
        let bytes = vec![fill; length + 4];
        upload.plan(&bytes[..length], &bytes[4..]);
    }
}

/// Every shape, through the front end.
pub fn every_shape(upload: &mut Upload) {
    for (columns, rows) in shapes() {
        let of_thousand = upload.random.pick(&[20, 50, 300, 950]);
        plan_random(upload, columns * rows, of_thousand);
    }
}

/// 10 comes first, whatever is lent.
pub fn numbers_refused(upload: &mut Upload) {
    let numbers = [
        0,
        1985,
        1986,
        2016,
        3968,
        0xFFFF,
        0x1_0000,
        0x1_0001,
        0x1_07C0,
        0x4000_0000,
        0x4000_0001,
        0x8000_0001,
        u32::MAX - 1,
        u32::MAX,
    ];
    let maps = upload.random.bytes(2 * 4 * 3968);
    let (held, wanted) = maps.split_at(4 * 3968);
    for number in numbers {
        // Those of as many points, if there is memory for them, and else of what 32 bits keep of them.
        let own = (number.wrapping_mul(4) as usize).min(held.len());
        for length in [own, 0, 1, 4, 7936, 7940] {
            let right = Lengths { held: length, wanted: length, ..Lengths::right(0) };
            let mut all = vec![right];
            all.extend([0, right.plan - 1].map(|plan| Lengths { plan, ..right }));
            all.extend([0, right.room - 1].map(|room| Lengths { room, ..right }));
            all.extend([0, right.choices - 1].map(|choices| Lengths { choices, ..right }));
            all.extend([0, right.batch - 1, 65_536].map(|batch| Lengths { batch, ..right }));
            all.push(Lengths { plan: 1, room: 1, choices: 1, batch: 1, ..right });
            for lengths in all {
                upload.refused(number, &held[..length], &wanted[..length], lengths, Refusal::Range);
                upload.refused(number, &held[..length], &held[..length], lengths, Refusal::Range);
            }
        }
    }
}

/// Lengths that are wrong where this one is right.
fn wrong_lengths(right: usize) -> Vec<usize> {
    let mut lengths = vec![0, 1, 2, 3, 4, right / 2, right / 4, 2 * right, 2 * right + 1, right + 0x1_0000];
    lengths.extend([1, 2, 3, 4, 5, 8].map(|less| right.saturating_sub(less)));
    lengths.extend([1, 2, 3, 4, 5, 8].map(|more| right + more));
    // Numbers in the place of bytes, the lengths of the others, and the room's before it was cut.
    lengths.extend([127, 508, 1984, 1985, 3968, 7936, 7940, 8032]);
    lengths.retain(|length| *length != right);
    lengths.sort_unstable();
    lengths.dedup();
    lengths
}

/// Of those the ones that are wrong where longer ones are right.
fn short_lengths(least: usize) -> impl Iterator<Item = usize> {
    wrong_lengths(least).into_iter().filter(move |length| *length < least)
}

/// Lengths for so many points of which one is wrong, or several are.
fn wrong(points: usize) -> Vec<Lengths> {
    let right = Lengths::right(points);
    let mut all = Vec::new();
    for map in wrong_lengths(right.held) {
        all.push(Lengths { held: map, ..right });
        all.push(Lengths { wanted: map, ..right });
        all.push(Lengths { held: map, wanted: map, ..right });
    }
    all.extend(wrong_lengths(right.plan).into_iter().map(|plan| Lengths { plan, ..right }));
    all.extend(short_lengths(right.room).map(|room| Lengths { room, ..right }));
    all.extend(short_lengths(right.choices).map(|choices| Lengths { choices, ..right }));
    all.extend(short_lengths(right.batch).map(|batch| Lengths { batch, ..right }));
    // Those of others, and enough for this map, but not for a full one.
    all.push(Lengths { room: right.choices, choices: right.room, ..right });
    all.push(Lengths { plan: right.batch, batch: right.plan, ..right });
    all.push(Lengths { plan: 4 * points - 1, room: 4 * points + 3, ..right });
    all.push(Lengths { choices: points.min(right.choices - 1), ..right });
    all.push(Lengths { batch: (10 * points).min(right.batch - 1), ..right });
    all
}

/// Calls with these lengths, each refused with 1.
fn refuse_all(upload: &mut Upload, points: usize, all: impl Iterator<Item = Lengths>) {
    let bytes = upload.random.bytes(2 * LARGEST);
    for lengths in all {
        let (held, wanted) = (&bytes[..lengths.held], &bytes[LARGEST..][..lengths.wanted]);
        upload.refused(points as u32, held, wanted, lengths, Refusal::Lent);
    }
}

/// Each length wrong by itself, and several at once.
pub fn lengths(upload: &mut Upload) {
    for points in NUMBERS {
        refuse_all(upload, points, wrong(points).into_iter());
    }
}

/// Every length of the room, and every one of the choices, that is too short.
pub fn short_rooms(upload: &mut Upload) {
    for points in [1, 3, MOST, MOST + 1, POINTS] {
        let right = Lengths::right(points);
        let rooms = (0..right.room).map(|room| Lengths { room, ..right });
        let choices = (0..right.choices).map(|choices| Lengths { choices, ..right });
        refuse_all(upload, points, rooms.chain(choices));
    }
}

/// A plan for so many points with these lengths.
fn plan_longer(upload: &mut Upload, points: usize, more: [usize; 3]) {
    let (kind, step) = (any_kind(upload), 1 + upload.random.below(9));
    let (held, wanted) = maps(upload, points, kind, |place| place % step != 3);
    upload.plan_lent(&held, &wanted, Lengths::longer(points, more));
}

/// Room, choices and batch buffer longer: by 0 to 9 bytes, each with each; and by more, also such
/// that 16 bits count as too short.
pub fn longer_rooms(upload: &mut Upload) {
    for points in [1, 5, MOST, MOST + 1, MOST + 2, POINTS] {
        for more in 0..1000 {
            plan_longer(upload, points, [more % 10, more / 10 % 10, more / 100]);
        }
    }
    let right = Lengths::right(0);
    for (points, more) in NUMBERS.into_iter().flat_map(|points| MORE.map(|more| (points, more))) {
        plan_longer(upload, points, [more, 0, 0]);
        plan_longer(upload, points, [0, more, 0]);
        plan_longer(upload, points, [0, 0, more]);
        plan_longer(upload, points, [more; 3]);
        let wrapped = [right.room, right.choices, right.batch].map(|least| 0x1_0000 - 1 - more.min(least));
        plan_longer(upload, points, wrapped);
    }
}

/// More bytes than a room needs.
const MORE: [usize; 12] = [10, 11, 12, 13, 16, 127, 508, 1984, 7432, 8032, 0xFFFF - 8032, 0xFFFF];

/// NULL with length 0 is an empty slice: each by itself, several, all.
pub fn null_pointers(upload: &mut Upload) {
    upload.entries = WITH_NULL;
    let bytes = upload.random.bytes(2 * 4 * POINTS);
    let (held, wanted) = bytes.split_at(4 * POINTS);
    for points in NUMBERS {
        for empty in 1..1 << 6 {
            let kept = |place: usize, length: usize| if empty >> place & 1 == 1 { 0 } else { length };
            let right = Lengths::right(points);
            let lengths = Lengths {
                held: kept(0, right.held),
                wanted: kept(1, right.wanted),
                plan: kept(2, right.plan),
                room: kept(3, right.room),
                choices: kept(4, right.choices),
                batch: kept(5, right.batch),
            };
            let (held, wanted) = (&held[..lengths.held], &wanted[..lengths.wanted]);
            upload.refused(points as u32, held, wanted, lengths, Refusal::Lent);
            upload.refused(0, held, wanted, lengths, Refusal::Range);
        }
    }
    upload.entries = LIBRARY;
}
