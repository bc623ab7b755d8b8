//! Judges room and choices by what they mean, and not by the twin's.

use twin::planner::{packet_bytes, MOST};
use twin::settings::POINTS;

use crate::covers::patterns;
use crate::upload::{differences, Outcome, Upload};
use crate::uploads::{at_random, maps, Kind, NUMBERS};

/// The room's numbers.
const ROOM_NUMBERS: usize = 127;

/// Whether each point differs.
fn differing(held: &[u8], wanted: &[u8]) -> Vec<bool> {
    held.as_chunks::<4>().0.iter().zip(wanted.as_chunks().0).map(|(held, wanted)| held != wanted).collect()
}

/// Whether each choice is a count within the map for a point that differs, and else 0.
fn in_range(choices: &[u8], differs: &[bool]) -> bool {
    let fits = |place: usize, count: u8| match differs.get(place) {
        Some(true) => (1..=MOST.min(differs.len() - place)).contains(&count.into()),
        _ => count == 0,
    };
    choices.len() == POINTS && choices.iter().enumerate().all(|(place, count)| fits(place, *count))
}

/// The packets that the choices give, from the first point on.
fn followed(choices: &[u8]) -> Vec<(usize, usize)> {
    let mut list = Vec::new();
    let mut place = 0;
    while let Some(count) = choices.get(place).copied().map(usize::from) {
        if count > 0 {
            list.push((place, count));
        }
        place += count.max(1);
    }
    list
}

/// The bytes of the packets that the choices give, from each point on, and 0 behind the last point. A
/// count past the last point ends there.
pub fn chosen_bytes(choices: &[u8]) -> Vec<u32> {
    let mut bytes = vec![0; choices.len() + 1];
    for place in (0..choices.len()).rev() {
        bytes[place] = match choices[place].into() {
            0 => bytes[place + 1],
            count => bytes[choices.len().min(place + count)] + packet_bytes(count) as u32,
        };
    }
    bytes
}

/// Whether no count costs less than the one chosen at this point, and no smaller one as little.
/// `bytes` are those from each point on.
fn is_cheapest(bytes: &[u32], start: usize, chosen: usize) -> bool {
    let cost = |count: usize| bytes[start + count] + packet_bytes(count) as u32;
    let least = cost(chosen);
    let longest = MOST.min(bytes.len() - 1 - start);
    (1..chosen).all(|count| cost(count) > least) && (chosen..=longest).all(|count| cost(count) >= least)
}

/// What a plan left in room and choices. No choice can be bettered; followed from the first point on
/// they are the plan; the room has their bytes, from each of its points on.
pub fn judge(upload: &mut Upload, held: &[u8], wanted: &[u8], outcome: &Outcome) {
    let differs = differing(held, wanted);
    let mut expect = |holds: bool, what: &str| {
        upload.expect(holds, || format!("{what}: {}", differences(held, wanted)));
        holds
    };
    if !expect(in_range(&outcome.choices, &differs), "a choice is no count within the map, or not 0") {
        return;
    }
    let choices = &outcome.choices[..differs.len()];
    let bytes = chosen_bytes(choices);
    let chosen = choices.iter().enumerate().filter(|(_, count)| **count > 0);
    let mut cheapest = chosen.map(|(start, count)| is_cheapest(&bytes, start, (*count).into()));
    expect(cheapest.all(|holds| holds), "a choice isn't the cheapest, or not the smallest of those");
    expect(followed(choices) == outcome.plan, "the choices don't give the plan");
    let mut due = bytes;
    due.resize(due.len().max(ROOM_NUMBERS), 0);
    expect(outcome.room == due[..ROOM_NUMBERS], "the room hasn't the bytes of the choices");
}

/// The points from each place on, planned alone, at each place that the room has a number for: their
/// bytes are that number, and they are chosen for as in the whole map.
fn plan_tails(upload: &mut Upload, held: &[u8], wanted: &[u8]) {
    let whole = upload.plan(held, wanted);
    let points = held.len() / 4;
    for from in 0..points.min(ROOM_NUMBERS) {
        let tail = upload.plan(&held[4 * from..], &wanted[4 * from..]);
        upload.counts.tails += 1;
        let number = whole.room.get(from).copied();
        upload.expect(number == Some(tail.bytes as u32), || {
            let (bytes, input) = (tail.bytes, differences(held, wanted));
            format!("from {from} on {bytes} bytes, and the room has {number:?}: {input}")
        });
        upload.expect(whole.choices.get(from..points) == tail.choices.get(..points - from), || {
            format!("from {from} on alone other choices: {}", differences(held, wanted))
        });
    }
}

/// Every pattern of up to 9 points, by its tails.
pub fn small_tails(upload: &mut Upload) {
    for (points, pattern) in (1..=9).flat_map(|points| patterns(points).map(move |pattern| (points, pattern)))
    {
        let (held, wanted) = maps(upload, points, Kind::Any, |place| pattern >> place & 1 == 1);
        plan_tails(upload, &held, &wanted);
    }
}

/// Larger maps by their tails, from a few points that differ to all of them.
pub fn tails(upload: &mut Upload) {
    for points in NUMBERS {
        for of_thousand in [10, 300, 700, 950, 995, 1000] {
            let differs = at_random(upload, points, of_thousand);
            let (held, wanted) = maps(upload, points, Kind::Any, |place| differs[place]);
            plan_tails(upload, &held, &wanted);
        }
    }
}
