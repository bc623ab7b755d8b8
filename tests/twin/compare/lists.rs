//! Groups on the two lists of 35h, alone: lists that rise, faults at each entry, the border between the
//! lists, single bytes, lengths, and lists at random.

use std::array;
use std::ops::Range;

use crate::generate;
use crate::judging::{bytes, Due, Entries, Judging, BYTES, LONGEST};
use crate::random::Random;

const COLUMNS: Range<usize> = 0..62;
const ROWS: Range<usize> = 62..94;

/// The list in which an entry stands.
fn list_of(entry: usize) -> Range<usize> {
    if COLUMNS.contains(&entry) {
        COLUMNS
    } else {
        ROWS
    }
}

/// The entries that have one before them in their own list, and so can be at fault.
fn followers() -> Vec<usize> {
    (1..62).chain(63..94).collect()
}

/// Each list by its first entry and its step.
fn stepped(columns: (u16, u16), rows: (u16, u16)) -> Entries {
    array::from_fn(|entry| {
        let (first, step) = if COLUMNS.contains(&entry) { columns } else { rows };
        first + step * (entry - list_of(entry).start) as u16
    })
}

/// Both lists, rising.
fn rising(random: &mut Random) -> Entries {
    let (columns, rows): ([u16; 62], [u16; 32]) = (generate::rising(random), generate::rising(random));
    array::from_fn(|entry| if COLUMNS.contains(&entry) { columns[entry] } else { rows[entry - 62] })
}

/// Lists with these numbers at an entry and the one before it. The rest of their list counts up to the
/// one and on from the other; the other list counts from 0.
fn beside(entry: usize, before: u16, own: u16) -> Entries {
    let list = list_of(entry);
    array::from_fn(|at| {
        if !list.contains(&at) {
            (at - list_of(at).start) as u16
        } else if at < entry {
            before - (entry - 1 - at) as u16
        } else {
            own + (at - entry) as u16
        }
    })
}

/// Such lists; they rise exactly if the one number is above the other.
fn expect_beside(judging: &mut Judging, entry: usize, before: u16, own: u16) {
    let due = if own > before { Due::Rising } else { Due::Fault(entry) };
    judging.expect(&beside(entry, before, own), due);
}

/// Without a gap from every number on, by every step from 0 on and up to 65,535, and scattered.
pub fn that_rise(judging: &mut Judging) {
    for first in 0..=65_474 {
        judging.expect(&stepped((first, 1), (65_504_u16.saturating_sub(first), 1)), Due::Rising);
    }
    for step in 1..=2114 {
        let column_step = step.min(1074);
        judging.expect(&stepped((0, column_step), (0, step)), Due::Rising);
        let highest = (65_535 - 61 * column_step, 65_535 - 31 * step);
        judging.expect(&stepped((highest.0, column_step), (highest.1, step)), Due::Rising);
    }
    for _ in 0..20_000 {
        let entries = rising(&mut judging.random);
        judging.expect(&entries, Due::Rising);
    }
}

/// Each entry equal to, just and far below, and just and far above each of its neighbours.
pub fn one_entry(judging: &mut Judging) {
    for entry in (0..100).flat_map(|_| 0..94_usize) {
        let rising = rising(&mut judging.random);
        for neighbour in [entry.saturating_sub(1), (entry + 1).min(93)] {
            let beside = rising[neighbour];
            let near =
                [0, 1, 255, 256, 257].map(|step| [beside.wrapping_sub(step), beside.wrapping_add(step)]);
            let far = [0, beside / 2, beside ^ 0x8000, beside.swap_bytes(), u16::MAX];
            for value in near.as_flattened().iter().copied().chain(far) {
                let mut entries = rising;
                entries[entry] = value;
                judging.expect(&entries, due_of(&rising, entry, value));
            }
        }
    }
}

/// What is due if one entry of rising lists has another value.
fn due_of(rising: &Entries, entry: usize, value: u16) -> Due {
    let list = list_of(entry);
    if entry > list.start && value <= rising[entry - 1] {
        Due::Fault(entry)
    } else if entry + 1 < list.end && value >= rising[entry + 1] {
        Due::Fault(entry + 1)
    } else {
        Due::Rising
    }
}

/// Each two entries at fault, by values that are too low and by values before them that are too high: the
/// first is named.
pub fn two_entries(judging: &mut Judging) {
    let followers = followers();
    for (index, first) in followers.iter().enumerate() {
        for second in &followers[index + 1..] {
            let rising = rising(&mut judging.random);
            for lower in [|before: u16| before, |before: u16| before.saturating_sub(1), |_| 0] {
                let mut entries = rising;
                for entry in [*first, *second] {
                    entries[entry] = lower(entries[entry - 1]);
                }
                judging.expect(&entries, Due::Fault(*first));
            }
            for raise in [|own: u16| own, |own: u16| own.saturating_add(1), |_| u16::MAX] {
                let mut entries = rising;
                for entry in [*second, *first] {
                    entries[entry - 1] = raise(entries[entry]);
                }
                judging.expect(&entries, Due::Fault(*first));
            }
        }
    }
}

/// All entries from one on equal to the one before it, falling, or anything below it.
pub fn many_entries(judging: &mut Judging) {
    for entry in (0..20).flat_map(|_| followers()) {
        let rising = rising(&mut judging.random);
        let before = rising[entry - 1];
        let any: Entries = array::from_fn(|_| judging.random.below(usize::from(before) + 1) as u16);
        let equal = [before; 94];
        let falling: Entries = array::from_fn(|at| before.saturating_sub(at as u16));
        for behind in [equal, falling, any] {
            let mut entries = rising;
            entries[entry..].copy_from_slice(&behind[entry..]);
            judging.expect(&entries, Due::Fault(entry));
        }
    }
    for step in [0, 1, 256, 700] {
        let falling: Entries = array::from_fn(|at| 65_535 - step * at as u16);
        judging.expect(&falling, Due::Fault(1));
    }
}

/// Every last column entry with a first row entry below it, equal to it and above it, which is no fault;
/// and with a fault just before the border and just behind it.
pub fn border(judging: &mut Judging) {
    for last in 61..=u16::MAX {
        let near = [last - 1, last, last.saturating_add(1)];
        for first in near.into_iter().filter(|first| *first <= 65_504).chain([0, 65_504]) {
            let entries = stepped((last - 61, 1), (first, 1));
            judging.expect(&entries, Due::Rising);
        }
        let mut entries = stepped((last - 61, 1), (last / 2, 1));
        entries[63] = entries[62];
        judging.expect(&entries, Due::Fault(63));
        entries[61] = entries[60];
        judging.expect(&entries, Due::Fault(61));
    }
}

/// Each entry beside one that differs from it in the low byte alone, in the high byte alone, and in both,
/// the one up and the other down.
pub fn one_byte(judging: &mut Judging) {
    for entry in followers() {
        for low in 0..=255 {
            let high = judging.random.byte_within(1..=253);
            let before = u16::from_le_bytes([low, high]);
            let other = judging.random.byte();
            let lows = [low.saturating_sub(1), low.saturating_add(1), low ^ 0x80, other, 0, 255];
            let own = lows.map(|own_low| [high - 1, high, high + 1].map(|own_high| [own_low, own_high]));
            for own in own.into_iter().flatten().chain([[low, high - 1], [low, high + 1]]) {
                expect_beside(judging, entry, before, u16::from_le_bytes(own));
            }
        }
    }
}

/// Every value of an entry that leaves numbers for those behind it.
pub fn every_value(judging: &mut Judging) {
    for entry in [1, 31, 61, 63, 78, 93] {
        let before = judging.random.word_within(61..=u16::MAX);
        let behind = list_of(entry).end - 1 - entry;
        for own in 0..=u16::MAX - behind as u16 {
            expect_beside(judging, entry, before, own);
        }
    }
}

/// Every length up to 400, and longer ones that are right in their low bytes.
pub fn lengths(judging: &mut Judging) {
    let rising: Vec<u8> = (1..=LONGEST as u16 / 2).flat_map(u16::to_le_bytes).collect();
    for length in 0..=LONGEST {
        let [as_rising, as_equal] =
            if length == BYTES { [Due::Rising, Due::Fault(1)] } else { [Due::Size; 2] };
        judging.expect_bytes(&rising[..length], as_rising);
        judging.expect_bytes(&vec![7; length], as_equal);
        for _ in 0..5 {
            let any = judging.random.bytes(length);
            if length == BYTES {
                judging.compare(&any);
            } else {
                judging.expect_bytes(&any, Due::Size);
            }
        }
    }
    for more in [0x100, 0x200, 0x8000, 0x1_0000] {
        let mut lists = vec![0; BYTES + more];
        lists[..LONGEST].copy_from_slice(&rising);
        judging.expect_bytes(&lists, Due::Size);
    }
}

pub fn null_pointer(judging: &mut Judging) {
    judging.null_pointer();
}

/// Anything at all.
pub fn random_bytes(judging: &mut Judging) {
    for _ in 0..100_000 {
        let any = judging.random.bytes(BYTES);
        judging.compare(&any);
    }
}

/// One to four entries that are not above the ones before them.
pub fn random_faults(judging: &mut Judging) {
    let followers = followers();
    for _ in 0..20_000 {
        let rising = rising(&mut judging.random);
        for _ in 0..25 {
            let mut faults = vec![judging.random.pick(&followers)];
            faults.extend((0..judging.random.below(4)).map(|_| judging.random.pick(&followers)));
            faults.sort_unstable();
            let mut entries = rising;
            for entry in &faults {
                entries[*entry] = judging.random.below(usize::from(entries[entry - 1]) + 1) as u16;
            }
            judging.expect(&entries, Due::Fault(faults[0]));
        }
    }
}

/// One to four entries that are anything.
pub fn random_entries(judging: &mut Judging) {
    for _ in 0..20_000 {
        let rising = rising(&mut judging.random);
        for _ in 0..15 {
            let mut entries = rising;
            for _ in 0..=judging.random.below(4) {
                entries[judging.random.below(94)] = judging.random.word();
            }
            judging.compare(&bytes(&entries));
        }
    }
}
