//! Measures the rising test of 35h, called alone: nanoseconds a call of the library and of the twin, in
//! one run, on lists that rise and on lists that are wrong at one entry; and the time on lists wrong at
//! the second entry as a share of that on rising ones. A share of the library above the limit is a
//! failure. From the repository's folder, after `tools/build rising`:
//!
//! `cargo run --profile speed --offline --locked --manifest-path tests/twin/Cargo.toml --bin bench_rising`

#[allow(dead_code, reason = "each program packs some kinds of answers")]
mod answers;
mod measure;
mod rising_library;

use std::hint::black_box;
use std::process::ExitCode;
use std::time::Instant;

use measure::{side_by_side, REPETITIONS};
use rising_library::{Side, LIBRARY, TWIN};

/// A repetition calls so often.
const CALLS: usize = 100_000;

/// The library's share is at most this.
const LIMIT: f64 = 0.25;

/// The second entry of the column list, counted from 0.
const SECOND: usize = 1;

/// What is measured: lists by the entry that is wrong in them.
const CASES: [(&str, Option<usize>); 5] = [
    ("rising", None),
    ("wrong at the second entry", Some(SECOND)),
    ("wrong at the last column entry", Some(61)),
    ("wrong at the second row entry", Some(63)),
    ("wrong at the last row entry", Some(93)),
];

fn main() -> ExitCode {
    println!("nanoseconds a call; medians of {REPETITIONS}; above 1 the library is faster");
    println!("{:<32}{:>10}{:>10}{:>14}", "", "library", "twin", "library/twin");
    for (name, wrong) in CASES {
        let Some([library, twin, ratio]) = compare(wrong) else {
            println!("{name}: the library or the twin gives another answer than is due");
            return ExitCode::FAILURE;
        };
        println!("{name:<32}{:>10.2}{:>10.2}{ratio:>14.2}", 1e9 / library, 1e9 / twin);
    }
    println!();
    let (library, twin) = (share(LIBRARY), share(TWIN));
    println!("time on lists wrong at the second entry, as a share of that on rising ones");
    println!("{:<32}{library:>10.3}{twin:>10.3}", "share");
    if library > LIMIT {
        println!("FAILED: the library's share is {library:.3}, at most {LIMIT} is allowed");
        return ExitCode::FAILURE;
    }
    println!("the library's share is within the limit, {LIMIT}");
    ExitCode::SUCCESS
}

/// Lists that count from 0, with the wrong entry equal to the one before it.
fn lists(wrong: Option<usize>) -> Vec<u8> {
    let mut entries: Vec<u16> = (0..62).chain(0..32).collect();
    if let Some(entry) = wrong {
        entries[entry] = entries[entry - 1];
    }
    entries.into_iter().flat_map(u16::to_le_bytes).collect()
}

/// The answer that is due.
fn due(wrong: Option<usize>) -> u64 {
    wrong.map_or(0, |entry| 10 | (1 + 2 * entry as u64) << 32)
}

/// Calls a second of the library and of the twin, and their ratio, each the median; none if one of them
/// gives another answer than is due.
fn compare(wrong: Option<usize>) -> Option<[f64; 3]> {
    let lists = lists(wrong);
    if [LIBRARY, TWIN].map(|side| side.rising(&lists)) != [due(wrong); 2] {
        return None;
    }
    Some(side_by_side(|| calls_a_second(LIBRARY, &lists), || calls_a_second(TWIN, &lists)))
}

/// A side's time on lists wrong at the second entry divided by that on rising ones: the median of the
/// quotients, the two taken side by side.
fn share(side: Side) -> f64 {
    let (rising, wrong) = (lists(None), lists(Some(SECOND)));
    let [_, _, share] = side_by_side(|| calls_a_second(side, &rising), || calls_a_second(side, &wrong));
    share
}

/// Neither side is known to the loop, so that each costs a call by its address.
fn calls_a_second(side: Side, lists: &[u8]) -> f64 {
    let side = black_box(side);
    let start = Instant::now();
    for _ in 0..CALLS {
        black_box(side.rising(black_box(lists)));
    }
    CALLS as f64 / start.elapsed().as_secs_f64()
}
