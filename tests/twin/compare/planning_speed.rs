//! Measures upload planning on full maps: plans a second of the library and of the twin, both from C
//! bytes, in one run, and the bytes that a plan saves. From the repository's folder, after
//! `tools/build vermolgas`:
//!
//! `cargo run --profile speed --offline --locked --manifest-path tests/twin/Cargo.toml --bin bench_planning`

#[allow(dead_code, reason = "each program calls some of the entries")]
mod library;
mod measure;
#[allow(dead_code, reason = "each program draws some kinds of numbers")]
mod random;

use std::hint::black_box;
use std::process::ExitCode;
use std::time::Instant;

use library::LIBRARY;
use measure::{side_by_side, REPETITIONS};
use random::Random;
use twin::front_end::MAP_BYTES;
use twin::planner::{self, Lent, BATCH_BYTES, CHOICES_BYTES, PLAN_BYTES, ROOM_BYTES};
use twin::settings::POINTS;

/// A repetition plans so often.
const PLANS: usize = 96;

/// Pairs of maps of each case, one after the other, so that no pair is learnt by heart.
const PAIRS: usize = 8;

const SEED: u64 = 0x706C_616E_7300;

/// What planning writes.
#[derive(PartialEq, Eq)]
struct Written {
    plan: Vec<u8>,
    room: Vec<u8>,
    choices: Vec<u8>,
    batch: Vec<u8>,
}

impl Written {
    fn new() -> Self {
        let [plan, room, choices, batch] =
            [PLAN_BYTES, ROOM_BYTES, CHOICES_BYTES, BATCH_BYTES].map(|length| vec![0; length]);
        Written { plan, room, choices, batch }
    }

    fn lend<'a>(&'a mut self, (held, wanted): &'a Maps) -> Lent<'a> {
        let Written { plan, room, choices, batch } = self;
        Lent { held, wanted, plan, room, choices, batch }
    }
}

/// Held and wanted.
type Maps = (Vec<u8>, Vec<u8>);

/// What one side makes of two maps: the C entry's answer.
type Plan = fn(&Maps, &mut Written) -> u64;

fn library_plan(maps: &Maps, written: &mut Written) -> u64 {
    LIBRARY.plan(POINTS as u32, written.lend(maps))
}

fn twin_plan(maps: &Maps, written: &mut Written) -> u64 {
    match planner::plan(POINTS as u32, written.lend(maps)) {
        Ok(planned) => (planned.packets as u64) << 8 | (planned.bytes as u64) << 32,
        Err(refusal) => refusal.number().into(),
    }
}

fn main() -> ExitCode {
    let mut random = Random::new(SEED);
    let cases: [(&str, Vec<Maps>); 5] = [
        ("all different", pairs(&mut random, |_, _| true)),
        ("every second", pairs(&mut random, |_, place| place % 2 == 0)),
        ("every third", pairs(&mut random, |_, place| place % 3 == 0)),
        ("5 % at random", pairs(&mut random, |random, _| random.below(20) == 0)),
        ("equal", pairs(&mut random, |_, _| false)),
    ];
    println!("plans a second for {POINTS} points; medians of {REPETITIONS}; above 1 the library is faster");
    println!("bytes: the mean of {PAIRS} plans; a whole map takes {BATCH_BYTES}");
    println!("{:<16}{:>10}{:>10}{:>14}{:>8}{:>8}", "", "library", "twin", "library/twin", "bytes", "saved");
    for (name, maps) in cases {
        let Some(bytes) = bytes(&maps) else {
            println!("{name}: the library and the twin differ");
            return ExitCode::FAILURE;
        };
        let [library, twin, ratio] = compare(&maps);
        let saved = 100.0 * (1.0 - bytes / BATCH_BYTES as f64);
        println!("{name:<16}{library:>10.0}{twin:>10.0}{ratio:>14.2}{bytes:>8.0}{saved:>6.1} %");
    }
    ExitCode::SUCCESS
}

/// Pairs of maps that differ at these places.
fn pairs(random: &mut Random, differs: impl Fn(&mut Random, usize) -> bool) -> Vec<Maps> {
    let mut pair = |_| {
        let held = random.bytes(MAP_BYTES);
        let mut wanted = held.clone();
        for (place, point) in wanted.as_chunks_mut::<4>().0.iter_mut().enumerate() {
            if differs(random, place) {
                point[random.below(4)] ^= 1 + random.below(255) as u8;
            }
        }
        (held, wanted)
    };
    (0..PAIRS).map(&mut pair).collect()
}

/// The mean of the plans' bytes; none if the library and the twin differ in anything.
fn bytes(maps: &[Maps]) -> Option<f64> {
    let mut sum = 0;
    for maps in maps {
        let (mut library, mut twin) = (Written::new(), Written::new());
        let (answer, due) = (library_plan(maps, &mut library), twin_plan(maps, &mut twin));
        if answer != due || library != twin {
            return None;
        }
        sum += answer >> 32;
    }
    Some(sum as f64 / maps.len() as f64)
}

/// Plans a second of the library and of the twin, and their ratio, each the median.
fn compare(maps: &[Maps]) -> [f64; 3] {
    let (mut library, mut twin) = (Written::new(), Written::new());
    side_by_side(
        || plans_a_second(library_plan, maps, &mut library),
        || plans_a_second(twin_plan, maps, &mut twin),
    )
}

fn plans_a_second(plan: Plan, maps: &[Maps], written: &mut Written) -> f64 {
    let start = Instant::now();
    for maps in maps.iter().cycle().take(PLANS) {
        black_box(plan(black_box(maps), written));
    }
    PLANS as f64 / start.elapsed().as_secs_f64()
}
