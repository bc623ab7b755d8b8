//! Measures compressed gains on a full colour: compressing, splitting, and the front end on the packets,
//! each of the library and of the twin, both from C bytes, in one run. From the repository's folder,
//! after `tools/build vermolgas`:
//!
//! `cargo run --profile speed --offline --locked --manifest-path tests/twin/Cargo.toml --bin bench_gains`

#[allow(dead_code, reason = "each program calls some of the entries")]
mod library;
mod measure;

use std::hint::black_box;
use std::process::ExitCode;
use std::time::Instant;

use library::LIBRARY;
use measure::{side_by_side, REPETITIONS};
use twin::compressor::{self, PAIRS_BYTES};
use twin::front_end::{self, Memory};
use twin::packet::LONGEST;
use twin::settings::GAINS;
use twin::splitter::{self, BATCH_BYTES};

/// A repetition does a step so often.
const COLOURS: usize = 200;

/// The bytes of a packet of 250 words.
const FULL_PACKET: usize = 510;

/// A colour on its way: what each step writes, and what the next one reads.
#[derive(Clone, PartialEq, Eq)]
struct Colour {
    gains: Vec<u8>,
    pairs: Vec<u8>,
    pairs_length: usize,
    batch: Vec<u8>,
    batch_length: usize,
    memory: Memory,
}

impl Colour {
    fn new(gain_at: impl Fn(usize) -> usize) -> Self {
        Colour {
            gains: (0..GAINS).flat_map(|place| (gain_at(place) as u16).to_le_bytes()).collect(),
            pairs: vec![0; PAIRS_BYTES],
            pairs_length: 0,
            batch: vec![0; BATCH_BYTES],
            batch_length: 0,
            memory: Memory::default(),
        }
    }
}

/// One step of one side: the C entry's answer; 0 for packets that are all accepted without a reply.
type Step = fn(&mut Colour) -> u64;

/// A step by its name, and what each side does.
const STEPS: [(&str, Step, Step); 3] = [
    ("compress", library_compress, twin_compress),
    ("split", library_split, twin_split),
    ("front end", library_packets, twin_packets),
];

fn library_compress(colour: &mut Colour) -> u64 {
    let answer = LIBRARY.compress(&colour.gains, &mut colour.pairs);
    colour.pairs_length = 4 * (answer >> 8) as usize;
    answer
}

fn twin_compress(colour: &mut Colour) -> u64 {
    let Ok(count) = compressor::compress(&colour.gains, &mut colour.pairs) else { return u64::MAX };
    colour.pairs_length = 4 * count;
    (count as u64) << 8
}

fn library_split(colour: &mut Colour) -> u64 {
    let answer = LIBRARY.split(1, 0, &colour.pairs[..colour.pairs_length], &mut colour.batch);
    colour.batch_length = (answer >> 32) as usize;
    answer
}

fn twin_split(colour: &mut Colour) -> u64 {
    let pairs = &colour.pairs[..colour.pairs_length];
    let Ok(split) = splitter::split(1, 0, pairs, &mut colour.batch) else { return u64::MAX };
    colour.batch_length = split.bytes;
    (split.packets as u64) << 8 | (split.bytes as u64) << 32
}

fn library_packets(colour: &mut Colour) -> u64 {
    let mut reply = [0; LONGEST];
    let packets = colour.batch[..colour.batch_length].chunks(FULL_PACKET);
    packets.fold(0, |before, packet| before | LIBRARY.packet(packet, colour.memory.lend(), &mut reply))
}

fn twin_packets(colour: &mut Colour) -> u64 {
    let mut reply = [0; LONGEST];
    let packets = colour.batch[..colour.batch_length].chunks(FULL_PACKET);
    packets.fold(0, |before, packet| {
        let answer = front_end::packet(packet, colour.memory.lend(), &mut reply);
        before | u64::from(answer.status) | (answer.length as u64) << 8
    })
}

fn main() -> ExitCode {
    // A fade over 16 of 63 columns, in each of the rows.
    let fade = |place: usize| 256 * (62 - place % 63).min(16);
    let cases = [
        ("constant", Colour::new(|_| 4096)),
        ("fade to an edge", Colour::new(fade)),
        ("all different", Colour::new(|place| 4 * place)),
    ];
    println!("colours of {GAINS} gains a second, in thousands; medians of {REPETITIONS}; above 1 the library is faster");
    println!("{:<28}{:>10}{:>10}{:>14}", "", "library", "twin", "library/twin");
    for (name, colour) in cases {
        if let Err(said) = measure(name, colour) {
            println!("{said}");
            return ExitCode::FAILURE;
        }
    }
    ExitCode::SUCCESS
}

/// Prints a line for each step of a colour.
fn measure(name: &str, mut colour: Colour) -> Result<(), String> {
    for (step, library, twin) in STEPS {
        let row = format!("{name}, {step}");
        let [library, twin, ratio] =
            compare(&mut colour, library, twin).ok_or(format!("{row}: the library and the twin differ"))?;
        println!("{row:<28}{:>10.1}{:>10.1}{ratio:>14.2}", library / 1e3, twin / 1e3);
    }
    println!("{name}: {} pairs, {} bytes", colour.pairs_length / 4, colour.batch_length);
    Ok(())
}

/// Colours a second of the library and of the twin, and their ratio, each the median; none if they
/// differ in anything. The colour is then one step further.
fn compare(colour: &mut Colour, library: Step, twin: Step) -> Option<[f64; 3]> {
    let (mut of_library, mut of_twin) = (colour.clone(), colour.clone());
    if library(&mut of_library) != twin(&mut of_twin) || of_library != of_twin {
        return None;
    }
    let figures =
        side_by_side(|| colours_a_second(library, &mut of_library), || colours_a_second(twin, &mut of_twin));
    *colour = of_library;
    (*colour == of_twin).then_some(figures)
}

fn colours_a_second(step: Step, colour: &mut Colour) -> f64 {
    let start = Instant::now();
    for _ in 0..COLOURS {
        black_box(step(black_box(colour)));
    }
    COLOURS as f64 / start.elapsed().as_secs_f64()
}
