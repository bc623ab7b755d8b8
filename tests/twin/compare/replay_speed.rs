//! Measures the replay: records a second of the program that VERMOLGAS_REPLAY names and of the twin's,
//! in one run. Both read the same session files and write to /dev/null, and their starts are counted.
//! From the repository's folder, once `replay` is built:
//!
//! `cargo build --profile speed --offline --locked --manifest-path tests/twin/Cargo.toml --bin twin_replay`
//!
//! `VERMOLGAS_REPLAY=target/bin/replay cargo run --profile speed --offline --locked --manifest-path
//! tests/twin/Cargo.toml --bin bench_replay`

#[allow(dead_code, reason = "a session for measuring is accepted")]
mod fitting;
#[allow(dead_code, reason = "packets are made for a mixed session alone")]
mod generate;
mod measure;
mod mixed;
#[allow(dead_code, reason = "each program draws some kinds of numbers")]
mod random;

use std::env;
use std::fs::{self, File};
use std::io;
use std::path::{Path, PathBuf};
use std::process::{self, Command, ExitCode, Stdio};
use std::time::Instant;

use measure::{side_by_side, REPETITIONS};
use random::Random;
use twin::replay::{push_record, OPENING};
use twin::scripts::hex;

const SEED: u64 = 0x7265_706C_6179_0000;

/// The twin's replay, built beside this program.
const TWIN: &str = "twin_replay";

fn main() -> ExitCode {
    let scratch = env::temp_dir().join(format!("bench_replay.{}", process::id()));
    let done = programs().and_then(|programs| measure_all(&programs, &scratch));
    // It is there unless there was nothing to measure.
    let _ = fs::remove_file(&scratch);
    match done {
        Ok(()) => ExitCode::SUCCESS,
        Err(said) => {
            eprintln!("{said}");
            ExitCode::FAILURE
        }
    }
}

/// The program that is measured, and the twin's.
fn programs() -> Result<[PathBuf; 2], String> {
    let named = env::var_os("VERMOLGAS_REPLAY")
        .ok_or("VERMOLGAS_REPLAY is not set: it names the program that replays a session")?;
    let here = env::current_exe().map_err(|error| error.to_string())?;
    let programs = [PathBuf::from(named), here.with_file_name(TWIN)];
    match programs.iter().find(|program| !program.is_file()) {
        Some(missing) => Err(format!("no program {}: build it first", missing.display())),
        None => Ok(programs),
    }
}

/// A session: its packets are repeated, up to so many records.
struct Case {
    name: &'static str,
    packets: Vec<Vec<u8>>,
    records: usize,
}

fn cases() -> [Case; 4] {
    let long = |first: u8, length: usize| [&[first][..], &vec![0x11; length - 1]].concat();
    [
        Case {
            name: "mixed, every command",
            packets: mixed::session(&mut Random::new(SEED)),
            records: 200_000,
        },
        Case {
            name: "short, 04 11 01 and 84 11",
            packets: vec![hex("04 11 01"), hex("84 11")],
            records: 400_000,
        },
        Case {
            name: "replies of 512 bytes",
            packets: vec![hex("A4 34 00 00 7F 00 DA"), hex("A4 2B 01 00 00 FE 00 7F")],
            records: 40_000,
        },
        Case {
            name: "over-long, 513 to 65,535 bytes",
            packets: vec![long(0x04, 513), long(0xE4, 600), long(0x44, 5000), long(0xA4, 65_535)],
            records: 8_000,
        },
    ]
}

fn measure_all(programs: &[PathBuf; 2], scratch: &Path) -> Result<(), String> {
    println!("records a second, in thousands; medians of {REPETITIONS}; above 1 replay is faster");
    println!("{:<32}{:>10}{:>10}{:>14}{:>10}", "", "replay", "twin", "replay/twin", "MiB");
    for case in cases() {
        let file = file_of(&case);
        fs::write(scratch, &file).map_err(|error| format!("{}: {error}", scratch.display()))?;
        let [replay, twin] = programs;
        if output(replay, scratch)? != output(twin, scratch)? {
            return Err(format!("{}: replay and twin print different lines", case.name));
        }
        let a_second = |program: &Path| {
            let seconds = seconds(program, scratch).expect("it has just run");
            case.records as f64 / seconds
        };
        let [of_replay, of_twin, ratio] = side_by_side(|| a_second(replay), || a_second(twin));
        let size = file.len() as f64 / f64::from(1 << 20);
        println!(
            "{:<32}{:>10.0}{:>10.0}{ratio:>14.2}{size:>10.1}",
            case.name,
            of_replay / 1e3,
            of_twin / 1e3
        );
    }
    Ok(())
}

fn file_of(case: &Case) -> Vec<u8> {
    let mut file = OPENING.to_vec();
    for packet in case.packets.iter().cycle().take(case.records) {
        push_record(&mut file, packet);
    }
    file
}

/// What a program prints for the file.
fn output(program: &Path, file: &Path) -> Result<Vec<u8>, String> {
    let run = || Command::new(program).stdin(File::open(file)?).output();
    run().map(|output| output.stdout).map_err(|error: io::Error| format!("{}: {error}", program.display()))
}

/// How long a program takes for the file, from its start to its end.
fn seconds(program: &Path, file: &Path) -> io::Result<f64> {
    let input = File::open(file)?;
    let start = Instant::now();
    Command::new(program).stdin(input).stdout(Stdio::null()).status()?;
    Ok(start.elapsed().as_secs_f64())
}
