//! Groups on inputs and outputs that fail (rule 9.7), that wait, and that have no end.

use std::fs::{self, File};
use std::io::{self, BufRead, BufReader, Read, Write};
use std::os::fd::OwnedFd;
use std::os::unix::net::{UnixDatagram, UnixStream};
use std::process::{Child, Stdio};
use std::sync::atomic::{AtomicU64, Ordering};
use std::sync::mpsc;
use std::thread;

use twin::replay::{push_record, session, OPENING};
use twin::scripts::hex;

use crate::comparison::Comparison;
use crate::program::{self, Outcome, LIMIT};
use crate::recording::Recording;
use crate::session_files;

/// A program whose output fails may take so many bytes of its input before it ends: what its own
/// buffers and the pipe hold, and no more.
const TAKEN: u64 = 1 << 20;

/// A reader that fails.
struct Failing;

impl Read for Failing {
    fn read(&mut self, _: &mut [u8]) -> io::Result<usize> {
        Err(io::Error::other("fails"))
    }
}

/// Zeros without an end: the first of them tells that this is no session, and the rest need not be read (rule 9.4).
pub fn endless_zeros(comparison: &mut Comparison) {
    let outcome = File::open("/dev/zero")
        .map_err(|error| error.to_string())
        .and_then(|input| comparison.program.run_on(input.into()));
    let due = comparison.due(&[0][..]);
    comparison.compare(outcome, &due, || "an endless input".to_string());
}

/// A folder, a file opened for writing alone, and a connection that breaks behind each byte of a
/// session.
pub fn unreadable(comparison: &mut Comparison) {
    let folder = File::open(std::env::temp_dir());
    let write_only = File::options().write(true).open("/dev/null");
    for input in [folder, write_only] {
        let outcome = input
            .map_err(|error| error.to_string())
            .and_then(|input| comparison.program.run_on(input.into()));
        let due = comparison.due(Failing);
        comparison.compare(outcome, &due, || "an input that can't be read".to_string());
    }
    let mut file = session(&["04 11 01", "84 11", "", "60", "04 1A 01"].map(hex));
    push_record(&mut file, &[0xE4; 600]);
    let places = (0..45).chain(file.len() - 90..=file.len());
    for length in places {
        broken(comparison, &file[..length]);
    }
    for wrong in 0..OPENING.len() {
        let mut opening = OPENING;
        opening[wrong] ^= 1;
        for length in 0..=opening.len() {
            broken(comparison, &opening[..length]);
        }
    }
}

/// These bytes, and then an input that fails.
fn broken(comparison: &mut Comparison, bytes: &[u8]) {
    let outcome =
        breaking(bytes).map_err(|error| error.to_string()).and_then(|input| comparison.program.run_on(input));
    let due = comparison.due(bytes.chain(Failing));
    comparison.compare(outcome, &due, || format!("breaks behind {bytes:02X?}"));
}

/// An input that gives these bytes and then fails: a socket whose other end was closed with something
/// unread in it.
fn breaking(file: &[u8]) -> io::Result<Stdio> {
    let (mut ours, mut theirs) = UnixStream::pair()?;
    ours.write_all(file)?;
    theirs.write_all(&[0])?;
    Ok(OwnedFd::from(theirs).into())
}

/// A device that is full: whatever the file, the program ends with status 0 and says nothing.
pub fn full_device(comparison: &mut Comparison) {
    for file in session_files::all() {
        let outcome = on_full_device(comparison, &file.bytes);
        expect_ended(comparison, outcome, false, || format!("/dev/full, {}", file.name));
    }
    for _ in 0..20 {
        let records = 1 + comparison.random.below(3000);
        let file = Recording::short(&mut comparison.random, records).file;
        let outcome = on_full_device(comparison, &file);
        expect_ended(comparison, outcome, false, || format!("/dev/full, {records} records"));
    }
    let outcome = File::options()
        .write(true)
        .open("/dev/full")
        .and_then(|full| comparison.program.start(Stdio::piped(), full.into()));
    endless(comparison, outcome, false, "/dev/full, an input without end");
}

fn on_full_device(comparison: &Comparison, file: &[u8]) -> Result<Outcome, String> {
    let run = || {
        let full = File::options().write(true).open("/dev/full")?;
        let mut child = comparison.program.start(Stdio::piped(), full.into())?;
        let mut pipe = child.stdin.take().expect("the input is a pipe");
        let outcome = thread::scope(|scope| {
            // It may end ahead of the file.
            scope.spawn(move || pipe.write_all(file).unwrap_or_default());
            program::finish(&mut child)
        });
        Ok(outcome)
    };
    run().map_err(|error: io::Error| error.to_string())?
}

/// An output that refuses the lines, as they are too long for it, and would take a shorter one: behind a
/// write that failed nothing is written (rule 9.7).
pub fn fails_once(comparison: &mut Comparison) {
    let file = session(&vec![hex("84 11"); 1000]);
    let outcome = on_narrow_output(comparison, &file);
    let input = || "an output that fails once".to_string();
    let received = outcome.as_ref().map_or(0, |(_, received)| *received);
    expect_ended(comparison, outcome.map(|(outcome, _)| outcome), false, input);
    comparison.report.expect(received == 0, || format!("writes on: {}", input()));
}

/// Runs it with a socket for its output that takes a few thousand bytes at once, and gives how many
/// bytes came through.
fn on_narrow_output(comparison: &Comparison, file: &[u8]) -> Result<(Outcome, usize), String> {
    let run = || {
        let (theirs, ours) = UnixDatagram::pair()?;
        program::narrow(&theirs)?;
        ours.set_nonblocking(true)?;
        let mut child = comparison.program.start(Stdio::piped(), OwnedFd::from(theirs).into())?;
        let mut pipe = child.stdin.take().expect("the input is a pipe");
        // It may end ahead of the file, which fits into the pipe.
        pipe.write_all(file).unwrap_or_default();
        drop(pipe);
        let outcome = program::finish(&mut child);
        let received = ours.recv(&mut [0; 1 << 16]).unwrap_or(0);
        Ok(outcome.map(|outcome| (outcome, received)))
    };
    run().map_err(|error: io::Error| error.to_string())?
}

/// A pipe whose reader has gone before the first line, or after some.
pub fn reader_gone(comparison: &mut Comparison) {
    for lines in [0, 0, 0, 1, 2, 1000, 100_000] {
        let child = comparison.program.start(Stdio::piped(), Stdio::piped());
        endless_until(comparison, child, lines);
    }
}

/// The program ends by itself: with status 0, or by the signal where that may be.
fn expect_ended(
    comparison: &mut Comparison,
    outcome: Result<Outcome, String>,
    by_signal: bool,
    input: impl FnOnce() -> String,
) {
    comparison.report.inputs += 1;
    let fault = match outcome {
        Err(said) => Some(said),
        Ok(outcome) if !outcome.errors.is_empty() => {
            Some(format!("standard error: {}", String::from_utf8_lossy(&outcome.errors)))
        }
        Ok(outcome) if outcome.is_zero() || by_signal && outcome.is_broken_pipe() => None,
        Ok(outcome) => Some(outcome.status.to_string()),
    };
    comparison.report.expect(fault.is_none(), || format!("{}: {}", fault.unwrap_or_default(), input()));
}

/// Feeds records without end: the program ends, and has not read on for long.
fn endless(comparison: &mut Comparison, child: io::Result<Child>, by_signal: bool, input: &str) {
    let taken = AtomicU64::new(0);
    let outcome = child.map_err(|error| error.to_string()).and_then(|mut child| {
        let mut pipe = child.stdin.take().expect("the input is a pipe");
        thread::scope(|scope| {
            scope.spawn(|| feed_without_end(&mut pipe, &taken));
            program::finish(&mut child)
        })
    });
    expect_ended(comparison, outcome, by_signal, || input.to_string());
    let taken = taken.into_inner();
    comparison.report.expect(taken <= TAKEN, || format!("reads {taken} bytes: {input}"));
}

/// The same, once so many lines of the output have been read and its reader is gone.
fn endless_until(comparison: &mut Comparison, child: io::Result<Child>, lines: usize) {
    let taken = AtomicU64::new(0);
    let outcome = child.map_err(|error| error.to_string()).and_then(|mut child| {
        let mut pipe = child.stdin.take().expect("the input is a pipe");
        let output = BufReader::new(child.stdout.take().expect("the output is a pipe"));
        thread::scope(|scope| {
            scope.spawn(|| feed_without_end(&mut pipe, &taken));
            scope.spawn(|| {
                // With the lines' end the reader goes; what is taken from then on is counted.
                output.lines().take(lines).for_each(drop);
                taken.store(0, Ordering::Relaxed);
            });
            program::finish(&mut child)
        })
    });
    expect_ended(comparison, outcome, true, || format!("the reader goes after {lines} lines"));
    let taken = taken.into_inner();
    comparison.report.expect(taken <= TAKEN, || format!("reads {taken} bytes after {lines} lines"));
}

/// Records whose lines are longer than they are, until the program takes no more.
fn feed_without_end(pipe: &mut impl Write, taken: &AtomicU64) {
    let records = session(&vec![hex("84 11"); 100]).split_off(OPENING.len());
    let mut fed = pipe.write_all(&OPENING);
    while fed.is_ok() {
        fed = pipe.write_all(&records);
        taken.fetch_add(records.len() as u64, Ordering::Relaxed);
    }
}

/// The line of a record is there before more of the file is than a part of the next record.
pub fn as_it_is_made(comparison: &mut Comparison) {
    for more in 0..4 {
        comparison.report.inputs += 1;
        let fault = talk(comparison, more).unwrap_or_else(|error| Some(error.to_string()));
        comparison.report.expect(fault.is_none(), || {
            format!("{}, with {more} bytes of the next record", fault.unwrap_or_default())
        });
    }
}

/// Hands over record after record, each with so many bytes of the next, and waits for its line. Gives
/// what is wrong.
fn talk(comparison: &mut Comparison, more: usize) -> io::Result<Option<String>> {
    let mut child = comparison.program.start(Stdio::piped(), Stdio::piped())?;
    let mut input = child.stdin.take().expect("the input is a pipe");
    let output = BufReader::new(child.stdout.take().expect("the output is a pipe"));
    let (sender, receiver) = mpsc::channel();
    let reader = thread::spawn(move || {
        // Nobody waits for lines behind one that was wrong.
        output.lines().map_while(Result::ok).try_for_each(|line| sender.send(line))
    });
    let file = session(&vec![hex("84 11"); 6]);
    let mut handed = 0;
    let fault = (1..=5).find_map(|number| {
        let end = OPENING.len() + 4 * number + more;
        if let Err(error) = input.write_all(&file[handed..end.min(file.len())]) {
            return Some(error.to_string());
        }
        handed = end;
        match receiver.recv_timeout(LIMIT) {
            Ok(line) if line == format!("{number} 0 00 01 00 00") => None,
            Ok(line) => Some(format!("line {number} is '{line}'")),
            Err(_) => Some(format!("no line {number} within {} seconds", LIMIT.as_secs())),
        }
    });
    program::stop(&mut child);
    // It has nothing to tell: its lines were judged as they came.
    let _ = reader.join();
    Ok(fault)
}

/// A session of many bytes takes no more memory than one of few.
pub fn fixed_memory(comparison: &mut Comparison) {
    comparison.report.inputs += 1;
    let fault = grown(comparison).unwrap_or_else(|error| Some(error.to_string()));
    comparison.report.expect(fault.is_none(), || fault.unwrap_or_default());
}

/// What is wrong with the memory used after 48 MiB, against 1 MiB.
fn grown(comparison: &mut Comparison) -> io::Result<Option<String>> {
    /// In KiB: much less than what is fed.
    const MORE: u64 = 512;
    let mut child = comparison.program.start(Stdio::piped(), Stdio::null())?;
    let mut pipe = child.stdin.take().expect("the input is a pipe");
    let number = child.id();
    let (used, outcome) = thread::scope(|scope| {
        let feeding = scope.spawn(move || {
            let repeated = session_files::repeated();
            pipe.write_all(&OPENING)?;
            let mut used = |bytes: usize| {
                (0..bytes / repeated.len()).try_for_each(|_| pipe.write_all(&repeated))?;
                most_memory(number)
            };
            Ok((used(1 << 20)?, used(48 << 20)?))
        });
        let outcome = program::finish(&mut child);
        (feeding.join().expect("it does not panic"), outcome)
    });
    Ok(match (outcome, used) {
        (Err(said), _) => Some(said),
        (_, Err(error)) => return Err(error),
        (_, Ok((before, after))) if after > before + MORE => {
            Some(format!("memory grows from {before} to {after} KiB"))
        }
        _ => None,
    })
}

/// The most memory that the program of this number has had so far, in KiB.
fn most_memory(number: u32) -> io::Result<u64> {
    let status = fs::read_to_string(format!("/proc/{number}/status"))?;
    let line = status.lines().find_map(|line| line.strip_prefix("VmHWM:"));
    line.and_then(|line| line.trim().strip_suffix(" kB")?.parse().ok())
        .ok_or_else(|| io::Error::other("no VmHWM in the program's status"))
}
