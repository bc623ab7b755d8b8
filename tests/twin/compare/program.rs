//! The replay as a program: how a file is handed to it, and what it does.

use std::env;
use std::ffi::{c_int, c_uint, c_ulong};
use std::fs::{self, File};
use std::io::{self, Read, Write};
use std::os::fd::AsRawFd;
use std::os::unix::net::UnixDatagram;
use std::os::unix::process::ExitStatusExt;
use std::path::PathBuf;
use std::process::{self, Child, ChildStdin, Command, ExitStatus, Stdio};
use std::sync::atomic::{AtomicBool, Ordering};
use std::sync::mpsc;
use std::thread;
use std::time::{Duration, Instant};

/// Names the program.
const VARIABLE: &str = "VERMOLGAS_REPLAY";

/// A run may take so long. It is a small part of this that one takes.
pub const LIMIT: Duration = Duration::from_secs(10);

/// After so many runs that were stopped at the limit no more are started.
const STOPS: u32 = 3;

/// How a file is handed over.
#[derive(Clone, Debug)]
pub enum Feed {
    /// As a file: a read gets as many bytes as it asks for.
    File,
    /// By a pipe that is written in parts of so many bytes; a read gets what has come so far.
    Pipe(usize),
    /// By a pipe that is written again once it has been emptied: a read gets one part and no more. The
    /// parts have these sizes, in turn.
    Parts(Vec<usize>),
}

/// What a run gave.
pub struct Outcome {
    pub output: Vec<u8>,
    pub errors: Vec<u8>,
    pub status: ExitStatus,
}

impl Outcome {
    /// Ended by itself with status 0.
    pub fn is_zero(&self) -> bool {
        self.status.code() == Some(0)
    }

    /// Ended by the signal for a pipe that nobody reads.
    pub fn is_broken_pipe(&self) -> bool {
        const SIGPIPE: i32 = 13;
        self.status.signal() == Some(SIGPIPE)
    }
}

pub struct Program {
    path: PathBuf,
    /// Where a file lies that is handed over as one.
    scratch: PathBuf,
    stops: u32,
}

impl Program {
    /// The program that the environment names.
    pub fn from_environment() -> Result<Self, String> {
        let path = env::var_os(VARIABLE)
            .map(PathBuf::from)
            .ok_or_else(|| format!("{VARIABLE} is not set: it names the program that replays a session"))?;
        if !path.is_file() {
            return Err(format!("{VARIABLE}: no file {}", path.display()));
        }
        let scratch = env::temp_dir().join(format!("compare_replay.{}", process::id()));
        Ok(Program { path, scratch, stops: 0 })
    }

    /// Starts the program.
    pub fn start(&self, input: Stdio, output: Stdio) -> io::Result<Child> {
        Command::new(&self.path).stdin(input).stdout(output).stderr(Stdio::piped()).spawn()
    }

    /// Replays a file.
    pub fn run(&mut self, file: &[u8], feed: &Feed) -> Result<Outcome, String> {
        match feed {
            Feed::File => {
                fs::write(&self.scratch, file).map_err(|error| error.to_string())?;
                let input = File::open(&self.scratch).map_err(|error| error.to_string())?;
                self.run_on(input.into())
            }
            // The program may end ahead of the file.
            Feed::Pipe(part) => self.run_with(Stdio::piped(), |pipe, _| {
                pipe.map(|mut pipe| file.chunks(*part).try_for_each(|part| pipe.write_all(part)));
            }),
            Feed::Parts(sizes) => self.run_with(Stdio::piped(), |pipe, ended| {
                pipe.map(|pipe| write_parts(pipe, file, sizes, ended));
            }),
        }
    }

    /// Runs on an input that is there.
    pub fn run_on(&mut self, input: Stdio) -> Result<Outcome, String> {
        self.run_with(input, |_, _| ())
    }

    /// Runs on an input that `fill` fills meanwhile, if it is a pipe; that is told when the program has
    /// ended.
    fn run_with(
        &mut self,
        input: Stdio,
        fill: impl FnOnce(Option<ChildStdin>, &AtomicBool) + Send,
    ) -> Result<Outcome, String> {
        if self.stops == STOPS {
            return Err(format!("not run: {STOPS} runs have been stopped"));
        }
        let mut child = self.start(input, Stdio::piped()).map_err(|error| error.to_string())?;
        let pipe = child.stdin.take();
        let ended = AtomicBool::new(false);
        let outcome = thread::scope(|scope| {
            scope.spawn(|| fill(pipe, &ended));
            let outcome = finish(&mut child);
            ended.store(true, Ordering::Relaxed);
            outcome
        });
        if outcome.is_err() {
            self.stops += 1;
        }
        outcome
    }
}

impl Drop for Program {
    fn drop(&mut self) {
        // It is there if some file was handed over as one.
        let _ = fs::remove_file(&self.scratch);
    }
}

/// Writes a file in parts, each once the pipe is empty.
fn write_parts(mut pipe: ChildStdin, file: &[u8], sizes: &[usize], ended: &AtomicBool) -> io::Result<()> {
    let mut rest = file;
    for size in sizes.iter().cycle() {
        if rest.is_empty() {
            break;
        }
        let (part, more) = rest.split_at(rest.len().min(*size));
        pipe.write_all(part)?;
        rest = more;
        while unread(&pipe)? > 0 && !ended.load(Ordering::Relaxed) {
            thread::yield_now();
        }
    }
    Ok(())
}

/// How many bytes in a pipe wait for being read.
fn unread(pipe: &ChildStdin) -> io::Result<c_int> {
    extern "C" {
        fn ioctl(descriptor: c_int, request: c_ulong, ...) -> c_int;
    }
    /// On Linux.
    const FIONREAD: c_ulong = 0x541B;
    let mut count: c_int = 0;
    // SAFETY: the descriptor is open, and with this request one int is written.
    match unsafe { ioctl(pipe.as_raw_fd(), FIONREAD, &mut count as *mut c_int) } {
        0 => Ok(count),
        _ => Err(io::Error::last_os_error()),
    }
}

/// Lets a socket take no more than a few thousand bytes at once.
pub fn narrow(socket: &UnixDatagram) -> io::Result<()> {
    extern "C" {
        fn setsockopt(
            descriptor: c_int,
            level: c_int,
            option: c_int,
            value: *const c_int,
            length: c_uint,
        ) -> c_int;
    }
    /// On Linux.
    const SOL_SOCKET: c_int = 1;
    const SO_SNDBUF: c_int = 7;
    let size: c_int = 4096;
    // SAFETY: the descriptor is open, and one int of the length given is read.
    let status = unsafe { setsockopt(socket.as_raw_fd(), SOL_SOCKET, SO_SNDBUF, &size, 4) };
    if status == 0 {
        Ok(())
    } else {
        Err(io::Error::last_os_error())
    }
}

/// Takes all that a program prints, and waits for its end; stops it at the limit.
pub fn finish(child: &mut Child) -> Result<Outcome, String> {
    let (mut output, mut errors) = (child.stdout.take(), child.stderr.take());
    let (sender, receiver) = mpsc::channel();
    thread::scope(|scope| {
        scope.spawn(move || {
            let read = (read_all(output.as_mut()), read_all(errors.as_mut()));
            // Nobody waits any more if the limit has passed.
            let _ = sender.send(read);
        });
        let printed = receiver.recv_timeout(LIMIT).ok();
        let ended = printed.is_some().then(|| wait(child)).flatten();
        match (printed, ended) {
            (Some((output, errors)), Some(status)) => Ok(Outcome { output, errors, status }),
            _ => {
                stop(child);
                Err(format!("stopped after {} seconds", LIMIT.as_secs()))
            }
        }
    })
}

/// All that comes from one of the program's outputs, if it is read here.
fn read_all(from: Option<&mut impl Read>) -> Vec<u8> {
    let mut bytes = Vec::new();
    // What came before a failure is compared.
    let _ = from.map(|from| from.read_to_end(&mut bytes));
    bytes
}

/// Waits for a program that has closed its outputs.
pub fn wait(child: &mut Child) -> Option<ExitStatus> {
    let start = Instant::now();
    loop {
        match child.try_wait() {
            Ok(Some(status)) => return Some(status),
            Ok(None) if start.elapsed() < LIMIT => thread::sleep(Duration::from_micros(100)),
            _ => return None,
        }
    }
}

/// Ends a program that does not end by itself.
pub fn stop(child: &mut Child) {
    // It may have ended by now.
    let _ = child.kill();
    let _ = child.wait();
}
