//! Makes the session files of tests/sessions: for each row of the table `NAME.pjl`, what its replay
//! prints as `NAME.expected`, and an index. From the repository's folder:
//!
//! - `make_sessions tests/sessions` writes them;
//! - `make_sessions --check tests/sessions` compares what is stored with what would be written;
//! - `make_sessions --stream BYTES` writes so many bytes of one long session to standard output, and to
//!   standard error the last line that its replay prints.

#[allow(dead_code, reason = "packets are made of values, not of random numbers")]
mod generate;
#[allow(dead_code, reason = "packets are made of values, not of random numbers")]
mod random;
#[allow(dead_code, reason = "packets are made of values, not of random numbers")]
mod recipe;
mod session_files;

use std::collections::{BTreeMap, BTreeSet};
use std::ffi::OsString;
use std::fs;
use std::io::{self, Write};
use std::path::Path;
use std::process::ExitCode;

use session_files::SessionFile;
use twin::replay::{replay, OPENING};

const USAGE: &str = "make_sessions FOLDER | make_sessions --check FOLDER | make_sessions --stream BYTES";

const INDEX: &str = "README.md";

/// The index's words ahead of its list.
const INDEX_HEAD: &str = "\
# Session files

`NAME.pjl` is a session file, and `NAME.expected` is what `replay < NAME.pjl` prints (docs/RULES.md, section 9). All files here, this page too, are
made by `make_sessions` of tests/twin, from its table compare/session_files.rs and the scripts of src/scripts.rs; the gate compares them with it, and
replays each.

";

fn main() -> ExitCode {
    let arguments: Vec<OsString> = std::env::args_os().skip(1).collect();
    let done = match &arguments[..] {
        [option, folder] if option == "--check" => return check(Path::new(folder)),
        [option, bytes] if option == "--stream" => {
            match bytes.to_str().and_then(|bytes| bytes.parse().ok()) {
                Some(bytes) => stream(bytes),
                None => Err(format!("not a number of bytes: {}", bytes.display())),
            }
        }
        [folder] if !folder.as_encoded_bytes().starts_with(b"-") => make(Path::new(folder)),
        _ => Err(format!("usage: {USAGE}")),
    };
    match done {
        Ok(()) => ExitCode::SUCCESS,
        Err(said) => {
            eprintln!("{said}");
            ExitCode::from(2)
        }
    }
}

/// Every file by its name.
fn contents(files: &[SessionFile]) -> BTreeMap<String, Vec<u8>> {
    let mut index = INDEX_HEAD.to_string();
    let mut contents = BTreeMap::new();
    for file in files {
        index += &format!("- `{}`: {}\n", file.name, file.shows);
        contents.insert(format!("{}.pjl", file.name), file.bytes.clone());
        contents.insert(format!("{}.expected", file.name), file.text.clone().into_bytes());
    }
    contents.insert(INDEX.to_string(), index.into_bytes());
    contents
}

/// Writes all files into a folder that is there.
fn make(folder: &Path) -> Result<(), String> {
    if !folder.is_dir() {
        return Err(format!("not a folder: {}", folder.display()));
    }
    let files = session_files::all();
    if let Some(file) = files.iter().find(|file| !agrees(file)) {
        return Err(format!("{}: the twin's replay prints something else; nothing is written", file.name));
    }
    let contents = contents(&files);
    for (name, bytes) in &contents {
        let path = folder.join(name);
        fs::write(&path, bytes).map_err(|error| format!("{}: {error}", path.display()))?;
    }
    println!("{} files", contents.len());
    Ok(())
}

/// Whether the twin's replay prints what the table says.
fn agrees(file: &SessionFile) -> bool {
    let mut text = Vec::new();
    replay(&file.bytes[..], &mut text).is_ok() && text == file.text.as_bytes()
}

/// Compares the folder's files with what would be written, and the table with the twin's replay.
fn check(folder: &Path) -> ExitCode {
    let files = session_files::all();
    let contents = contents(&files);
    let (mut passed, mut failed) = (0, 0);
    let mut close = |fault: Option<String>| match fault {
        None => passed += 1,
        Some(said) => {
            failed += 1;
            println!("FAILED {said}");
        }
    };
    for file in &files {
        close((!agrees(file)).then(|| format!("{}: the twin's replay prints something else", file.name)));
    }
    for (name, bytes) in &contents {
        let path = folder.join(name);
        close(match fs::read(&path) {
            Err(error) => Some(format!("{}: {error}", path.display())),
            Ok(stored) => (stored != *bytes).then(|| format!("{}: not as it is made", path.display())),
        });
    }
    for name in stored(folder).into_iter().filter(|name| !contents.contains_key(name)) {
        close(Some(format!("{}: not in the table", folder.join(name).display())));
    }
    println!("{passed} passed, {failed} failed");
    ExitCode::from(u8::from(failed > 0))
}

/// The names in a folder; none if it is not there, for then each file is missed.
fn stored(folder: &Path) -> BTreeSet<String> {
    let entries = fs::read_dir(folder).into_iter().flatten().flatten();
    entries.map(|entry| entry.file_name().to_string_lossy().into_owned()).collect()
}

/// Writes so many bytes of a session that repeats the table's records, whatever they cut.
fn stream(bytes: u64) -> Result<(), String> {
    let repeated = session_files::repeated();
    let mut output = io::stdout().lock();
    let mut left = bytes;
    let mut next = &OPENING[..];
    while left > 0 {
        let part = &next[..next.len().min(usize::try_from(left).unwrap_or(usize::MAX))];
        output.write_all(part).map_err(|error| format!("standard output: {error}"))?;
        left -= part.len() as u64;
        next = &repeated;
    }
    output.flush().map_err(|error| format!("standard output: {error}"))?;
    eprintln!("{}", closing_line(bytes, &repeated));
    Ok(())
}

/// The last line that a replay of the first `bytes` bytes prints.
fn closing_line(bytes: u64, repeated: &[u8]) -> String {
    let Some(bytes) = bytes.checked_sub(OPENING.len() as u64) else {
        return "not a session".to_string();
    };
    let (rounds, rest) = (bytes / repeated.len() as u64, bytes % repeated.len() as u64);
    let (mut in_round, mut in_rest) = (0, 0);
    let mut place = 0;
    while place < repeated.len() {
        place += 2 + usize::from(u16::from_le_bytes([repeated[place], repeated[place + 1]]));
        in_round += 1;
        in_rest += u64::from(place as u64 <= rest);
    }
    format!("end {}", rounds * in_round + in_rest)
}
