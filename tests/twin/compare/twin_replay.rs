//! The twin's replay as a program: a session file on standard input, its lines on standard output.

use std::fs::File;
use std::io;
use std::os::fd::AsFd;

use twin::replay::replay;

fn main() {
    // By their descriptors: the standard handles take some failures for an end of the file.
    let input = io::stdin().as_fd().try_clone_to_owned().map(File::from);
    let output = io::stdout().as_fd().try_clone_to_owned().map(File::from);
    if let (Ok(input), Ok(output)) = (input, output) {
        // Rule 9.7: a write that fails ends the program, and no more is said.
        let _ = replay(input, output);
    }
}
