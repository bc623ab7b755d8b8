//! Groups of comparisons: their lines, the mismatches shown, the closing line.

use std::process::ExitCode;

use crate::random::Random;

const SEED: u64 = 0x7665_726D_6F6C_6761;

/// Mismatches of a group that are shown.
const SHOWN: u64 = 5;

pub struct Report {
    seed: u64,
    pub inputs: u64,
    inputs_before: u64,
    mismatches: u64,
    passed: u64,
    failed: u64,
}

impl Report {
    /// Takes the seed from the one argument, if there is one, and prints it.
    pub fn from_arguments() -> Result<Self, ExitCode> {
        let seed = match std::env::args().nth(1).map(|text| text.parse()) {
            None => SEED,
            Some(Ok(seed)) => seed,
            Some(Err(error)) => {
                eprintln!("the seed is a number: {error}");
                return Err(ExitCode::from(2));
            }
        };
        println!("seed {seed}");
        Ok(Report { seed, inputs: 0, inputs_before: 0, mismatches: 0, passed: 0, failed: 0 })
    }

    /// Random numbers for what all groups share.
    pub fn shared_random(&self) -> Random {
        Random::new(!self.seed)
    }

    /// Starts a group, with random numbers of its own.
    pub fn start_group(&mut self) -> Random {
        self.inputs_before = self.inputs;
        self.mismatches = 0;
        Random::new(self.seed.wrapping_add(self.passed + self.failed))
    }

    /// Prints the line of a group.
    pub fn end_group(&mut self, name: &str) {
        let inputs = self.inputs - self.inputs_before;
        match self.mismatches {
            0 => self.close(name, true, &format!("{inputs} inputs")),
            mismatches => self.close(name, false, &format!("{mismatches} mismatches in {inputs} inputs")),
        }
    }

    /// Prints the line of a group or of a check on the counts.
    pub fn close(&mut self, name: &str, ok: bool, said: &str) {
        if ok {
            self.passed += 1;
            println!("ok {name}: {said}");
        } else {
            self.failed += 1;
            println!("FAILED {name}: {said}");
        }
    }

    /// Prints the closing line.
    pub fn finish(&self) -> ExitCode {
        println!("{} passed, {} failed", self.passed, self.failed);
        if self.failed == 0 {
            ExitCode::SUCCESS
        } else {
            ExitCode::FAILURE
        }
    }

    /// Counts a mismatch unless `holds`, and shows the first few.
    pub fn expect(&mut self, holds: bool, what: impl FnOnce() -> String) {
        if !holds {
            self.mismatches += 1;
            if self.mismatches <= SHOWN {
                println!("  {}", what());
            }
        }
    }
}

/// Bytes in hex, the first 80 of a longer input.
pub fn hex(bytes: &[u8]) -> String {
    let shown: Vec<String> = bytes.iter().take(80).map(|byte| format!("{byte:02X}")).collect();
    let rest = if bytes.len() > 80 { " ..." } else { "" };
    format!("[{}{rest}] ({} bytes)", shown.join(" "), bytes.len())
}
