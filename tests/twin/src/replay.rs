//! Session files and their replay (section 9 of docs/RULES.md): a recording of packets, taken one
//! after another from reset, and a line of text for each.

use std::io::{self, BufReader, BufWriter, ErrorKind, Read, Write};

use crate::front_end::{self, Memory};
use crate::packet::LONGEST;

/// The mark and the version that a session file begins with (rule 9.1).
pub const OPENING: [u8; 5] = *b"PJL\x01\x00";

/// The most bytes of a record. Each goes to the front end whole: that of an over-long one a part would
/// do (rule 9.5) is for the program to know.
const LONGEST_RECORD: usize = u16::MAX as usize;

/// How a replay came to its end.
#[derive(Clone, Copy, Debug, PartialEq, Eq)]
pub enum End {
    /// The file ends behind a record, or has none.
    Whole,
    /// It ends inside a record (rule 9.3).
    Cut,
    /// It begins otherwise than rule 9.1 says (rule 9.4).
    NotASession,
    /// A read has failed (rule 9.7).
    Unreadable,
}

/// What a replay leaves.
pub struct Replayed {
    pub end: End,
    /// How many records were whole.
    pub records: u64,
    /// The end state (rule 9.6).
    pub memory: Memory,
}

/// Replays a session file of any size, in fixed memory. A read that fails is told in the output; the
/// error is that of a write, after which nothing more is read (rule 9.7).
pub fn replay(input: impl Read, output: impl Write) -> io::Result<Replayed> {
    let mut replay = Replay {
        input: BufReader::with_capacity(1 << 16, input),
        output: BufWriter::with_capacity(1 << 16, output),
        records: 0,
        memory: Memory::default(),
    };
    let end = match replay.run() {
        Ok(end) => end,
        Err(Stop::Unreadable) => End::Unreadable,
        Err(Stop::Unwritable(error)) => return Err(error),
    };
    replay.print_end(end)?;
    replay.output.flush()?;
    Ok(Replayed { end, records: replay.records, memory: replay.memory })
}

/// Adds a record to a session file (rule 9.1).
pub fn push_record(file: &mut Vec<u8>, packet: &[u8]) {
    let length = u16::try_from(packet.len()).expect("a record's length has two bytes");
    file.extend(length.to_le_bytes());
    file.extend(packet);
}

/// The session file of these packets.
pub fn session<T: AsRef<[u8]>>(packets: &[T]) -> Vec<u8> {
    let mut file = OPENING.to_vec();
    for packet in packets {
        push_record(&mut file, packet.as_ref());
    }
    file
}

/// What a replay prints for the record of this number (rule 9.2).
pub fn print_line(output: &mut impl Write, number: u64, status: u8, reply: &[u8]) -> io::Result<()> {
    const DIGITS: &[u8; 16] = b"0123456789ABCDEF";
    write!(output, "{number} {status}")?;
    for byte in reply {
        let [high, low] = [byte >> 4, byte & 0xF].map(|digit| DIGITS[usize::from(digit)]);
        output.write_all(&[b' ', high, low])?;
    }
    output.write_all(b"\n")
}

/// What ends a replay ahead of the file's end.
enum Stop {
    Unreadable,
    Unwritable(io::Error),
}

impl From<io::Error> for Stop {
    fn from(error: io::Error) -> Self {
        Stop::Unwritable(error)
    }
}

struct Replay<R, W: Write> {
    input: BufReader<R>,
    output: BufWriter<W>,
    records: u64,
    memory: Memory,
}

impl<R: Read, W: Write> Replay<R, W> {
    /// The file from its first byte on; all lines but the closing ones.
    fn run(&mut self) -> Result<End, Stop> {
        if !self.opens()? {
            return Ok(End::NotASession);
        }
        let mut room = [0; LONGEST_RECORD];
        let mut reply = [0; LONGEST];
        loop {
            let mut length = [0; 2];
            match self.take(&mut length)? {
                0 => return Ok(End::Whole),
                1 => return Ok(End::Cut),
                _ => {}
            }
            let Some(packet) = self.record(u16::from_le_bytes(length), &mut room)? else {
                return Ok(End::Cut);
            };
            let answer = front_end::packet(packet, self.memory.lend(), &mut reply);
            self.records += 1;
            print_line(&mut self.output, self.records, answer.status, &reply[..answer.length])?;
        }
    }

    /// The mark and the version: the first byte that differs decides, whatever comes behind it (rule 9.4).
    fn opens(&mut self) -> Result<bool, Stop> {
        for due in OPENING {
            let mut byte = [0];
            if self.take(&mut byte)? == 0 || byte[0] != due {
                return Ok(false);
            }
        }
        Ok(true)
    }

    /// The record's bytes; none if the file ends before the record does.
    fn record<'a>(&mut self, length: u16, room: &'a mut [u8]) -> Result<Option<&'a [u8]>, Stop> {
        let packet = &mut room[..length.into()];
        let taken = self.take(packet)?;
        Ok((taken == packet.len()).then_some(packet))
    }

    /// Fills `room` from the file, as far as that goes, and gives the number of bytes. What was
    /// printed goes out ahead of each wait for more of the file.
    fn take(&mut self, room: &mut [u8]) -> Result<usize, Stop> {
        let mut taken = 0;
        while taken < room.len() {
            if self.input.buffer().is_empty() {
                self.output.flush()?;
            }
            match self.input.read(&mut room[taken..]) {
                Ok(0) => break,
                Ok(count) => taken += count,
                Err(error) if error.kind() == ErrorKind::Interrupted => {}
                Err(_) => return Err(Stop::Unreadable),
            }
        }
        Ok(taken)
    }

    /// The closing lines (rules 9.3, 9.4, 9.7).
    fn print_end(&mut self, end: End) -> io::Result<()> {
        let (output, records) = (&mut self.output, self.records);
        match end {
            End::Whole => writeln!(output, "end {records}"),
            End::Cut => writeln!(output, "{} cut\nend {records}", records + 1),
            End::NotASession => writeln!(output, "not a session"),
            End::Unreadable => writeln!(output, "unreadable"),
        }
    }
}

#[cfg(test)]
mod tests {
    use super::*;
    use crate::scripts::{hex, SCRIPTS};

    /// Written, read back, and refused.
    const EXAMPLE: [&str; 3] = ["04 11 01", "84 11", "04 1A 01"];

    fn packets(texts: &[&str]) -> Vec<Vec<u8>> {
        texts.iter().map(|text| hex(text)).collect()
    }

    /// What a file prints, and what its replay leaves.
    fn run(file: impl Read) -> (String, Replayed) {
        let mut text = Vec::new();
        let replayed = replay(file, &mut text).expect("a vector takes all");
        (String::from_utf8(text).expect("digits, blanks and words"), replayed)
    }

    fn text(file: &[u8]) -> String {
        run(file).0
    }

    /// What these packets print, in hex.
    fn text_of(texts: &[&str]) -> String {
        text(&session(&packets(texts)))
    }

    /// The state after packets taken one after another from reset.
    fn state_after<T: AsRef<[u8]>>(packets: &[T]) -> Memory {
        let mut memory = Memory::default();
        for packet in packets {
            front_end::packet(packet.as_ref(), memory.lend(), &mut [0; LONGEST]);
        }
        memory
    }

    /// Hands over so many bytes with each read, and fails at the end if it is to.
    struct Slow<'a> {
        rest: &'a [u8],
        step: usize,
        fails: bool,
    }

    impl Read for Slow<'_> {
        fn read(&mut self, room: &mut [u8]) -> io::Result<usize> {
            if self.rest.is_empty() && self.fails {
                return Err(io::Error::other("no more"));
            }
            let step = self.step.min(room.len()).min(self.rest.len());
            let (now, rest) = self.rest.split_at(step);
            room[..step].copy_from_slice(now);
            self.rest = rest;
            Ok(step)
        }
    }

    #[test]
    fn example() {
        assert_eq!(text_of(&EXAMPLE), "1 0\n2 0 00 01 00 01\n3 10\nend 3\n");
        assert_eq!(session(&packets(&EXAMPLE[..1])), hex("50 4A 4C 01 00 03 00 04 11 01"));
    }

    #[test]
    fn no_records_and_empty_ones() {
        assert_eq!(text_of(&[]), "end 0\n");
        assert_eq!(text_of(&[""]), "1 2\nend 1\n");
        assert_eq!(text_of(&["", "84 11", ""]), "1 2\n2 0 00 01 00 00\n3 2\nend 3\n");
    }

    #[test]
    fn cut_at_every_byte() {
        let file = session(&packets(&EXAMPLE));
        let lines = ["1 0\n", "2 0 00 01 00 01\n", "3 10\n"];
        // Where each record ends.
        let ends = [10, 14, 19];
        for length in 0..=file.len() {
            let whole = ends.iter().filter(|end| **end <= length).count();
            let due = match length {
                0..5 => "not a session\n".to_string(),
                5 | 10 | 14 | 19 => format!("{}end {whole}\n", lines[..whole].concat()),
                _ => format!("{}{} cut\nend {whole}\n", lines[..whole].concat(), whole + 1),
            };
            let (text, replayed) = run(&file[..length]);
            assert_eq!(text, due, "{length} bytes");
            let whole = if length < 5 { 0 } else { whole };
            assert_eq!(replayed.records, whole as u64);
            assert!(replayed.memory == state_after(&packets(&EXAMPLE[..whole])));
        }
    }

    #[test]
    fn other_marks_and_versions() {
        let file = session(&packets(&EXAMPLE));
        for place in 0..OPENING.len() {
            for change in 1..=255 {
                let mut other = file.clone();
                other[place] ^= change;
                let (text, replayed) = run(&other[..]);
                assert_eq!(text, "not a session\n", "{:02X?}", &other[..5]);
                assert_eq!((replayed.end, replayed.records), (End::NotASession, 0));
            }
        }
    }

    #[test]
    fn records_over_512_bytes_are_passed_over() {
        // Reading and reply requested, each alone and both, and the same with a checksum.
        for (header, reply) in [
            (0x04, ""),
            (0x44, " 03 00 00"),
            (0x84, " 03 00 00"),
            (0xC4, " 03 00 00"),
            (0x24, ""),
            (0x64, " 03 00 00 09"),
            (0xA4, " 03 00 00 09"),
            (0xE4, " 03 00 00 09"),
            (0x00, ""),
            (0x5F, " 03 00 00"),
        ] {
            for length in [513, 514, 1024, 1025, 1026, 65_534, 65_535] {
                let mut long = vec![0x11; length];
                long[0] = header;
                let packets = [&hex("04 11 03")[..], &long, &hex("84 11")];
                let (text, replayed) = run(&session(&packets)[..]);
                assert_eq!(text, format!("1 0\n2 3{reply}\n3 0 00 01 00 03\nend 3\n"), "{length} bytes");
                // The whole record, given to the front end, changes nothing either.
                assert!(replayed.memory == state_after(&packets));
            }
        }
    }

    #[test]
    fn records_of_512_bytes_are_taken() {
        let mut packet = hex("54 34 FC 01");
        packet.resize(512, 0);
        assert_eq!(text(&session(&[packet])), "1 9 09 00 00\nend 1\n");
    }

    #[test]
    fn long_records_that_are_cut() {
        let mut file = session(&[vec![0xE4; 1600]]);
        assert_eq!(text(&file), "1 3 03 00 00 09\nend 1\n");
        while file.len() > 6 {
            file.pop();
            assert_eq!(text(&file), "1 cut\nend 0\n", "{} bytes", file.len());
        }
    }

    #[test]
    fn scripts_print_their_answers() {
        for script in SCRIPTS {
            let packets: Vec<_> = script.steps.iter().map(|(packet, _, _)| hex(packet)).collect();
            let mut due = String::new();
            for (number, (_, status, reply)) in (1..).zip(script.steps) {
                let reply: String = hex(reply).iter().map(|byte| format!(" {byte:02X}")).collect();
                due += &format!("{number} {status}{reply}\n");
            }
            due += &format!("end {}\n", packets.len());
            let file = session(&packets);
            let (text, replayed) = run(&file[..]);
            assert_eq!(text, due, "{}", script.name);
            assert!(replayed.memory == state_after(&packets));
            for step in [1, 2, 3, 7] {
                let (slowly, _) = run(Slow { rest: &file, step, fails: false });
                assert_eq!(slowly, text, "{}, {step} bytes at a time", script.name);
            }
        }
    }

    #[test]
    fn reads_that_fail() {
        let file = session(&packets(&EXAMPLE));
        for (length, due) in [
            (0, "unreadable\n"),
            (4, "unreadable\n"),
            (5, "unreadable\n"),
            (9, "unreadable\n"),
            (10, "1 0\nunreadable\n"),
            (11, "1 0\nunreadable\n"),
            (19, "1 0\n2 0 00 01 00 01\n3 10\nunreadable\n"),
        ] {
            let (text, replayed) = run(Slow { rest: &file[..length], step: 4, fails: true });
            assert_eq!((&text[..], replayed.end), (due, End::Unreadable), "{length} bytes");
        }
    }

    #[test]
    fn writes_that_fail_end_the_replay() {
        /// Takes so many bytes.
        struct Full(usize);
        impl Write for Full {
            fn write(&mut self, bytes: &[u8]) -> io::Result<usize> {
                let taken = bytes.len().min(self.0);
                self.0 -= taken;
                Ok(taken)
            }
            fn flush(&mut self) -> io::Result<()> {
                Ok(())
            }
        }
        let endless = OPENING.chain(io::repeat(0));
        assert!(replay(endless, Full(1_000_000)).is_err());
        assert!(replay(&OPENING[..], Full(5)).is_err());
        assert!(replay(&OPENING[..], Full(6)).is_ok());
    }
}
