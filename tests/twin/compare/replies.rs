//! Groups on `vermolgas_read_reply`.

use twin::fields::checksum;
use twin::packet::LONGEST;
use twin::refusal::Refusal;
use twin::reply::{self, HEAD};

use crate::bench::Bench;
use crate::counts::OFTEN;
use crate::random::Random;

/// The refusals that reply reading gives.
pub const REFUSALS: [Refusal; 5] =
    [Refusal::TooShort, Refusal::TooLong, Refusal::Length, Refusal::Checksum, Refusal::Range];

/// What says that a checksum is expected: 0 no, any other yes.
const CHECKSUM: [u8; 4] = [0, 1, 2, 255];

/// A reply's fields, and what is wrong with them.
#[derive(Clone)]
struct Reply {
    status: u8,
    data: Vec<u8>,
    with_checksum: bool,
    length_error: u16,
    checksum_error: u8,
    kept: usize,
}

impl Reply {
    /// A reply without a fault, if the status is none.
    fn new(status: u8, data: Vec<u8>, with_checksum: bool) -> Self {
        Reply { status, data, with_checksum, length_error: 0, checksum_error: 0, kept: usize::MAX }
    }

    fn bytes(&self) -> Vec<u8> {
        let mut bytes = vec![self.status];
        bytes.extend((self.data.len() as u16).wrapping_add(self.length_error).to_le_bytes());
        bytes.extend(&self.data);
        if self.with_checksum {
            bytes.push(checksum(&bytes).wrapping_add(self.checksum_error));
        }
        bytes.truncate(self.kept);
        bytes
    }

    /// This reply with one more fault; none for a fault that no reply can have.
    fn spoilt(&self, random: &mut Random, fault: Refusal) -> Option<Self> {
        let mut reply = self.clone();
        match fault {
            Refusal::TooShort => reply.kept = random.below(3 + usize::from(self.with_checksum)),
            Refusal::TooLong => {
                let length = random.pick(&[513, 514, 600, 65_536, 65_539 + self.data.len(), 66_048]);
                let more = length.saturating_sub(self.bytes().len()).max(1);
                reply.data.extend(random.bytes(more));
            }
            Refusal::Length => reply.length_error = random.pick(&[1, 2, 0x100, 0x8000, 0xFF00, 0xFFFF]),
            Refusal::Checksum => {
                reply.with_checksum = true;
                reply.checksum_error = random.pick(&[1, 2, 0x80, 0xFF]);
            }
            Refusal::Range => reply.status = random.byte_within(13..=255),
            _ => return None,
        }
        Some(reply)
    }
}

/// A reply of any status, and whether it has a checksum.
fn reply(bench: &mut Bench, status: u8, with_checksum: bool) -> Reply {
    let most = LONGEST - HEAD - usize::from(with_checksum);
    let most = if bench.random.below(3) == 0 { most } else { 12 };
    let size = bench.random.within(0..=most as u32) as usize;
    Reply::new(status, bench.random.bytes(size), with_checksum)
}

/// Replies of every status, read with and without a checksum expected, whatever they have.
pub fn statuses(bench: &mut Bench) {
    for status in 0..=255 {
        for round in 0..2 * OFTEN {
            let reply = reply(bench, status, round % 2 == 0).bytes();
            for expected in CHECKSUM {
                bench.read_reply(&reply, expected);
            }
        }
    }
}

/// Replies with one thing changed, cut at every length, and longer.
pub fn damaged(bench: &mut Bench) {
    for round in 0..2000 {
        let status = bench.random.byte_within(0..=12);
        let whole = reply(bench, status, round % 2 == 0);
        let bytes = whole.bytes();
        let mut inputs: Vec<Vec<u8>> = (0..bytes.len()).map(|length| bytes[..length].to_vec()).collect();
        inputs.push([&bytes[..], &[bench.random.byte()]].concat());
        for bit in 0..8 * bytes.len().min(8) {
            let mut changed = bytes.clone();
            changed[bit / 8] ^= 1 << (bit % 8);
            inputs.push(changed);
        }
        for error in [1, 2, 0x100, 0x8000, 0xFF00, 0xFFFF] {
            inputs.push(Reply { length_error: error, ..whole.clone() }.bytes());
            inputs.push(Reply { checksum_error: error as u8, ..whole.clone() }.bytes());
        }
        for input in inputs {
            let expected = bench.random.pick(&CHECKSUM);
            bench.read_reply(&input, expected);
        }
    }
}

/// Replies near 512 bytes, and so long that 16 bits count the length of an accepted one.
pub fn long(bench: &mut Bench) {
    let totals = (505..=520).chain(0x1_0000..0x1_0000 + 600).chain(0x2_0000..0x2_0000 + 20);
    for total in totals {
        for with_checksum in [false, true] {
            let size = total - HEAD - usize::from(with_checksum);
            let status = bench.random.byte_within(0..=12);
            let reply = Reply::new(status, vec![status; size], with_checksum).bytes();
            for expected in CHECKSUM {
                bench.read_reply(&reply, expected);
            }
        }
    }
}

/// Two faults at once: the one tried first is answered.
pub fn order(bench: &mut Bench) {
    for (index, first) in REFUSALS.into_iter().enumerate() {
        for second in REFUSALS.into_iter().skip(index + 1) {
            if (first, second) == (Refusal::TooShort, Refusal::TooLong) {
                continue;
            }
            for round in 0..OFTEN {
                let random = &mut bench.random;
                let size = random.below(LONGEST - HEAD);
                let sound = Reply::new(0, random.bytes(size), round % 2 == 0);
                let one = sound.spoilt(random, second).expect("a reply can have it");
                let both = one.spoilt(random, first).expect("a reply can have it");
                for (reply, due) in [(one, second), (both, first)] {
                    let refusal = reply::read(&reply.bytes(), reply.with_checksum).err();
                    bench.expect(refusal == Some(due), || format!("twin: {refusal:?}, not {due:?}"));
                    bench.read_reply(&reply.bytes(), reply.with_checksum.into());
                }
            }
        }
    }
}

/// Uniformly random bytes, and such with a length that is right.
pub fn random_bytes(bench: &mut Bench) {
    for _ in 0..100_000 {
        let length = bench.random.below(10);
        let mut reply = bench.random.bytes(length);
        let expected = bench.random.byte() & bench.random.pick(&[0, 1, 0xFF]);
        bench.read_reply(&reply, expected);
        if let Some(size) = length.checked_sub(HEAD + usize::from(expected != 0)) {
            (reply[1], reply[2]) = (size as u8, 0);
            bench.read_reply(&reply, expected);
        }
    }
}
