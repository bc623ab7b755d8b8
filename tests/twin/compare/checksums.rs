//! Groups on the checksum (rule 2.5): packets and replies of many lengths, each byte changed.

use twin::command::Opcode;
use twin::fields::checksum;
use twin::packet::LONGEST;

use crate::bench::Bench;
use crate::random::Random;
use crate::recipe::Packet;

/// A length field and a checksum, and a two-byte opcode too.
const HEADERS: [u8; 2] = [0x34, 0x3C];

/// Packets of every length from 13 to 512 bytes: 2Bh writes of 1 to 250 gains. And the largest sums:
/// 34h writes of 1 to 126 points, all bits set.
pub fn of_packets(bench: &mut Bench) {
    for (points, header) in (1..=126).flat_map(|points| HEADERS.map(|header| (points, header))) {
        let mut packet = Packet::new(header, Opcode::Map.number().into(), vec![0xFF; 2 + 4 * points]);
        bench.read(&packet.bytes());
        packet.checksum_error = bench.random.byte_within(1..=255);
        bench.read(&packet.bytes());
    }
    for (gains, header) in (1..=250_u16).flat_map(|gains| HEADERS.map(|header| (gains, header))) {
        let words: Vec<u8> = (0..gains).flat_map(|_| (bench.random.word() & 0x1FFF).to_le_bytes()).collect();
        let data = [&[0, 1][..], &gains.to_le_bytes(), &[0, 0], &words].concat();
        let packet = Packet::new(header, Opcode::Gains.number().into(), data).bytes();
        bench.read(&packet);
        for changed in changed(&mut bench.random, &packet) {
            bench.read(&changed);
        }
    }
}

/// Replies of every length, with any data and with data of all bits set.
pub fn of_replies(bench: &mut Bench) {
    for size in 0..=LONGEST - 4 {
        let status = bench.random.byte_within(0..=12);
        let reply_with = |data: Vec<u8>| {
            let mut reply = [&[status][..], &(size as u16).to_le_bytes(), &data].concat();
            reply.push(checksum(&reply));
            reply
        };
        bench.read_reply(&reply_with(vec![0xFF; size]), 1);
        let reply = reply_with(bench.random.bytes(size));
        bench.read_reply(&reply, 1);
        for changed in changed(&mut bench.random, &reply) {
            bench.read_reply(&changed, 1);
        }
    }
}

/// Bytes that end in their checksum, with another sum in its place, with one byte changed, and with
/// two neighbours exchanged.
fn changed(random: &mut Random, sound: &[u8]) -> Vec<Vec<u8>> {
    let (last, before) = sound.split_last().expect("a checksum");
    let mut all: Vec<Vec<u8>> =
        other_sums(before, *last).iter().map(|sum| [before, &[*sum]].concat()).collect();
    for place in 0..sound.len() {
        for change in [0x01, 0x80, random.byte_within(1..=255)] {
            let mut bytes = sound.to_vec();
            bytes[place] ^= change;
            all.push(bytes);
        }
        if place + 1 < sound.len() {
            let mut bytes = sound.to_vec();
            bytes.swap(place, place + 1);
            all.push(bytes);
        }
    }
    all
}

/// What could be taken for the checksum: the first sum; the second without its last step, without its
/// first byte, and from the other end; both modulo 255; the next byte of the second; its complement;
/// and what brings the second to 0.
fn other_sums(bytes: &[u8], sum: u8) -> [u8; 9] {
    let first: u32 = bytes.iter().copied().map(u32::from).sum();
    let backwards: Vec<u8> = bytes.iter().rev().copied().collect();
    let weights = (1..=bytes.len() as u32).rev();
    let second: u32 = bytes.iter().zip(weights).map(|(byte, weight)| weight * u32::from(*byte)).sum();
    [
        first.to_le_bytes()[0],
        checksum(&bytes[..bytes.len() - 1]),
        checksum(&bytes[1..]),
        checksum(&backwards),
        (first % 255) as u8,
        (second % 255) as u8,
        second.to_le_bytes()[1],
        !sum,
        (first + second).wrapping_neg().to_le_bytes()[0],
    ]
}
