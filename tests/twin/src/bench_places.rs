//! Where a packet's fault is, by hand, on the twin itself.

use crate::command::{judge_lists, Opcode};
use crate::front_end::{self, Answer, Memory};
use crate::packet::{self, Header};
use crate::refusal::{Refusal, Refused};
use crate::scripts::{hex, SCRIPTS};

/// A packet's refusal, the same from reading, from making and from the front end; none if it is
/// accepted.
fn refused(packet: &[u8]) -> Option<Refused> {
    let refused = packet::read(packet).err();
    let header = Header::from_byte(packet[0]);
    let data =
        &packet[header.options.data_offset()..packet.len() - usize::from(header.options.checksum_present)];
    let made = packet::make(header, packet[1].into(), data, &mut [0; 512]);
    assert_eq!(made.err(), refused, "{packet:02X?}");
    let Answer { status, place, .. } = front_end::packet(packet, Memory::default().lend(), &mut [0; 512]);
    let due = refused.map_or((0, 0), |refused| (refused.number(), refused.place));
    assert_eq!((status, place), due, "{packet:02X?}");
    refused
}

/// Refusal 10 with this place.
fn at(place: usize) -> Option<Refused> {
    Some(Refused { refusal: Refusal::Range, place: place as u16 })
}

/// A write with a length field.
fn write(opcode: Opcode, data: &[u8]) -> Vec<u8> {
    [&[0x14, opcode.number()][..], &(data.len() as u16).to_le_bytes(), data].concat()
}

fn bytes(words: &[u16]) -> Vec<u8> {
    words.iter().flat_map(|word| word.to_le_bytes()).collect()
}

#[test]
fn scripts_name_their_places() {
    let mut named = 0;
    for (packet, _, reply) in SCRIPTS.iter().flat_map(|script| script.steps) {
        if let [10, 2, 0, low, high, ..] = hex(reply)[..] {
            assert_eq!(refused(&hex(packet)), at(u16::from_le_bytes([low, high]).into()), "{packet}");
            named += 1;
        }
    }
    assert!(named > 100, "{named}");
}

#[test]
fn a_reply_of_10_carries_the_place() {
    let reply = |packet: &str| {
        let mut reply = [0xAA; 512];
        let answer = front_end::packet(&hex(packet), Memory::default().lend(), &mut reply);
        assert!(reply[answer.length..].iter().all(|byte| *byte == 0xAA));
        (answer.status, answer.place, reply[..answer.length].to_vec())
    };
    assert_eq!(reply("04 6D 00 00 00 00 00 03 00 00 00 00 00"), (10, 5, vec![]));
    assert_eq!(reply("44 6D 00 00 00 00 00 03 00 00 00 00 00"), (10, 5, hex("0A 02 00 05 00")));
    assert_eq!(reply("A4 2B 01 00 00 00 00 83"), (10, 3, hex("0A 02 00 03 00 40")));
    // The place takes both bytes.
    let last = "54 2B FC 01 00 00 FB 00 00 00 0000*250 0020";
    assert_eq!(reply(last), (10, 506, hex("0A 02 00 FA 01")));
}

#[test]
fn other_refusals_have_no_place() {
    for (packet, refusal) in [
        ("04", Refusal::TooShort),
        ("14 6D 03 00 03", Refusal::Length),
        ("24 11 05 00", Refusal::Checksum),
        ("03 11 05", Refusal::Destination),
        ("04 10 05", Refusal::Opcode),
    ] {
        assert_eq!(packet::read(&hex(packet)).err(), Some(Refused { refusal, place: 0 }), "{packet}");
    }
    for (packet, refusal) in [
        ("04 35 02", Refusal::LengthMissing),
        ("04 6D 03 02 0C", Refusal::Size),
        ("14 2B 08 00 02 04 02 00 00 00 00 20", Refusal::Size),
        ("04 39 01", Refusal::NotCarried),
    ] {
        assert_eq!(refused(&hex(packet)), Some(Refused { refusal, place: 0 }), "{packet}");
    }
    let past = front_end::packet(&hex("84 34 C0 07 01 00"), Memory::default().lend(), &mut [0; 512]);
    assert_eq!(past, Answer { status: 12, length: 3, place: 0 });
}

#[test]
fn entries_of_lists() {
    let rising: Vec<u16> = (10..72).chain(10..42).collect();
    let packet = |entries: &[u16]| write(Opcode::ControlPoints, &[&[1][..], &bytes(entries)].concat());
    assert_eq!(refused(&packet(&rising)), None);
    for place in (1..62).chain(63..94) {
        for below in [0, 1, 9] {
            let mut entries = rising.clone();
            entries[place] = entries[place - 1] - below;
            assert_eq!(refused(&packet(&entries)), at(1 + 2 * place), "entry {place}");
            // What is wrong further on doesn't count.
            entries[93] = 0;
            assert_eq!(refused(&packet(&entries)), at(1 + 2 * place), "entry {place}");
        }
    }
}

/// The refusal of lists alone, the same as of the write that has them.
fn refused_alone(lists: &[u8]) -> Option<Refused> {
    let alone = judge_lists(lists).err();
    let write = write(Opcode::ControlPoints, &[&[1], lists].concat());
    assert_eq!(alone, refused(&write), "{lists:02X?}");
    alone
}

#[test]
fn entries_of_lists_alone() {
    let rising: Vec<u16> = (500..562).chain(500..532).collect();
    assert_eq!(refused_alone(&bytes(&rising)), None);
    for place in (1..62).chain(63..94) {
        for below in [0, 1, 256, 499] {
            let mut entries = rising.clone();
            entries[place] = entries[place - 1] - below;
            assert_eq!(refused_alone(&bytes(&entries)), at(1 + 2 * place), "entry {place}");
            // What is wrong further on doesn't count.
            entries[93] = 0;
            assert_eq!(refused_alone(&bytes(&entries)), at(1 + 2 * place), "entry {place}");
        }
    }
}

#[test]
fn border_of_lists_alone() {
    for first_row in [0, 60, 61, 62, 65_504] {
        let entries: Vec<u16> = (0..62).chain((0..32).map(|row| first_row + row)).collect();
        assert_eq!(refused_alone(&bytes(&entries)), None, "rows from {first_row} on");
    }
    let falling: Vec<u16> = (0..94).rev().collect();
    assert_eq!(refused_alone(&bytes(&falling)), at(3));
}

#[test]
fn sizes_of_lists_alone() {
    let rising: Vec<u8> = bytes(&Vec::from_iter(0..200));
    for size in (0..=rising.len()).filter(|size| *size != 188) {
        let due = Some(Refused { refusal: Refusal::Size, place: 0 });
        assert_eq!(refused_alone(&rising[..size]), due, "{size} bytes");
        assert_eq!(refused_alone(&vec![0; size]), due, "{size} bytes");
    }
    assert_eq!(refused_alone(&rising[..188]), None);
    assert_eq!(refused_alone(&[0; 188]), at(3));
}

#[test]
fn words_of_gains() {
    for count in [1, 2, 3, 250, 251] {
        for place in 0..count {
            let mut words = vec![8191; count];
            words[place] = 8192;
            let head = [0, 0, count as u8, 0, 0, 0];
            let packet = write(Opcode::Gains, &[&head[..], &bytes(&words)].concat());
            assert_eq!(refused(&packet), at(6 + 2 * place), "word {place} of {count}");
        }
    }
}

#[test]
fn words_of_pairs() {
    for pairs in [1, 2, 3, 125] {
        for place in 0..2 * pairs {
            for other in if place % 2 == 0 { [0, 2017] } else { [8192, 0xFFFF] } {
                let mut words = [16, 8191].repeat(pairs);
                words[place] = other;
                let head = [1, 3, 2 * pairs as u8, 0, 0, 0];
                let packet = write(Opcode::Gains, &[&head[..], &bytes(&words)].concat());
                assert_eq!(refused(&packet), at(6 + 2 * place), "word {place} of {pairs} pairs");
            }
        }
    }
}
