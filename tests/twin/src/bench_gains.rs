//! Compressor and splitter by hand, on the twin itself.

use crate::compressor::{self, PAIRS_BYTES};
use crate::refusal::Refusal;
use crate::scripts::hex;
use crate::splitter::{self, Split};

/// The pairs of these gains, all in hex; what lies behind them is unchanged.
fn compressed(gains: &[u8]) -> Vec<u8> {
    let mut pairs = vec![0xAA; PAIRS_BYTES + 3];
    let count = compressor::compress(gains, &mut pairs).expect("the gains are right");
    assert!(pairs[4 * count..].iter().all(|byte| *byte == 0xAA));
    pairs.truncate(4 * count);
    pairs
}

#[test]
fn gains_compress_to_their_runs() {
    for (gains, pairs) in [
        ("0010", "0100 0010"),
        ("0010*2016", "E007 0010"),
        ("0000 FF1F*3 0100 0000*2", "0100 0000 0300 FF1F 0100 0100 0200 0000"),
        ("0100 0001 0100", "0100 0100 0100 0001 0100 0100"),
    ] {
        assert_eq!(compressed(&hex(gains)), hex(pairs), "{gains}");
    }
    let different: Vec<u8> = (0..2016_u16).flat_map(u16::to_le_bytes).collect();
    assert_eq!(compressed(&different).len(), 8064);
}

#[test]
fn compressing_refuses_in_order() {
    let refusal = |gains: &[u8], room: usize| {
        let mut pairs = vec![0xAA; room];
        let refusal = compressor::compress(gains, &mut pairs);
        assert_eq!(refusal.is_err(), pairs.iter().all(|byte| *byte == 0xAA));
        refusal.map_or_else(Refusal::number, |_| 0)
    };
    for (gains, due) in [
        ("", 10),
        ("01", 10),
        ("01 00 02", 10),
        ("0100*2017", 10),
        ("0020", 10),
        ("0100*2015 0020", 10),
        ("0100*2016", 0),
        ("FF1F", 0),
    ] {
        assert_eq!(refusal(&hex(gains), 8064), due, "{gains}");
        assert_eq!(refusal(&hex(gains), 8063), if due == 0 { 1 } else { due }, "{gains}");
        assert_eq!(refusal(&hex(gains), 9001), due, "{gains}");
    }
}

/// The packets of these pairs, all in hex; what lies behind them is unchanged.
fn split(colour: u32, start: u32, pairs: &str) -> (Split, Vec<u8>) {
    let mut batch = vec![0xAA; 8234 + 5];
    let split = splitter::split(colour, start, &hex(pairs), &mut batch).expect("the pairs are right");
    assert!(batch[split.bytes..].iter().all(|byte| *byte == 0xAA));
    batch.truncate(split.bytes);
    (split, batch)
}

#[test]
fn pairs_split_into_packets() {
    let due = |packets, bytes| Split { packets, bytes };
    let (one, batch) = split(2, 7, "0300 0010");
    assert_eq!((one, batch), (due(1, 14), hex("14 2B 0A 00 01 02 02 00 07 00 0300 0010")));
    assert_eq!(
        split(3, 0, "0200 0010 0100 0500").1,
        hex("14 2B 0E 00 01 03 04 00 00 00 0200 0010 0100 0500")
    );
    assert_eq!(split(0, 0, "01000100*125").0, due(1, 510));
    let (two, batch) = split(1, 300, "02000100*125 0400 0500");
    assert_eq!(two, due(2, 524));
    assert_eq!(batch[..12], hex("14 2B FA 01 01 01 FA 00 2C 01 02 00"));
    // 250 gains further on.
    assert_eq!(batch[510..], hex("14 2B 0A 00 01 01 02 00 26 02 0400 0500"));
    assert_eq!(split(1, 0, "01000100*2016").0, due(17, 8234));
}

#[test]
fn splitting_refuses_in_order() {
    let refusal = |colour, start, pairs: &[u8], room: usize| {
        let mut batch = vec![0xAA; room];
        let refusal = splitter::split(colour, start, pairs, &mut batch);
        assert_eq!(refusal.is_err(), batch.iter().all(|byte| *byte == 0xAA));
        refusal.map_or_else(Refusal::number, |_| 0)
    };
    for (colour, start, pairs, due) in [
        (4, u32::MAX, "00 00 00", 9),
        (4, u32::MAX, "", 10),
        (0, 0, "", 10),
        (4, 2016, "0100 0100", 10),
        (256, 0, "0100 0100", 10),
        (0, 2016, "0000 0100", 10),
        (0, 0, "E107 0100", 10),
        (0, 0, "0100 0020", 10),
        (0, 0, "01000100*2017", 12),
        (3, 2016, "0100 0100", 12),
        (3, u32::MAX, "0100 0100", 12),
        (3, 0x1_0000, "0100 0100", 12),
        (3, 0, "E0070100*32 0004 0100", 12),
        (3, 2015, "0100 0100", 0),
    ] {
        assert_eq!(refusal(colour, start, &hex(pairs), 8234), due, "{colour}, {start}, {pairs}");
        let short = refusal(colour, start, &hex(pairs), 8233);
        assert_eq!(short, if due == 0 { 1 } else { due }, "{colour}, {start}, {pairs}");
    }
}
