//! The row mark told from the bytes that are lent, point by point, and from the packet: what it has to be,
//! and which of its bits a packet works out.

use twin::block;
use twin::packet::Header;

fn word(bytes: &[u8], place: usize) -> usize {
    u16::from_le_bytes([bytes[place], bytes[place + 1]]).into()
}

/// The mark as it lies in a block.
pub fn of(block: &[u8]) -> u32 {
    u32::from_le_bytes(block[block::MARK].try_into().expect("the mark has four bytes"))
}

/// Columns and rows as staged.
pub fn shape(block: &[u8]) -> [usize; 2] {
    [word(block, 9), word(block, 11)]
}

/// The mode of the shape as staged: 1 if it is by lists.
pub fn mode(block: &[u8]) -> u8 {
    block[8]
}

/// The right mark: each point of the shape that differs from the live one marks the row that it is in.
pub fn right(block: &[u8], staged: &[u8], live: &[u8]) -> u32 {
    let [columns, rows] = shape(block);
    let mut mark = 0;
    for index in 0..columns * rows {
        let point = 4 * index..4 * index + 4;
        if staged[point.clone()] != live[point] {
            mark |= 1 << (index / columns);
        }
    }
    mark
}

/// Opcode and data of a write; none of a read.
pub fn write(packet: &[u8]) -> Option<(u8, &[u8])> {
    let options = Header::from_byte(*packet.first()?).options;
    let end = packet.len() - usize::from(options.checksum_present);
    let data = packet.get(options.data_offset()..end)?;
    (packet[0] & 0x80 == 0).then_some((packet[1], data))
}

/// Start and count of a 34h write.
pub fn points(data: &[u8]) -> [usize; 2] {
    [word(data, 0), (data.len() - 2) / 4]
}

/// The bits that an accepted packet works out; the others stay. Of a 34h write they are those of the rows
/// that have one of its points, of a 35h write and of an apply all.
pub fn touched(packet: &[u8], block: &[u8]) -> u32 {
    match write(packet) {
        Some((0x34, data)) => {
            let ([start, count], [columns, _]) = (points(data), shape(block));
            (start..start + count).fold(0, |rows, index| rows | 1 << (index / columns))
        }
        Some((0x35, _) | (0x36, [1])) => u32::MAX,
        _ => 0,
    }
}
