//! The C entries of libvermolgas.a, called as a C host calls them: pointer, then length.

use std::ptr;

use twin::front_end::Lent;
use twin::planner;

extern "C" {
    pub fn vermolgas_reset(
        block: *mut u8,
        block_length: usize,
        staged: *mut u8,
        staged_length: usize,
        live: *mut u8,
        live_length: usize,
        gains: *mut u8,
        gains_length: usize,
    ) -> u64;
    pub fn vermolgas_packet(
        packet: *const u8,
        packet_length: usize,
        block: *mut u8,
        block_length: usize,
        staged: *mut u8,
        staged_length: usize,
        live: *mut u8,
        live_length: usize,
        gains: *mut u8,
        gains_length: usize,
        reply: *mut u8,
        reply_length: usize,
    ) -> u64;
    pub fn vermolgas_rows(block: *const u8, block_length: usize) -> u64;
    pub fn vermolgas_read(packet: *const u8, packet_length: usize) -> u64;
    pub fn vermolgas_make(
        opcode: u16,
        options: u8,
        data: *const u8,
        data_length: usize,
        buffer: *mut u8,
        buffer_length: usize,
    ) -> u64;
    pub fn vermolgas_read_reply(reply: *const u8, reply_length: usize, checksum_expected: u8) -> u64;
    pub fn vermolgas_plan(
        points: u32,
        held: *const u8,
        held_length: usize,
        wanted: *const u8,
        wanted_length: usize,
        plan: *mut u8,
        plan_length: usize,
        room: *mut u8,
        room_length: usize,
        choices: *mut u8,
        choices_length: usize,
        batch: *mut u8,
        batch_length: usize,
    ) -> u64;
    pub fn vermolgas_compress(
        gains: *const u8,
        gains_length: usize,
        pairs: *mut u8,
        pairs_length: usize,
    ) -> u64;
    pub fn vermolgas_split(
        colour: u32,
        start: u32,
        pairs: *const u8,
        pairs_length: usize,
        batch: *mut u8,
        batch_length: usize,
    ) -> u64;
}

/// The entries, and whether NULL stands for an empty slice, as the header allows.
#[derive(Clone, Copy)]
pub struct Library {
    null: bool,
}

pub const LIBRARY: Library = Library { null: false };
pub const WITH_NULL: Library = Library { null: true };

// SAFETY, for every call: pointer and length are those of a slice, or NULL and 0; a slice that is
// written overlaps no other.
impl Library {
    fn pointer(self, slice: &[u8]) -> *const u8 {
        if self.null && slice.is_empty() {
            ptr::null()
        } else {
            slice.as_ptr()
        }
    }

    fn pointer_mut(self, slice: &mut [u8]) -> *mut u8 {
        if self.null && slice.is_empty() {
            ptr::null_mut()
        } else {
            slice.as_mut_ptr()
        }
    }

    pub fn reset(self, lent: Lent) -> u64 {
        let slices = [lent.block, lent.staged, lent.live, lent.gains];
        let [block, staged, live, gains] = slices.map(|slice| (self.pointer_mut(slice), slice.len()));
        unsafe { vermolgas_reset(block.0, block.1, staged.0, staged.1, live.0, live.1, gains.0, gains.1) }
    }

    #[rustfmt::skip]
    pub fn packet(self, packet: &[u8], lent: Lent, reply: &mut [u8]) -> u64 {
        let slices = [lent.block, lent.staged, lent.live, lent.gains, reply];
        let [block, staged, live, gains, reply] = slices.map(|slice| (self.pointer_mut(slice), slice.len()));
        unsafe {
            vermolgas_packet(
                self.pointer(packet), packet.len(), block.0, block.1, staged.0, staged.1, live.0, live.1,
                gains.0, gains.1, reply.0, reply.1,
            )
        }
    }

    pub fn rows(self, block: &[u8]) -> u64 {
        unsafe { vermolgas_rows(self.pointer(block), block.len()) }
    }

    pub fn read(self, packet: &[u8]) -> u64 {
        unsafe { vermolgas_read(self.pointer(packet), packet.len()) }
    }

    pub fn make(self, opcode: u16, options: u8, data: &[u8], buffer: &mut [u8]) -> u64 {
        let (data, data_length) = (self.pointer(data), data.len());
        unsafe { vermolgas_make(opcode, options, data, data_length, self.pointer_mut(buffer), buffer.len()) }
    }

    pub fn read_reply(self, reply: &[u8], checksum_expected: u8) -> u64 {
        unsafe { vermolgas_read_reply(self.pointer(reply), reply.len(), checksum_expected) }
    }

    #[rustfmt::skip]
    pub fn plan(self, points: u32, lent: planner::Lent) -> u64 {
        let [held, wanted] = [lent.held, lent.wanted].map(|slice| (self.pointer(slice), slice.len()));
        let slices = [lent.plan, lent.room, lent.choices, lent.batch];
        let [plan, room, choices, batch] = slices.map(|slice| (self.pointer_mut(slice), slice.len()));
        unsafe {
            vermolgas_plan(
                points, held.0, held.1, wanted.0, wanted.1, plan.0, plan.1, room.0, room.1, choices.0, choices.1,
                batch.0, batch.1,
            )
        }
    }

    pub fn compress(self, gains: &[u8], pairs: &mut [u8]) -> u64 {
        let (gains, gains_length) = (self.pointer(gains), gains.len());
        unsafe { vermolgas_compress(gains, gains_length, self.pointer_mut(pairs), pairs.len()) }
    }

    pub fn split(self, colour: u32, start: u32, pairs: &[u8], batch: &mut [u8]) -> u64 {
        let (pairs, pairs_length) = (self.pointer(pairs), pairs.len());
        unsafe { vermolgas_split(colour, start, pairs, pairs_length, self.pointer_mut(batch), batch.len()) }
    }
}
