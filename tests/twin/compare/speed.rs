//! Measures the front end: calls a second against the twin, in one run, and the stack that each C
//! entry needs. An entry that needs more of it than docs/INTERFACE.md promises is a failure. From the
//! repository's folder, after `tools/build vermolgas`:
//!
//! `cargo run --profile speed --offline --locked --manifest-path tests/twin/Cargo.toml --bin bench_front_end`

#[allow(dead_code, reason = "each program packs some kinds of answers")]
mod answers;
#[allow(dead_code, reason = "a session for measuring is accepted")]
mod fitting;
#[allow(dead_code, reason = "packets are made for a mixed session alone")]
mod generate;
#[allow(dead_code, reason = "each program calls some of the entries")]
mod library;
mod measure;
mod mixed;
mod random;

use std::hint::black_box;
use std::process::ExitCode;
use std::time::Instant;

use library::LIBRARY;
use measure::{side_by_side, REPETITIONS};
use mixed::packet_of;
use random::Random;
use twin::command::Opcode;
use twin::front_end::{self, Memory};
use twin::packet::LONGEST;

/// A repetition calls at least so often.
const CALLS: usize = 20_000;

const SEED: u64 = 0x6761_696E_7300;

/// What one side does with one packet; none is a reset.
type Call = fn(Option<&[u8]>, &mut Memory, &mut [u8; LONGEST]) -> u64;

fn library_call(packet: Option<&[u8]>, memory: &mut Memory, reply: &mut [u8; LONGEST]) -> u64 {
    match packet {
        Some(packet) => LIBRARY.packet(packet, memory.lend(), reply),
        None => LIBRARY.reset(memory.lend()),
    }
}

fn twin_call(packet: Option<&[u8]>, memory: &mut Memory, reply: &mut [u8; LONGEST]) -> u64 {
    match packet {
        Some(packet) => answers::packet(front_end::packet(packet, memory.lend(), reply)),
        None => front_end::reset(memory.lend()).map_or_else(|refusal| refusal.number().into(), |()| 0),
    }
}

/// What is measured: packets sent over and over, none a reset, on what those ahead of them leave.
struct Case {
    name: &'static str,
    ahead: Vec<Vec<u8>>,
    packets: Vec<Option<Vec<u8>>>,
}

/// One packet from reset on.
fn alone(name: &'static str, packet: Vec<u8>) -> Case {
    Case { name, ahead: vec![], packets: vec![Some(packet)] }
}

fn main() -> ExitCode {
    let mut random = Random::new(SEED);
    let mixed = mixed::session(&mut random);
    let cases: Vec<Case> = cases(&mixed, &mut random).into_iter().chain(row_cases(&mut random)).collect();
    let mut memory = Memory::default();
    let statuses = mixed.iter().map(|packet| twin_call(Some(packet), &mut memory, &mut [0; LONGEST]) & 0xFF);
    let accepted = statuses.filter(|status| *status == 0).count();
    println!("mixed session: {} packets, {accepted} of them accepted", mixed.len());
    println!("calls a second, in thousands; medians of {REPETITIONS}; above 1 the library is faster");
    println!("{:<32}{:>10}{:>10}{:>14}", "", "library", "twin", "library/twin");
    for case in cases {
        let Some([library, twin, ratio]) = compare(&case) else {
            println!("{}: the library and the twin differ", case.name);
            return ExitCode::FAILURE;
        };
        println!("{:<32}{:>10.0}{:>10.0}{ratio:>14.2}", case.name, library / 1e3, twin / 1e3);
    }
    println!();
    if stack::report(&mixed) {
        ExitCode::SUCCESS
    } else {
        ExitCode::FAILURE
    }
}

fn cases(mixed: &[Vec<u8>], random: &mut Random) -> Vec<Case> {
    let points = [&[7, 0][..], &random.bytes(4 * 126)].concat();
    // Refused by 10 for its last field, a source of 2.
    let uart = [0x54, 0x6D, 11, 0, 1, 1, 8, 3, 0, 0, 0, 2, 2, 0, 2];
    // As many gains as a packet takes; and the same with the last one too large.
    let words = [&[0, 1, 251, 0, 0, 0][..], &[0, 16].repeat(251)].concat();
    let gains = packet_of(0x14, Opcode::Gains, &words);
    let mut large = gains.clone();
    large[0] = 0x54;
    large[LONGEST - 1] = 32;
    let mixed = mixed.iter().cloned().map(Some).collect();
    vec![
        Case { name: "mixed session", ahead: vec![], packets: mixed },
        alone("11h write", vec![0x04, 0x11, 0x01]),
        alone("34h write of 126 points", packet_of(0x14, Opcode::Map, &points)),
        // The same points with a two-byte opcode and a checksum: 512 bytes, as the reply to the read has.
        alone("512 bytes, checksum", packet_of(0x3C, Opcode::Map, &points)),
        alone("512-byte reply, checksum", packet_of(0xB4, Opcode::Map, &[7, 0, 127, 0])),
        alone("2Bh write of 251 gains", gains),
        alone("2Bh refused, reply", large),
        alone("6Dh refused, reply", uart.to_vec()),
        alone("35h refused, reply", lists(93)),
        alone("35h refused at once, reply", lists(1)),
        alone("35h write of lists, reply", lists(0)),
        alone("36h apply", vec![0x04, 0x36, 0x01]),
        Case { name: "reset", ahead: vec![], packets: vec![None] },
    ]
}

/// A 35h write of two lists that count from 0, but for an entry that is 0; with the first one they rise.
fn lists(zero: usize) -> Vec<u8> {
    let mut entries: Vec<u16> = (0..62).chain(0..32).collect();
    entries[zero] = 0;
    let lists = entries.into_iter().flat_map(u16::to_le_bytes);
    [0x54, 0x35, 189, 0, 1].into_iter().chain(lists).collect()
}

/// Writes whose rows are compared with the live ones. Alike are rows that are so up to their last point:
/// of 126 points from a row's last one on these are four rows, as many as there can be of 62 columns.
fn row_cases(random: &mut Random) -> Vec<Case> {
    let mut write = |start: u16, count: usize, alike: bool| {
        let points = if alike { vec![0; 4 * count] } else { random.bytes(4 * count) };
        packet_of(0x14, Opcode::Map, &[&start.to_le_bytes()[..], &points].concat())
    };
    let shape = |columns: u8| packet_of(0x14, Opcode::ControlPoints, &[0, columns, 0, 32, 0]);
    let narrow = |name, packet| Case { name, ahead: vec![shape(2)], packets: vec![Some(packet)] };
    vec![
        alone("34h, 126 points, rows alike", write(61, 126, true)),
        alone("34h write of 1 point", write(7, 1, false)),
        alone("34h, 1 point, row alike", write(7, 1, true)),
        narrow("34h, 32 rows of 2 points", write(0, 64, false)),
        narrow("34h, 32 rows of 2, alike", write(0, 64, true)),
        alone("35h write, rows alike", shape(62)),
        Case {
            name: "35h write, one point differs",
            ahead: vec![write(1000, 1, false)],
            packets: vec![Some(shape(62))],
        },
    ]
}

/// Calls a second of the library and of the twin, and their ratio, each the median; none if they end
/// in different states.
fn compare(case: &Case) -> Option<[f64; 3]> {
    let (mut library, mut twin) = (Memory::default(), Memory::default());
    for packet in &case.ahead {
        library_call(Some(packet), &mut library, &mut [0; LONGEST]);
        twin_call(Some(packet), &mut twin, &mut [0; LONGEST]);
    }
    let figures = side_by_side(
        || calls_a_second(library_call, &case.packets, &mut library),
        || calls_a_second(twin_call, &case.packets, &mut twin),
    );
    (library == twin).then_some(figures)
}

fn calls_a_second(call: Call, packets: &[Option<Vec<u8>>], memory: &mut Memory) -> f64 {
    let mut reply = [0; LONGEST];
    let rounds = CALLS.div_ceil(packets.len());
    let start = Instant::now();
    for _ in 0..rounds {
        for packet in packets {
            black_box(call(black_box(packet.as_deref()), memory, &mut reply));
        }
    }
    (rounds * packets.len()) as f64 / start.elapsed().as_secs_f64()
}

/// The stack that an entry needs: it is called on a painted one, and what it has written is counted.
#[cfg(target_arch = "x86_64")]
mod stack {
    use std::arch::asm;

    use twin::compressor::PAIRS_BYTES;
    use twin::front_end::{Memory, MAP_BYTES};
    use twin::packet::LONGEST;
    use twin::planner::{BATCH_BYTES, CHOICES_BYTES, PLAN_BYTES, ROOM_BYTES};
    use twin::settings::{GAINS, POINTS};
    use twin::splitter;

    use crate::library;

    /// Every entry writes less than this (docs/INTERFACE.md).
    const PROMISED: usize = 1024;

    const BYTES: usize = 64 * 1024;

    /// For planning, which goes over a whole map.
    const PLANNING_BYTES: usize = 1024 * 1024;

    /// As many as an entry has, or more; even, so that the stack stays aligned.
    const ARGUMENTS: usize = 14;

    /// Those behind the sixth are passed on the stack, of 8 bytes each.
    const PASSED_ON_STACK: usize = 8 * (ARGUMENTS - 6);

    struct Painted {
        stack: Vec<u8>,
        /// The most that was written, return address included.
        most: usize,
    }

    impl Painted {
        fn new(bytes: usize) -> Self {
            Painted { stack: vec![0; bytes], most: 0 }
        }

        /// Calls an entry, with each of two paints, so that a byte written in the one shows in the
        /// other.
        fn call(&mut self, entry: *const (), arguments: &[u64]) {
            for paint in [0xA5, 0x5A] {
                self.stack.fill(paint);
                let bottom = self.stack.as_mut_ptr() as usize;
                let top = (bottom + self.stack.len()) & !15;
                let mut all = [0; ARGUMENTS];
                all[..arguments.len()].copy_from_slice(arguments);
                // SAFETY: the callers pass what the entry asks for, and it doesn't look at more.
                unsafe { call_on(top, entry, &all) };
                let unwritten = self.stack.iter().take_while(|byte| **byte == paint).count();
                self.most = self.most.max(top - PASSED_ON_STACK - (bottom + unwritten));
            }
        }
    }

    /// Calls an entry with its stack below `top`, by the System V rules.
    unsafe fn call_on(top: usize, entry: *const (), arguments: &[u64; ARGUMENTS]) {
        asm!(
            "mov r12, rsp",
            "mov rsp, r13",
            "push qword ptr [rax + 104]",
            "push qword ptr [rax + 96]",
            "push qword ptr [rax + 88]",
            "push qword ptr [rax + 80]",
            "push qword ptr [rax + 72]",
            "push qword ptr [rax + 64]",
            "push qword ptr [rax + 56]",
            "push qword ptr [rax + 48]",
            "mov r9, [rax + 40]",
            "mov r8, [rax + 32]",
            "mov rcx, [rax + 24]",
            "mov rdx, [rax + 16]",
            "mov rsi, [rax + 8]",
            "mov rdi, [rax]",
            "call r14",
            "mov rsp, r12",
            inout("rax") arguments.as_ptr() => _,
            out("r12") _,
            in("r13") top,
            in("r14") entry,
            clobber_abi("C"),
        );
    }

    /// Pointer and length.
    fn slice(bytes: &mut [u8]) -> [u64; 2] {
        [bytes.as_mut_ptr() as u64, bytes.len() as u64]
    }

    /// Prints the most that each entry needs over these packets; whether all keep to what is promised.
    pub fn report(packets: &[Vec<u8>]) -> bool {
        let [mut reset, mut packet, mut rows, mut read, mut make, mut read_reply] =
            std::array::from_fn(|_| Painted::new(BYTES));
        let mut memory = Memory::default();
        for bytes in packets {
            let mut bytes = bytes.clone();
            let mut reply = [0; LONGEST];
            let lent = memory.lend();
            let tables = [lent.block, lent.staged, lent.live, lent.gains].map(slice);
            packet.call(
                library::vermolgas_packet as *const (),
                [[slice(&mut bytes)].as_flattened(), tables.as_flattened(), &slice(&mut reply)]
                    .concat()
                    .as_slice(),
            );
            read.call(library::vermolgas_read as *const (), &slice(&mut bytes));
            let size = usize::from(u16::from_le_bytes([reply[1], reply[2]]));
            let length = (3 + size).min(LONGEST);
            let [pointer, length] = slice(&mut reply[..length]);
            read_reply.call(library::vermolgas_read_reply as *const (), &[pointer, length, 0]);
            let (opcode, options) = (bytes[1], bytes[0]);
            let data = slice(bytes.get_mut(4..).unwrap_or_default());
            let mut buffer = [0; LONGEST];
            let arguments = [[u64::from(opcode), u64::from(options)], data, slice(&mut buffer)];
            make.call(library::vermolgas_make as *const (), arguments.as_flattened());
        }
        let lent = memory.lend();
        let tables = [lent.block, lent.staged, lent.live, lent.gains].map(slice);
        rows.call(library::vermolgas_rows as *const (), &tables[0]);
        reset.call(library::vermolgas_reset as *const (), tables.as_flattened());
        let plan = planning();
        let [compress, split] = packing();

        println!("stack written by an entry, its return address included, in bytes");
        let entries = [
            ("vermolgas_reset", reset),
            ("vermolgas_packet", packet),
            ("vermolgas_rows", rows),
            ("vermolgas_read", read),
            ("vermolgas_make", make),
            ("vermolgas_read_reply", read_reply),
            ("vermolgas_plan", plan),
            ("vermolgas_compress", compress),
            ("vermolgas_split", split),
        ];
        for (name, painted) in &entries {
            println!("{name:<28}{:>10}", painted.most);
        }
        let mut kept = true;
        for (name, painted) in entries.iter().filter(|(_, painted)| painted.most >= PROMISED) {
            println!("FAILED {name}: {} bytes of stack, promised are less than {PROMISED}", painted.most);
            kept = false;
        }
        kept
    }

    /// A colour's gains compressed and split: all alike, all different.
    fn packing() -> [Painted; 2] {
        let [mut compress, mut split] = std::array::from_fn(|_| Painted::new(BYTES));
        for step in [0, 4] {
            let mut gains: Vec<u8> =
                (0..GAINS as u16).flat_map(|place| (step * place).to_le_bytes()).collect();
            let (mut pairs, mut batch) = (vec![0; PAIRS_BYTES], vec![0; splitter::BATCH_BYTES]);
            let arguments = [slice(&mut gains), slice(&mut pairs)];
            compress.call(library::vermolgas_compress as *const (), arguments.as_flattened());
            // One pair, or one for each gain.
            let used = if step == 0 { 4 } else { PAIRS_BYTES };
            let arguments = [[1, 0], slice(&mut pairs[..used]), slice(&mut batch)];
            split.call(library::vermolgas_split as *const (), arguments.as_flattened());
        }
        [compress, split]
    }

    /// Plans for full maps: none of the points differs, all do, every second, every third.
    fn planning() -> Painted {
        let mut plan = Painted::new(PLANNING_BYTES);
        for step in [POINTS + 1, 1, 2, 3] {
            let (mut held, mut wanted) = (vec![0; MAP_BYTES], vec![0; MAP_BYTES]);
            for point in wanted.as_chunks_mut::<4>().0.iter_mut().skip(step - 1).step_by(step) {
                *point = [1; 4];
            }
            let mut written =
                [PLAN_BYTES, ROOM_BYTES, CHOICES_BYTES, BATCH_BYTES].map(|length| vec![0; length]);
            let maps = [slice(&mut held), slice(&mut wanted)];
            let written = written.each_mut().map(|bytes| slice(bytes));
            let arguments = [&[POINTS as u64][..], maps.as_flattened(), written.as_flattened()].concat();
            plan.call(library::vermolgas_plan as *const (), &arguments);
        }
        plan
    }
}

#[cfg(not(target_arch = "x86_64"))]
mod stack {
    pub fn report(_: &[Vec<u8>]) -> bool {
        println!("the stack is measured on x86-64 alone");
        true
    }
}
