//! Groups on the place that refusal 10 names, in reading and making. What is due stands with each input,
//! besides what the twin says.

use twin::packet::LONGEST;

use crate::answers;
use crate::bench::Bench;
use crate::faults::Cases;
use crate::recipe::Packet;

/// Reads and makes the packet of each case, in every frame.
pub fn read_and_make(bench: &mut Bench, cases: Cases) {
    for case in cases(&mut bench.random) {
        let number = case.opcode.number().into();
        for header in case.headers() {
            let read = bench.read(&Packet::new(header, number, case.data.clone()).bytes());
            let any_destination = header ^ bench.random.byte() & 7;
            let made = bench.make(number, any_destination, &case.data, LONGEST);
            for (entry, answer) in [("read", read), ("make", made)] {
                bench.expect(answers::place(answer) == case.place, || {
                    format!("{entry} gives {answer:#x}, header {header:#x}: {case:02X?}")
                });
            }
        }
    }
}
