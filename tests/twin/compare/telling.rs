//! Groups on the place that refusal 10 names, in the front end's answer and reply. The library is held
//! to the twin, and the twin's answer and the library's reply to what stands with each input.

use twin::fields::checksum;
use twin::front_end::Answer;
use twin::refusal::Refusal;

use crate::faults::Cases;
use crate::recipe::Packet;
use crate::session::{Part, Session};

/// Sends the packet of each case, in every frame.
pub fn send(session: &mut Session, cases: Cases) {
    session.restart();
    for case in cases(&mut session.random) {
        for header in case.headers() {
            let packet = Packet::new(header, case.opcode.number().into(), case.data.clone()).bytes();
            let answer = session.send(&packet);
            let reply = session.bytes(Part::Reply)[..answer.length].to_vec();
            let told = match case.place {
                Some(place) => {
                    let due = reply_of(header, place);
                    let status = Refusal::Range.number();
                    answer == Answer { status, length: due.len(), place } && reply == due
                }
                None => answer.status != Refusal::Range.number(),
            };
            session.expect(told, || format!("{answer:?}, {reply:02X?}, header {header:#x}: {case:02X?}"));
        }
    }
}

/// The reply that a header asks for, with this place; none if it asks for none.
fn reply_of(header: u8, place: u16) -> Vec<u8> {
    if header & 0xC0 == 0 {
        return Vec::new();
    }
    let [low, high] = place.to_le_bytes();
    let mut reply = vec![10, 2, 0, low, high];
    if header & 0x20 != 0 {
        reply.push(checksum(&reply));
    }
    reply
}
