//! How often packets were accepted and refused, and the least counts that are asked for.

use std::collections::BTreeMap;

use twin::command::{Direction, Opcode};
use twin::packet::Header;
use twin::refusal::Refusal;

use crate::report::Report;

/// How often each set of opcode, direction and options is accepted, at least, and each refusal
/// given.
pub const OFTEN: u64 = 1000;

/// How often each place of a fault is named, at least.
const NAMED: u64 = 25;

/// Inputs in all, at least.
const INPUTS: u64 = 1_000_000;

/// How often each opcode, direction and set of the four options was accepted.
#[derive(Default)]
pub struct Accepted([[[u64; 16]; 2]; Opcode::ALL.len()]);

impl Accepted {
    pub fn count(&mut self, opcode: Opcode, header: Header) {
        let index = Opcode::ALL.iter().position(|listed| *listed == opcode).expect("all are listed");
        let set = header.byte() >> 3 & 0xF;
        self.0[index][usize::from(header.direction == Direction::Read)][usize::from(set)] += 1;
    }

    /// Each opcode, direction and set of options that can be accepted was, often enough.
    pub fn check(&self, report: &mut Report, name: &str) {
        let mut counts = Vec::new();
        for (opcode, by_direction) in Opcode::ALL.into_iter().zip(&self.0) {
            for (direction, by_set) in Direction::BOTH.into_iter().zip(by_direction) {
                let sets = (0..16).zip(by_set).filter(|(set, _)| acceptable(opcode, direction, *set));
                counts.extend(sets.map(|(_, count)| *count));
            }
        }
        let (least, sum) = (counts.iter().min().copied().unwrap_or(0), counts.iter().sum::<u64>());
        let sets = counts.len();
        let said =
            format!("{sum}, each of {sets} sets of opcode, direction and options at least {least} times");
        report.close(name, least >= OFTEN, &said);
    }
}

/// How often each refusal was given, at the index of its number.
#[derive(Default)]
pub struct Refusals([u64; 13]);

impl Refusals {
    pub fn count(&mut self, number: u8) {
        self.0[usize::from(number)] += 1;
    }

    /// Each of these refusals was given, often enough.
    pub fn check(&self, report: &mut Report, name: &str, refusals: &[Refusal]) {
        let count = |refusal: &Refusal| self.0[usize::from(refusal.number())];
        let said: Vec<String> =
            refusals.iter().map(|refusal| format!("{} × {}", refusal.number(), count(refusal))).collect();
        report.close(name, refusals.iter().all(|refusal| count(refusal) >= OFTEN), &said.join(", "));
    }
}

/// How often a refusal by 10 named each place, by opcode and whether it is a read.
#[derive(Default)]
pub struct Named(BTreeMap<(u8, bool, u16), u64>);

impl Named {
    /// Counts a refusal by 10 of a packet with this header byte and this opcode.
    pub fn count(&mut self, header: u8, opcode: u8, place: u16) {
        *self.0.entry((opcode, header & 0x80 != 0, place)).or_default() += 1;
    }

    /// Each of these places was named, often enough, and no other was.
    pub fn check(&self, report: &mut Report, name: &str, places: &[(Opcode, Direction, u16)]) {
        let key = |(opcode, direction, place): &(Opcode, Direction, u16)| {
            (opcode.number(), *direction == Direction::Read, *place)
        };
        let counts = places.iter().map(|place| self.0.get(&key(place)).copied().unwrap_or(0));
        let (least, sum) = (counts.min().unwrap_or(0), self.0.values().sum::<u64>());
        let (named, due) = (self.0.len(), places.len());
        let said = format!("{sum}, of {named} places; each of {due} at least {least} times");
        report.close(name, least >= NAMED && named == due, &said);
    }
}

pub fn check_inputs(report: &mut Report) {
    report.close("inputs in all", report.inputs >= INPUTS, &format!("{}", report.inputs));
}

/// Whether a packet of this opcode, direction and set of options can be accepted: without a length
/// field writes of 2Bh, 34h, 35h and 38h can't (rule 4.1, 8).
fn acceptable(opcode: Opcode, direction: Direction, set: u8) -> bool {
    direction == Direction::Read || !opcode.is_variable() || set & 2 != 0
}

pub fn commands() -> impl Iterator<Item = (Opcode, Direction)> {
    Opcode::ALL.into_iter().flat_map(|opcode| Direction::BOTH.map(|direction| (opcode, direction)))
}

/// Every opcode, direction and set of options that can be accepted, with its header byte.
pub fn headers() -> impl Iterator<Item = (Opcode, Direction, u8)> {
    commands().flat_map(|(opcode, direction)| {
        let sets = (0..16).filter(move |set| acceptable(opcode, direction, *set));
        sets.map(move |set| (opcode, direction, header(direction) | set << 3))
    })
}

/// The header byte without an option.
fn header(direction: Direction) -> u8 {
    match direction {
        Direction::Write => 0x04,
        Direction::Read => 0x84,
    }
}
