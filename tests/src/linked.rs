//! The proved core through its C ABI, as a `Core` that is held to this crate. Every byte that a call
//! writes or leaves is looked at, beside what it means.

mod bench;
mod boards;
mod edges;
mod forged;
mod tools;

pub use bench::Pair;
pub use boards::{boards, Boards, ENDS};
pub use edges::edges;
pub use forged::{forged, Forged};
pub use tools::tools;

use crate::cross::Core;
use crate::flow::Report;
use crate::image::Header;
use crate::indexed::{header_bytes, header_of};
use crate::session::Outcome;
use crate::wire::{Answer, Packet};
use halzuqeen::raw;

pub struct Linked;

/// What a buffer holds before a call that writes all of it.
const UNWRITTEN: u8 = 0xEE;

/// The eight bytes that say this outcome.
pub fn outcome_bytes(outcome: Outcome) -> [u8; raw::OUTCOME] {
    let (kind, first, second, word) = match outcome {
        Outcome::Refused(number) => (0, number, 0, 0),
        Outcome::Ask(Packet::Xres) => (1, 0, 0, 0),
        Outcome::Ask(Packet::LineReset) => (2, 0, 0, 0),
        Outcome::Ask(Packet::Read { byte }) => (3, byte, 0, 0),
        Outcome::Ask(Packet::Write { byte, word, parity }) => (4, byte, parity.into(), word),
        Outcome::Report(Report { number, step, transfers }) => (5, number, step, transfers),
    };
    let [a, b, c, d] = word.to_le_bytes();
    [kind, first, second, 0, a, b, c, d]
}

/// The outcome that eight bytes say; they must be exactly those that say it, and `number` the call's own.
fn outcome_of(bytes: &[u8; raw::OUTCOME], number: u32) -> Outcome {
    let word = u32::from_le_bytes([bytes[4], bytes[5], bytes[6], bytes[7]]);
    let outcome = match bytes[0] {
        0 => Outcome::Refused(bytes[1]),
        1 => Outcome::Ask(Packet::Xres),
        2 => Outcome::Ask(Packet::LineReset),
        3 => Outcome::Ask(Packet::Read { byte: bytes[1] }),
        4 => Outcome::Ask(Packet::Write { byte: bytes[1], word, parity: bytes[2] == 1 }),
        5 => Outcome::Report(Report { number: bytes[1], step: bytes[2], transfers: word }),
        kind => panic!("an outcome of kind {kind}"),
    };
    assert_eq!(outcome_bytes(outcome), *bytes);
    let refusal = if let Outcome::Refused(number) = outcome { number.into() } else { 0 };
    assert_eq!(number, refusal);
    outcome
}

/// The ABI's answer. Its acknowledgement is a byte: a larger one is noise, as 255 is.
pub fn abi_answer(answer: Answer) -> raw::Answer {
    match answer {
        Answer::ResetDone => raw::Answer { reset_done: 1, ack: 0, word: 0, parity: 0 },
        Answer::Wire { ack, word, parity } => {
            let ack = u8::try_from(ack).unwrap_or(u8::MAX);
            raw::Answer { reset_done: 0, ack, word, parity: parity.into() }
        }
    }
}

/// Part and M are bytes in the ABI; the generators keep to bytes.
fn byte(number: u32) -> u8 {
    u8::try_from(number).expect("a byte")
}

impl Core for Linked {
    type Session = [u8; raw::SESSION];

    fn read(&self, part: u32, macros: u32, text: &[u8], buffer: &mut [u8]) -> (u8, Header) {
        let mut header = [UNWRITTEN; raw::HEADER];
        let number = raw::read(byte(part), byte(macros), text, buffer, &mut header);
        (number as u8, header_of(&header))
    }

    fn write(&self, header: &Header, image: &[u8], text: &mut [u8]) -> (u8, usize) {
        let mut length = [UNWRITTEN; raw::LENGTH];
        let number = raw::write(&header_bytes(header), image, text, &mut length);
        (number as u8, u64::from_le_bytes(length) as usize)
    }

    fn start(&self, header: &Header, image: &[u8], leave: bool) -> (Self::Session, Outcome) {
        let (mut session, mut outcome) = ([UNWRITTEN; raw::SESSION], [UNWRITTEN; raw::OUTCOME]);
        let number = raw::start(&header_bytes(header), image, leave.into(), &mut session, &mut outcome);
        let outcome = outcome_of(&outcome, number);
        if let Outcome::Refused(_) = outcome {
            assert_eq!(session, [0; raw::SESSION]);
        }
        (session, outcome)
    }

    fn step(&self, session: &mut Self::Session, image: &[u8], answer: Answer) -> Outcome {
        let mut outcome = [UNWRITTEN; raw::OUTCOME];
        let number = raw::step(session, image, abi_answer(answer), &mut outcome);
        outcome_of(&outcome, number)
    }
}
