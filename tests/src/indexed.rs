//! The session's 45 bytes as the C ABI has them, stepped by an index into the flat list of moves.
//! A third reading of the flow. What the bytes hold, and which of them are possible (13), is the
//! core's own choice (`include/halzuqeen.h`); the flow is document 01's.

mod moves;

pub use moves::{sequence, Move, Purpose};

use crate::counts::{acquisitions, bound, plan, Entry};
use crate::flow::{exchanged, silicon_level, Report, ATTEMPTS, BIT_31, BUSY, LOW_28, POLLS, REPEATS};
use crate::image::{header_refusal, Header};
use crate::parts::{Sizes, IDCODE, OPEN, PROTECTED};
use crate::session::Outcome;
use crate::wire::{acknowledgement, parity, Ack, Answer, Packet};

pub const BYTES: usize = 45;

/// Bytes 0 to 16, as a header's.
pub fn header_of(bytes: &[u8]) -> Header {
    let mut metadata = [0; 12];
    metadata.copy_from_slice(&bytes[4..16]);
    let (part, macros) = (u32::from(bytes[0]), u32::from(bytes[1]));
    Header { part, macros, sum: u16::from_le_bytes([bytes[2], bytes[3]]), metadata, level: bytes[16] }
}

pub fn header_bytes(header: &Header) -> [u8; 17] {
    let mut bytes = [0; 17];
    (bytes[0], bytes[1], bytes[16]) = (header.part as u8, header.macros as u8, header.level);
    bytes[2..4].copy_from_slice(&header.sum.to_le_bytes());
    bytes[4..16].copy_from_slice(&header.metadata);
    bytes
}

/// The fields of the 45 bytes.
#[derive(Clone, Copy, PartialEq, Eq, Debug)]
struct Fields {
    header: Header,
    entry: Entry,
    finished: bool,
    number: u8,
    step: u8,
    at: u32,
    waits: u32,
    polls: u32,
    attempts: u32,
    kept: u32,
    /// Reads and writes answered.
    transfers: u32,
}

/// Where an answer leads.
enum Next {
    Stop(u8),
    /// `at`, polls and kept of the place that follows; WAITs start afresh.
    Go(Entry, u32, u32, u32),
}

impl Fields {
    /// None for an entry or a finished mark that is no 0 or 1.
    fn of(bytes: &[u8; BYTES]) -> Option<Fields> {
        let word = |at: usize| crate::image::word(&bytes[at..]);
        Some(Fields {
            header: header_of(bytes),
            entry: [Entry::Open, Entry::Protected].get(usize::from(bytes[17])).copied()?,
            finished: [false, true].get(usize::from(bytes[18])).copied()?,
            number: bytes[19],
            step: bytes[20],
            at: word(21),
            waits: word(25),
            polls: word(29),
            attempts: word(33),
            kept: word(37),
            transfers: word(41),
        })
    }

    fn bytes(&self) -> [u8; BYTES] {
        let mut bytes = [0; BYTES];
        bytes[..17].copy_from_slice(&header_bytes(&self.header));
        bytes[17] = u8::from(self.entry == Entry::Protected);
        (bytes[18], bytes[19], bytes[20]) = (self.finished.into(), self.number, self.step);
        let words = [self.at, self.waits, self.polls, self.attempts, self.kept, self.transfers];
        for (to, word) in bytes[21..].chunks_exact_mut(4).zip(words) {
            to.copy_from_slice(&word.to_le_bytes());
        }
        bytes
    }

    fn possible(&self) -> Option<Sizes> {
        let sizes = self.header.sizes()?;
        let moves = plan(&sizes, self.entry) + 2 * acquisitions(self.entry);
        let stands = match self.finished {
            true => Report::fits(self.number, self.step),
            false => {
                u64::from(self.at) < moves
                    && self.waits <= REPEATS.into()
                    && self.polls < POLLS.into()
                    && self.attempts < ATTEMPTS.into()
            }
        };
        let counted = u64::from(self.transfers) <= bound(&sizes, Entry::Protected);
        (stands && counted && header_refusal(&self.header, &sizes).is_none()).then_some(sizes)
    }

    fn report(&self) -> Outcome {
        Outcome::Report(Report { number: self.number, step: self.step, transfers: self.transfers })
    }

    /// "success is top digit 0xA", and the other judgements of a word.
    fn judge(&self, sizes: &Sizes, purpose: Purpose, given: u32) -> Next {
        let on = |kept| Next::Go(self.entry, self.at + 1, self.polls, kept);
        let on_if = |right: bool, number| if right { on(self.kept) } else { Next::Stop(number) };
        let level = silicon_level(&self.header, sizes, self.kept, given);
        match purpose {
            Purpose::Sent => on(self.kept),
            Purpose::IdCode => on_if(given == IDCODE, 16),
            Purpose::TestBit => on_if(given & BIT_31 != 0, 17),
            Purpose::Poll if given & BUSY == 0 => Next::Go(self.entry, self.at + 1, 0, self.kept),
            Purpose::Poll if self.polls + 1 == POLLS.into() => Next::Stop(18),
            Purpose::Poll => Next::Go(self.entry, self.at - 2, self.polls + 1, self.kept),
            Purpose::Status => on_if(given >> 28 == 0xA, 19),
            Purpose::Keep => on(given),
            Purpose::EntryLevel | Purpose::Reopened => match (level, purpose) {
                (Err(number), _) => Next::Stop(number),
                (Ok(OPEN), Purpose::Reopened) => on(self.kept),
                (Ok(OPEN), _) => Next::Go(Entry::Open, self.at + 1, self.polls, self.kept),
                (Ok(PROTECTED), Purpose::EntryLevel) => {
                    Next::Go(Entry::Protected, self.at + 1, self.polls, self.kept)
                }
                _ => Next::Stop(21),
            },
            Purpose::Same(word, number) => on_if(given == word, number),
            Purpose::StoredLevel => on_if(exchanged((given >> 24) as u8 & 0xF) == self.header.level, 24),
            Purpose::LastSum => {
                let sum = (given & LOW_28).wrapping_sub(self.kept & LOW_28) as u16;
                Next::Stop(if sum == self.header.sum { 0 } else { 25 })
            }
        }
    }

    fn stop(&mut self, number: u8, step: u8) {
        let (header, entry, transfers) = (self.header, self.entry, self.transfers);
        let zeros = Fields { at: 0, waits: 0, polls: 0, attempts: 0, kept: 0, ..*self };
        *self = Fields { header, entry, transfers, finished: true, number, step, ..zeros };
    }

    /// The answer to a read or write.
    fn take(&mut self, sizes: &Sizes, standing: &Move, ack: u32, word: u32, bit: bool) {
        self.transfers = (self.transfers + 1).min(bound(sizes, Entry::Protected) as u32);
        let reads = matches!(standing.packet, Packet::Read { .. });
        let broken = match acknowledgement(ack) {
            Ack::Ok if reads && bit != parity(word) => Some(30),
            Ack::Ok => None,
            Ack::Wait => Some(27),
            Ack::Fault => Some(28),
            Ack::Silence => Some(29),
            Ack::Noise => Some(33),
        };
        match (standing.purpose, broken) {
            (Purpose::IdCode, Some(_)) if self.attempts + 1 == ATTEMPTS.into() => {
                self.stop(26, standing.step)
            }
            (Purpose::IdCode, Some(_)) => {
                (self.at, self.waits, self.attempts) = (self.at - 1, 0, self.attempts + 1);
            }
            (_, Some(27)) if self.waits < REPEATS.into() => self.waits += 1,
            (_, Some(number)) => self.stop(number, standing.step),
            (purpose, None) => match self.judge(sizes, purpose, word) {
                Next::Stop(number) => self.stop(number, standing.step),
                Next::Go(entry, at, polls, kept) => {
                    let attempts = if purpose == Purpose::IdCode { 0 } else { self.attempts };
                    *self = Fields { entry, at, polls, kept, attempts, waits: 0, ..*self };
                }
            },
        }
    }
}

/// The bytes of a session that has just started.
pub fn started(header: &Header) -> [u8; BYTES] {
    let mut bytes = [0; BYTES];
    bytes[..17].copy_from_slice(&header_bytes(header));
    bytes
}

/// Steps the bytes. `moves` gives the list for a header and an entry, of the image that is lent.
pub fn step<'a>(
    bytes: &mut [u8; BYTES],
    image_bytes: usize,
    answer: Answer,
    mut moves: impl FnMut(&Header, Entry) -> &'a [Move],
) -> Outcome {
    let Some((mut fields, sizes)) = Fields::of(bytes).and_then(|f| Some((f, f.possible()?))) else {
        return Outcome::Refused(13);
    };
    if image_bytes != sizes.image() {
        return Outcome::Refused(12);
    }
    if fields.finished {
        return fields.report();
    }
    let standing = moves(&fields.header, fields.entry)[fields.at as usize];
    match answer {
        Answer::ResetDone if !standing.packet.is_transfer() => fields.at += 1,
        Answer::Wire { ack, word, parity } if standing.packet.is_transfer() => {
            fields.take(&sizes, &standing, ack, word, parity);
        }
        _ => return Outcome::Refused(14),
    }
    if !fields.finished {
        (fields.number, fields.step) = (0, 0);
    }
    *bytes = fields.bytes();
    match fields.finished {
        true => fields.report(),
        false => Outcome::Ask(moves(&fields.header, fields.entry)[fields.at as usize].packet),
    }
}

#[cfg(test)]
mod tests;
