//! The proved core through its C ABI, safe to call: read a text, start a session, step it with each
//! answer until it reports. `docs/EMBEDDING.md` says what each request puts on the wire.
//!
//! ```ignore
//! let header = halzuqeen::read(1, 1, &text, &mut image)?;
//! let (mut session, mut outcome) = halzuqeen::start(&header, &image, false)?;
//! let report = loop {
//!     match outcome {
//!         Outcome::Ask(packet) => outcome = session.step(&image, wire.exchange(packet))?,
//!         Outcome::Report(report) => break report,
//!     }
//! };
//! ```
#![no_std]

#[cfg(feature = "bench")]
pub mod bench;
pub mod raw;

/// A refusal's number, 1 to 15 (document 01, 'Who brings a number about').
#[derive(Clone, Copy, PartialEq, Eq, Debug)]
pub struct Refusal(pub u8);

/// What an image carries beside its bytes.
#[derive(Clone, Copy, PartialEq, Eq, Debug, Default)]
pub struct Header {
    pub part: u8,
    pub macros: u8,
    pub sum: u16,
    pub metadata: [u8; 12],
    pub level: u8,
}

impl Header {
    pub fn from_bytes(bytes: &[u8; raw::HEADER]) -> Header {
        let mut metadata = [0; 12];
        metadata.copy_from_slice(&bytes[4..16]);
        let sum = u16::from_le_bytes([bytes[2], bytes[3]]);
        Header { part: bytes[0], macros: bytes[1], sum, metadata, level: bytes[16] }
    }

    pub fn bytes(&self) -> [u8; raw::HEADER] {
        let mut bytes = [0; raw::HEADER];
        (bytes[0], bytes[1], bytes[16]) = (self.part, self.macros, self.level);
        bytes[2..4].copy_from_slice(&self.sum.to_le_bytes());
        bytes[4..16].copy_from_slice(&self.metadata);
        bytes
    }
}

/// What the host puts on the wire.
#[derive(Clone, Copy, PartialEq, Eq, Debug)]
pub enum Packet {
    Xres,
    LineReset,
    Read { byte: u8 },
    Write { byte: u8, word: u32, parity: bool },
}

/// What came back: a reset was done, or the three acknowledgement bits (7 where nobody drives the wire) and, on a read,
/// word and parity.
#[derive(Clone, Copy, PartialEq, Eq, Debug)]
pub enum Answer {
    ResetDone,
    Wire { ack: u8, word: u32, parity: bool },
}

/// 0 is done; 16 to 30 and 33 say what went wrong, in which step of the flow, after how many transfers.
#[derive(Clone, Copy, PartialEq, Eq, Debug)]
pub struct Report {
    pub number: u8,
    pub step: u8,
    pub transfers: u32,
}

#[derive(Clone, Copy, PartialEq, Eq, Debug)]
pub enum Outcome {
    Ask(Packet),
    Report(Report),
}

/// A session's 45 bytes. Any bytes are taken; impossible ones are refused with 13.
#[derive(Clone, Copy, PartialEq, Eq, Debug)]
pub struct Session(pub [u8; raw::SESSION]);

fn taken(number: u32) -> Result<(), Refusal> {
    match number {
        0 => Ok(()),
        _ => Err(Refusal(number as u8)),
    }
}

/// The outcome in the ABI's eight bytes: a refusal is `Err`.
pub fn outcome_of(bytes: &[u8; raw::OUTCOME]) -> Result<Outcome, Refusal> {
    let word = u32::from_le_bytes([bytes[4], bytes[5], bytes[6], bytes[7]]);
    Ok(match bytes[0] {
        1 => Outcome::Ask(Packet::Xres),
        2 => Outcome::Ask(Packet::LineReset),
        3 => Outcome::Ask(Packet::Read { byte: bytes[1] }),
        4 => Outcome::Ask(Packet::Write { byte: bytes[1], word, parity: bytes[2] != 0 }),
        5 => Outcome::Report(Report { number: bytes[1], step: bytes[2], transfers: word }),
        _ => return Err(Refusal(bytes[1])),
    })
}

/// Reads a hex text into the lent buffer; refused with 1 to 10, the image's bytes in it are zeroed.
pub fn read(part: u8, macros: u8, text: &[u8], image: &mut [u8]) -> Result<Header, Refusal> {
    let mut header = [0; raw::HEADER];
    taken(raw::read(part, macros, text, image, &mut header))?;
    Ok(Header::from_bytes(&header))
}

/// Writes the image's text into the lent buffer and gives its length.
pub fn write(header: &Header, image: &[u8], text: &mut [u8]) -> Result<usize, Refusal> {
    let mut length = [0; raw::LENGTH];
    taken(raw::write(&header.bytes(), image, text, &mut length))?;
    Ok(u64::from_le_bytes(length) as usize)
}

/// Starts a session; its first request is XRES. `leave` allows an image of level KILL.
pub fn start(header: &Header, image: &[u8], leave: bool) -> Result<(Session, Outcome), Refusal> {
    let (mut session, mut outcome) = ([0; raw::SESSION], [0; raw::OUTCOME]);
    taken(raw::start(&header.bytes(), image, leave.into(), &mut session, &mut outcome))?;
    Ok((Session(session), outcome_of(&outcome)?))
}

impl Session {
    /// Gives the answer to the last request, and gets the next request or the report. Refused, the
    /// session is unaltered and the last request still stands.
    pub fn step(&mut self, image: &[u8], answer: Answer) -> Result<Outcome, Refusal> {
        let mut outcome = [0; raw::OUTCOME];
        taken(raw::step(&mut self.0, image, answer.into(), &mut outcome))?;
        outcome_of(&outcome)
    }
}

impl From<Answer> for raw::Answer {
    fn from(answer: Answer) -> raw::Answer {
        match answer {
            Answer::ResetDone => raw::Answer { reset_done: 1, ack: 0, word: 0, parity: 0 },
            Answer::Wire { ack, word, parity } => {
                raw::Answer { reset_done: 0, ack, word, parity: parity.into() }
            }
        }
    }
}
