//! 'The plain board', driven by its two free lists. It decodes request bytes by itself.

mod calls;
mod cut;
mod ids;
mod kind;
mod lists;
mod port;

pub use ids::Ids;
pub use kind::Kind;
pub use lists::{CallOutcome, FreeLists, Line, LineEvent, Lists, Running};

use crate::flow::{exchanged, BIT_31, LOW_28};
use crate::image::Header;
use crate::parts::{Sizes, KILL, LOCKS, LOCKS_STEP, PARAMS, PROTECTED, TEST_MODE};
use crate::rng::Rng;
use crate::wire::{parity, Answer, Packet, SILENCE};
use port::{decode, Port};

#[derive(Clone, Debug)]
pub struct Board {
    pub sizes: Sizes,
    pub flash: Vec<u8>,
    /// All macros' locks, one after the other.
    pub locks: Vec<u8>,
    pub stored: u8,
    pub in_effect: u8,
    pub latch: Vec<u8>,
    pub params: Vec<u32>,
    pub sysarg: u32,
    pub sysreq: u32,
    pub test_mode: u32,
    pub tar: u32,
    pub posted: u32,
    pub ids: Ids,
    /// S, "a 28-bit privileged sum that no call alters".
    pub privileged: u32,
    /// The bits of the level word that aren't the level.
    pub level_rest: u32,
    pub running: Option<Running>,
    /// Packets that no debug port would take: wrong request parity, data parity, fixed bits.
    pub malformed: u32,
}

/// What an address is.
#[derive(Clone, Copy, PartialEq, Eq, Debug)]
pub enum Place {
    Flash(usize),
    Locks(usize),
    Level,
    SysReq,
    SysArg,
    TestMode,
    Params(usize),
    Elsewhere,
}

impl Board {
    /// A board of the image's sizes, blank, with the image's IDs.
    pub fn blank(header: &Header, stored: u8) -> Board {
        let sizes = header.sizes().expect("a part of the table");
        Board {
            flash: vec![0; sizes.flash()],
            locks: vec![0; sizes.protection()],
            latch: vec![0; sizes.row_bytes()],
            params: vec![0; 2 + sizes.row_bytes() / 4],
            sizes,
            stored,
            in_effect: stored,
            sysarg: 0,
            sysreq: 0,
            test_mode: 0,
            tar: 0,
            posted: 0,
            ids: Ids::of(header),
            privileged: 0,
            level_rest: 0,
            running: None,
            malformed: 0,
        }
    }

    /// "with any contents and no call running"; only the stored level and the IDs are given.
    pub fn any(rng: &mut Rng, header: &Header, stored: u8) -> Board {
        let mut board = Board::blank(header, stored);
        rng.fill(&mut board.flash);
        rng.fill(&mut board.locks);
        board.discharge(rng);
        board.privileged = rng.word() & LOW_28;
        board.level_rest = rng.word();
        board
    }

    /// Whether flash, locks and stored level are the image's.
    pub fn holds(&self, header: &Header, image: &[u8]) -> bool {
        let (flash, locks) = image.split_at(self.sizes.flash());
        self.flash == flash && self.locks == locks && self.stored == header.level
    }

    pub fn place(&self, address: u32) -> Place {
        if address & 3 != 0 {
            return Place::Elsewhere;
        }
        let part = self.sizes.part;
        let inside = |start: u32, size: usize| {
            let offset = address.checked_sub(start)? as usize;
            (offset < size).then_some(offset)
        };
        if let Some(offset) = inside(0, self.flash.len()) {
            return Place::Flash(offset);
        }
        for number in 0..self.sizes.macros {
            let start = LOCKS + number as u32 * LOCKS_STEP;
            if let Some(offset) = inside(start, self.sizes.lock_bytes()) {
                return Place::Locks(number * self.sizes.lock_bytes() + offset);
            }
        }
        if let Some(offset) = inside(PARAMS, 4 * self.params.len()) {
            return Place::Params(offset / 4);
        }
        match address {
            a if a == part.level_word => Place::Level,
            a if a == part.sysreq => Place::SysReq,
            a if a == part.sysarg() => Place::SysArg,
            TEST_MODE => Place::TestMode,
            _ => Place::Elsewhere,
        }
    }

    /// The board meets a packet and answers.
    pub fn answer(&mut self, packet: Packet, lists: &mut impl FreeLists) -> Answer {
        match packet {
            Packet::Xres => {
                self.xres();
                Answer::ResetDone
            }
            Packet::LineReset => Answer::ResetDone,
            Packet::Read { byte } => self.transfer(byte, None, lists),
            Packet::Write { byte, word, parity: bit } if bit == parity(word) => {
                self.transfer(byte, Some(word), lists)
            }
            Packet::Write { .. } => self.lost(&lists.line()),
        }
    }

    /// "XRES puts the stored level in effect, clears SYSREQ and drops a running call as failed."
    fn xres(&mut self) {
        if let Some(call) = self.running.take() {
            self.fail(call);
        }
        self.in_effect = self.stored;
        self.sysreq = 0;
    }

    fn transfer(&mut self, byte: u8, word: Option<u32>, lists: &mut impl FreeLists) -> Answer {
        let event = lists.line();
        let port = decode(byte);
        let reads = word.is_none();
        let fits = match port {
            Some(Port::ReadIdCode | Port::ReadDrw | Port::OtherRead) => reads,
            Some(_) => !reads,
            None => false,
        };
        let Some(port) = port.filter(|_| fits) else {
            return self.lost(&event);
        };
        match self.allowed(port, event.line) {
            Line::Wait => Self::free(2, &event),
            Line::Fault => Self::free(4, &event),
            Line::SilentLost => Self::free(SILENCE, &event),
            Line::NoisyLost => Self::free(event.noise, &event),
            Line::SilentCarriedOut => {
                self.carry_out(port, word, &event, lists);
                Self::free(SILENCE, &event)
            }
            Line::NoisyCarriedOut => {
                self.carry_out(port, word, &event, lists);
                Self::free(event.noise, &event)
            }
            Line::WrongParity if reads => {
                self.carry_out(port, word, &event, lists);
                Answer::Wire { ack: 1, word: event.word, parity: !parity(event.word) }
            }
            Line::Ok | Line::WrongParity => match self.carry_out(port, word, &event, lists) {
                Some(word) => Answer::Wire { ack: 1, word, parity: parity(word) },
                None => Self::free(1, &event),
            },
        }
    }

    /// A packet that no debug port takes is answered by silence and not carried out.
    fn lost(&mut self, event: &LineEvent) -> Answer {
        self.malformed += 1;
        Self::free(SILENCE, event)
    }

    /// An answer whose word and parity don't matter.
    fn free(ack: u32, event: &LineEvent) -> Answer {
        Answer::Wire { ack, word: event.word, parity: event.parity }
    }

    /// "PROTECTED in effect answers FAULT for flash and PARAMS; KILL is silent."
    fn allowed(&self, port: Port, line: Line) -> Line {
        let drw = matches!(port, Port::ReadDrw | Port::WriteDrw);
        let kept = matches!(self.place(self.tar), Place::Flash(_) | Place::Params(_));
        if self.in_effect == KILL {
            return Line::SilentLost;
        }
        if self.in_effect == PROTECTED && drw && kept {
            return match line {
                Line::Ok | Line::WrongParity => Line::Fault,
                Line::SilentCarriedOut => Line::SilentLost,
                Line::NoisyCarriedOut => Line::NoisyLost,
                other => other,
            };
        }
        line
    }

    /// Carries a transfer out; a read gives its word.
    fn carry_out(
        &mut self,
        port: Port,
        word: Option<u32>,
        event: &LineEvent,
        lists: &mut impl FreeLists,
    ) -> Option<u32> {
        match (port, word) {
            (Port::ReadIdCode, _) => Some(self.ids.idcode),
            (Port::ReadDrw, _) => {
                // "A DRW read gives the posted word, then posts the word at TAR"
                let next = self.look(event.elsewhere);
                Some(std::mem::replace(&mut self.posted, next))
            }
            (Port::WriteTar, Some(word)) => {
                self.tar = word;
                None
            }
            (Port::WriteDrw, Some(word)) => {
                self.store(word, lists);
                None
            }
            (Port::OtherRead, _) => Some(event.elsewhere),
            _ => None,
        }
    }

    /// The word at TAR; a look at SYSREQ may end a running call.
    fn look(&mut self, elsewhere: u32) -> u32 {
        let bytes = |bytes: &[u8], at: usize| crate::image::word(&bytes[at..]);
        match self.place(self.tar) {
            Place::Flash(at) => bytes(&self.flash, at),
            Place::Locks(at) => bytes(&self.locks, at),
            // "the stored level as step 8 reads it"
            Place::Level => self.level_rest & 0xF0FF_FFFF | u32::from(exchanged(self.stored & 0xF)) << 24,
            Place::SysReq => self.look_at_sysreq(),
            Place::SysArg => self.sysarg,
            Place::TestMode => self.test_mode,
            Place::Params(at) => self.params[at],
            Place::Elsewhere => elsewhere,
        }
    }

    /// "how many DRW reads of SYSREQ post it busy (bit 31 set), then success or failure, which
    /// takes effect there".
    fn look_at_sysreq(&mut self) -> u32 {
        match self.running.take() {
            Some(mut call) if call.outcome.busy > 0 => {
                call.outcome.busy -= 1;
                self.running = Some(call);
                return self.sysreq | BIT_31;
            }
            Some(call) if call.outcome.success => self.succeed(call.command),
            Some(call) => self.fail(call),
            None => {}
        }
        self.sysreq
    }

    fn store(&mut self, word: u32, lists: &mut impl FreeLists) {
        match self.place(self.tar) {
            Place::SysReq => {
                self.sysreq = word;
                if word & BIT_31 != 0 {
                    self.running = Some(Running { command: word & !BIT_31, outcome: lists.call() });
                }
            }
            Place::SysArg => self.sysarg = word,
            Place::TestMode => self.test_mode = word,
            Place::Params(at) => self.params[at] = word,
            Place::Flash(_) | Place::Locks(_) | Place::Level | Place::Elsewhere => {}
        }
    }
}

#[cfg(test)]
mod tests;
