//! What a packet was, told by the board before and after it: every kind must be reached.

use super::packets::CALLS;
use crate::board::{Board, CallOutcome, Line, LineEvent, Place, Running};
use crate::flow::{PROGRAM_ROW, WRITE_PROTECTION};
use crate::linked::bench::is_of_other_register;
use crate::parts::{KILL, OPEN, PROTECTED};
use crate::wire::{acknowledgement, parity, Ack, Answer, Packet, Register};

/// What a packet's kind depends on, before it.
#[derive(Clone, Copy)]
pub struct Before {
    pub place: Place,
    pub in_effect: u8,
    pub stored: u8,
    pub sysarg: u32,
    pub tar: u32,
    pub posted: u32,
    pub running: Option<Running>,
}

impl Before {
    pub fn of(board: &Board) -> Before {
        let Board { in_effect, stored, sysarg, tar, posted, running, .. } = *board;
        Before { place: board.place(tar), in_effect, stored, sysarg, tar, posted, running }
    }
}

pub struct Seen<'a> {
    pub before: Before,
    pub packet: Packet,
    pub answer: Answer,
    pub event: Option<LineEvent>,
    pub call: Option<CallOutcome>,
    pub board: &'a Board,
}

impl Seen<'_> {
    fn line(&self, line: Line) -> bool {
        self.event.is_some_and(|event| event.line == line)
    }

    fn ack(&self, wanted: Ack) -> bool {
        matches!(self.answer, Answer::Wire { ack, .. } if acknowledgement(ack) == wanted)
    }

    fn reads(&self) -> bool {
        matches!(self.packet, Packet::Read { .. })
    }

    fn is(&self, packet: Packet) -> bool {
        self.packet == packet
    }

    fn in_effect(&self, level: u8) -> bool {
        self.before.in_effect == level
    }

    /// The parity bit is not the word's.
    fn is_wrong_write(&self) -> bool {
        matches!(self.packet, Packet::Write { word, parity: bit, .. } if bit != parity(word))
    }

    fn alters(&self) -> bool {
        (self.board.tar, self.board.posted) != (self.before.tar, self.before.posted)
    }

    /// What PROTECTED keeps from being read.
    fn is_kept_read(&self) -> bool {
        self.is(Packet::read(Register::Drw))
            && matches!(self.before.place, Place::Flash(_) | Place::Params(_))
    }

    fn reads_drw(&self, place: fn(Place) -> bool) -> bool {
        self.is(Packet::read(Register::Drw)) && self.ack(Ack::Ok) && place(self.before.place)
    }

    fn writes_drw(&self, place: fn(Place) -> bool) -> bool {
        const DRW: u8 = Register::Drw.write_byte();
        let is_drw = matches!(self.packet, Packet::Write { byte: DRW, .. });
        is_drw && !self.is_wrong_write() && self.ack(Ack::Ok) && place(self.before.place)
    }

    /// The call that ended here, succeeded or failed.
    pub fn ended(&self) -> Option<Running> {
        self.before.running.filter(|_| self.board.running.is_none())
    }

    fn protects(&self, success: bool) -> bool {
        let ends = |call: Running| call.command == WRITE_PROTECTION && call.outcome.success == success;
        self.ended().is_some_and(ends) && !self.is(Packet::Xres)
    }

    fn macro_sent(&self) -> usize {
        (self.before.sysarg >> 24) as usize
    }

    fn level_sent(&self) -> u8 {
        (self.before.sysarg >> 16) as u8 & 0xF
    }

    fn programs(&self) -> bool {
        self.ended().is_some_and(|call| call.command == PROGRAM_ROW && call.outcome.success)
    }

    fn failed_to_protect(&self) -> bool {
        self.protects(false) && self.macro_sent() == 0 && self.level_sent() != self.before.stored
    }
}

type Kind = (&'static str, fn(&Seen) -> bool);

pub const KINDS: [Kind; 51] = [
    ("OK", |s| s.ack(Ack::Ok)),
    ("WAIT", |s| s.ack(Ack::Wait)),
    ("FAULT of the list", |s| s.ack(Ack::Fault) && s.line(Line::Fault)),
    ("FAULT by PROTECTED", |s| s.ack(Ack::Fault) && s.line(Line::Ok)),
    ("FAULT by PROTECTED, not wrong parity", |s| s.ack(Ack::Fault) && s.line(Line::WrongParity)),
    ("silence carried out", |s| s.line(Line::SilentCarriedOut) && s.alters()),
    ("silence by PROTECTED not carried out", |s| {
        s.line(Line::SilentCarriedOut) && s.in_effect(PROTECTED) && s.is_kept_read()
    }),
    ("silence not carried out", |s| s.line(Line::SilentLost)),
    ("noise carried out", |s| s.line(Line::NoisyCarriedOut) && s.ack(Ack::Noise) && s.alters()),
    ("noise by PROTECTED not carried out", |s| {
        s.line(Line::NoisyCarriedOut) && s.in_effect(PROTECTED) && s.is_kept_read()
    }),
    ("noise not carried out", |s| s.line(Line::NoisyLost) && s.ack(Ack::Noise)),
    ("silence by KILL", |s| s.ack(Ack::Silence) && s.in_effect(KILL) && s.line(Line::Ok)),
    ("silence by KILL, not WAIT", |s| s.in_effect(KILL) && s.line(Line::Wait)),
    ("silence by KILL, not noise", |s| {
        s.ack(Ack::Silence) && s.in_effect(KILL) && s.line(Line::NoisyCarriedOut)
    }),
    ("silence by a packet that is no request, not noise", |s| {
        s.ack(Ack::Silence) && !s.in_effect(KILL) && s.line(Line::NoisyLost)
    }),
    ("wrong parity", |s| s.line(Line::WrongParity) && s.ack(Ack::Ok) && s.reads()),
    ("wrong parity met by a write", |s| s.line(Line::WrongParity) && s.ack(Ack::Ok) && !s.reads()),
    ("request byte that no port takes", |s| {
        s.line(Line::Ok) && s.ack(Ack::Silence) && !s.in_effect(KILL) && !s.is_wrong_write()
    }),
    ("other register", |s| is_of_other_register(s.packet)),
    ("write of wrong parity", |s| s.is_wrong_write()),
    ("line reset", |s| s.is(Packet::LineReset)),
    ("XRES", |s| s.is(Packet::Xres)),
    ("XRES with a call running", |s| s.is(Packet::Xres) && s.ended().is_some()),
    ("XRES puts PROTECTED in effect", |s| s.is(Packet::Xres) && s.board.in_effect == PROTECTED),
    ("XRES puts KILL in effect", |s| s.is(Packet::Xres) && s.board.in_effect == KILL),
    ("call", |s| s.call.is_some()),
    ("call while one runs", |s| s.call.is_some() && s.before.running.is_some()),
    ("call with PROTECTED in effect", |s| s.call.is_some() && s.in_effect(PROTECTED)),
    ("call by a silent write", |s| s.call.is_some() && s.ack(Ack::Silence)),
    ("call by a noisy write", |s| s.call.is_some() && s.ack(Ack::Noise)),
    ("SYSREQ without bit 31 while a call runs", |s| {
        s.writes_drw(|at| at == Place::SysReq) && s.call.is_none() && s.board.running.is_some()
    }),
    ("busy read", |s| s.before.running.is_some_and(|was| s.board.running.is_some_and(|now| now != was))),
    ("call ended by a silent read", |s| s.ended().is_some() && s.ack(Ack::Silence)),
    ("call ended by a noisy read", |s| s.ended().is_some() && s.ack(Ack::Noise)),
    ("failure with a residue", |s| {
        s.ended().is_some_and(|call| !call.outcome.success && call.outcome.scramble.is_some())
    }),
    ("0x0D reopens", |s| s.protects(true) && s.in_effect(PROTECTED) && s.level_sent() == OPEN),
    ("0x0D on macro 1", |s| s.protects(true) && s.macro_sent() == 1 && s.board.sizes.macros == 2),
    ("0x0D on a macro that is not there", |s| s.protects(true) && s.macro_sent() >= s.board.sizes.macros),
    ("0x0D failed, level stored", |s| s.failed_to_protect() && s.board.stored != s.before.stored),
    ("0x0D failed, level kept", |s| s.failed_to_protect() && s.board.stored == s.before.stored),
    ("6 with a row that is not there", |s| {
        s.programs() && (s.board.params[0] >> 16) as usize >= s.board.sizes.rows()
    }),
    ("flash read", |s| s.reads_drw(|at| matches!(at, Place::Flash(_)))),
    ("locks read", |s| s.reads_drw(|at| matches!(at, Place::Locks(_)))),
    ("level read", |s| s.reads_drw(|at| at == Place::Level)),
    ("PARAMS read", |s| s.reads_drw(|at| matches!(at, Place::Params(_)))),
    ("TEST_MODE read", |s| s.reads_drw(|at| at == Place::TestMode)),
    ("elsewhere read", |s| s.reads_drw(|at| at == Place::Elsewhere)),
    ("flash written, nothing done", |s| s.writes_drw(|at| matches!(at, Place::Flash(_)))),
    ("locks written, nothing done", |s| s.writes_drw(|at| matches!(at, Place::Locks(_)))),
    ("level written, nothing done", |s| s.writes_drw(|at| at == Place::Level)),
    ("elsewhere written, nothing done", |s| s.writes_drw(|at| at == Place::Elsewhere)),
];

/// A call's number for counting: those of the board, or 256 for any other.
pub fn counted(command: u32) -> u32 {
    if CALLS.contains(&command) {
        command
    } else {
        256
    }
}
