//! Where a session can stand, and what each place hands out.

use crate::flow::{
    Report, CHECKSUM, ERASE_ALL, LOAD_LATCH, PROGRAM_ROW, SET_IMO, SILICON_ID, WRITE_PROTECTION,
};
use crate::image::word;
use crate::parts::Sizes;
use crate::wire::{Packet, Register};

/// The calls of the flow, in its order.
#[derive(Clone, Copy, PartialEq, Eq, Debug)]
pub(super) enum Call {
    Imo,
    SiliconId,
    Erase,
    Reopen,
    FirstSum,
    LoadRow(u16),
    ProgramRow(u16),
    LoadLocks(u8),
    Protect(u8),
    LastSum,
}

/// "Call c = Write SYSARG, Write SYSREQ with 0x80000000 + c, Poll, Read SYSARG", a list before.
#[derive(Clone, Copy, PartialEq, Eq, Debug)]
pub(super) enum Phase {
    List(u8),
    Argument,
    Command,
    Poll,
    Status,
}

/// Where the flow stands: a reset, a port register, or one Write or Read.
#[derive(Clone, Copy, PartialEq, Eq, Debug)]
pub(super) enum Place {
    Xres,
    LineReset,
    IdCode,
    CtrlStat,
    Select,
    Csw,
    EnterTestMode,
    ReadTestMode,
    PollTestMode,
    Call(Call, Phase),
    SiliconSysArg,
    SiliconSysReq,
    ReadFirstSum,
    VerifyFlash(u32),
    VerifyLocks(u8, u8),
    VerifyLevel,
    ReadLastSum,
    Reported(Report),
}

/// A place's requests: a reset, a single transfer, "Write = TAR, DRW" or "Read = TAR, DRW, DRW".
#[derive(Clone, Copy, PartialEq, Eq, Debug)]
pub(super) enum Operation {
    Reset(Packet),
    IdCode,
    Port(Register, u32),
    Write(u32, u32),
    Read(u32),
}

/// How a place is answered: a reset, an attempt, or so many transfers of which those from `reads` on
/// are reads.
#[derive(Clone, Copy, PartialEq, Eq, Debug)]
pub(super) enum Shape {
    Reset,
    Attempt,
    Transfers { count: u8, reads: u8 },
}

impl Place {
    pub(super) fn shape(self) -> Shape {
        match self {
            Place::Xres | Place::LineReset | Place::Reported(_) => Shape::Reset,
            Place::IdCode => Shape::Attempt,
            Place::CtrlStat | Place::Select | Place::Csw => Shape::Transfers { count: 1, reads: 1 },
            Place::EnterTestMode | Place::Call(_, Phase::List(_) | Phase::Argument | Phase::Command) => {
                Shape::Transfers { count: 2, reads: 2 }
            }
            _ => Shape::Transfers { count: 3, reads: 1 },
        }
    }
}

impl Operation {
    pub(super) fn packet(self, transfer: u8) -> Packet {
        match (self, transfer) {
            (Operation::Reset(reset), _) => reset,
            (Operation::IdCode, _) => Packet::read(Register::IdCode),
            (Operation::Port(register, word), _) => Packet::write(register, word),
            (Operation::Write(address, _) | Operation::Read(address), 0) => {
                Packet::write(Register::Tar, address)
            }
            (Operation::Write(_, word), _) => Packet::write(Register::Drw, word),
            (Operation::Read(_), _) => Packet::read(Register::Drw),
        }
    }
}

pub(super) fn command(call: Call) -> u32 {
    match call {
        Call::Imo => SET_IMO,
        Call::SiliconId => SILICON_ID,
        Call::Erase => ERASE_ALL,
        Call::Reopen | Call::Protect(_) => WRITE_PROTECTION,
        Call::FirstSum | Call::LastSum => CHECKSUM,
        Call::LoadRow(_) | Call::LoadLocks(_) => LOAD_LATCH,
        Call::ProgramRow(_) => PROGRAM_ROW,
    }
}

/// Words that the call lists; 0 for one whose argument is its word.
pub(super) fn list_length(sizes: &Sizes, call: Call) -> u8 {
    match call {
        Call::Erase | Call::ProgramRow(_) => 1,
        Call::LoadRow(_) => 2 + (sizes.row_bytes() / 4) as u8,
        Call::LoadLocks(_) => 2 + (sizes.lock_bytes() / 4) as u8,
        _ => 0,
    }
}

/// A call from its first Write on.
pub(super) fn begin(call: Call) -> Place {
    let phase = match call {
        Call::Erase | Call::LoadRow(_) | Call::ProgramRow(_) | Call::LoadLocks(_) => Phase::List(0),
        _ => Phase::Argument,
    };
    Place::Call(call, phase)
}

/// "listed call 4, list k + macro × 2^24, L - 1, then the row's words"
pub(super) fn latch_word(k: u32, number: u32, bytes: &[u8], index: u8) -> u32 {
    match index {
        0 => k + (number << 24),
        1 => bytes.len() as u32 - 1,
        _ => word(&bytes[4 * usize::from(index) - 8..]),
    }
}
