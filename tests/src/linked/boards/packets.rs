//! Single packets of every kind, also such as no session sends, kept off what the papers leave open.

use crate::board::{Board, CallOutcome, FreeLists, Line, LineEvent, Place};
use crate::flow::{
    BIT_31, CHECKSUM, ERASE_ALL, LOAD_LATCH, PROGRAM_ROW, SET_IMO, SILICON_ID, WRITE_PROTECTION,
};
use crate::parts::{LOCKS, LOCKS_STEP, PARAMS, TEST_MODE};
use crate::play::RandomLists;
use crate::rng::Rng;
use crate::wire::{parity, request_byte, Packet, Register};
use std::collections::VecDeque;

/// The calls that 'The plain board' speaks of.
pub const CALLS: [u32; 7] =
    [SILICON_ID, LOAD_LATCH, PROGRAM_ROW, ERASE_ALL, CHECKSUM, WRITE_PROTECTION, SET_IMO];

/// The entries for one packet.
pub struct Entries {
    pub event: LineEvent,
    pub call: CallOutcome,
}

impl FreeLists for Entries {
    fn line(&mut self) -> LineEvent {
        self.event
    }

    fn call(&mut self) -> CallOutcome {
        self.call
    }
}

/// A call that succeeds or fails, and what it leaves if it fails or XRES drops it.
pub fn any_call(rng: &mut Rng) -> CallOutcome {
    CallOutcome { busy: rng.below(4) as u32, success: !rng.chance(3), ..RandomLists::failure(rng) }
}

fn any_entries(rng: &mut Rng) -> Entries {
    let line = if rng.chance(4) { *rng.pick(&Line::DISTURBANCES) } else { Line::Ok };
    Entries { event: RandomLists::event(rng, line), call: any_call(rng) }
}

/// What is still to be sent of a Write, a Read or a call; other packets come between.
#[derive(Default)]
pub struct Packets {
    queue: VecDeque<Packet>,
}

impl Packets {
    pub fn next(&mut self, rng: &mut Rng, board: &Board) -> (Packet, Entries) {
        if self.queue.is_empty() && rng.bit() {
            self.plan(rng, board);
        }
        let planned = if rng.chance(8) { None } else { self.queue.pop_front() };
        let packet = planned.unwrap_or_else(|| any_packet(rng, board));
        let mut entries = any_entries(rng);
        if is_open_read(board, packet) {
            entries.event.line = Line::Wait;
        }
        (keep_off(board, packet), entries)
    }

    fn write(&mut self, address: u32, word: u32) {
        self.queue.extend([Packet::write(Register::Tar, address), Packet::write(Register::Drw, word)]);
    }

    /// A call with its words, mostly, or a Read.
    fn plan(&mut self, rng: &mut Rng, board: &Board) {
        let (part, any) = (board.sizes.part, u32::from(rng.byte()));
        if rng.chance(4) {
            self.queue.push_back(Packet::write(Register::Tar, any_address(rng, board)));
        } else {
            let call = if rng.chance(8) { any } else { *rng.pick(&CALLS) };
            if [LOAD_LATCH, PROGRAM_ROW].contains(&call) {
                let row = rng.below(board.sizes.rows() * 5 / 4) as u32;
                self.write(PARAMS, if rng.chance(8) { rng.word() } else { row << 16 | any });
                self.write(PARAMS + 4, if rng.chance(8) { rng.word() } else { any % 140 });
                self.write(PARAMS + 8 + 4 * (any % 32), rng.word());
            }
            self.write(part.sysarg(), any_argument(rng, call));
            self.write(part.sysreq, BIT_31 | call | if rng.chance(8) { rng.word() } else { 0 });
        }
        for _ in 0..1 + rng.below(5) {
            self.queue.push_back(Packet::read(Register::Drw));
        }
    }
}

/// SYSARG for a call: PARAMS, level and macro, or anything.
fn any_argument(rng: &mut Rng, call: u32) -> u32 {
    let level = if rng.bit() { *rng.pick(&[0, 1, 1, 2, 4]) } else { u32::from(rng.byte()) };
    let number = if rng.chance(8) { u32::from(rng.byte()) } else { rng.below(3) as u32 };
    match call {
        LOAD_LATCH | PROGRAM_ROW => PARAMS,
        WRITE_PROTECTION => number << 24 | level << 16 | rng.word() >> 16,
        _ => rng.word(),
    }
}

/// Any address, most of them where something is, or near it.
fn any_address(rng: &mut Rng, board: &Board) -> u32 {
    let (part, flash) = (board.sizes.part, board.flash.len());
    let near = 4 * rng.below(48) as u32;
    match rng.below(9) {
        0 => rng.word(),
        1 => 4 * rng.below(flash / 4 + 4) as u32,
        2 => flash as u32 + 96 - near,
        3 => LOCKS + LOCKS_STEP * rng.below(3) as u32 + near - 8,
        4 => part.level_word,
        5 => PARAMS + near - 8,
        6 => *rng.pick(&[TEST_MODE - 4, TEST_MODE, TEST_MODE, TEST_MODE + 4]),
        7 => part.sysreq,
        _ => *rng.pick(&[part.sysreq - 4, part.sysarg(), part.sysarg() + 4]),
    }
}

fn any_packet(rng: &mut Rng, board: &Board) -> Packet {
    let formed = request_byte(rng.bit(), rng.bit(), rng.byte());
    let byte = if rng.bit() { formed } else { rng.byte() };
    let word = if rng.chance(4) { PARAMS } else { rng.word() };
    let registers =
        [Register::Tar, Register::Drw, Register::Drw, Register::CtrlStat, Register::Select, Register::Csw];
    let written = rng.pick(&registers).write_byte();
    match rng.below(20) {
        0 => Packet::Xres,
        1 => Packet::LineReset,
        2 | 3 => Packet::Read { byte },
        4 => Packet::Write { byte, word, parity: parity(word) != rng.chance(4) },
        5 | 6 => Packet::Write { byte: written, word, parity: !parity(word) },
        7 | 8 => Packet::Write { byte: written, word, parity: parity(word) },
        9 => Packet::read(Register::IdCode),
        10..=12 => Packet::write(Register::Tar, any_address(rng, board)),
        13..=15 => Packet::write(Register::Drw, word),
        _ => Packet::read(Register::Drw),
    }
}

/// An address that is no multiple of 4 where something is, and a number over 255 that ends like a call of
/// the board: the papers say nothing of either.
fn keep_off(board: &Board, packet: Packet) -> Packet {
    const TAR: u8 = Register::Tar.write_byte();
    const DRW: u8 = Register::Drw.write_byte();
    match packet {
        Packet::Write { byte: TAR, word, parity: bit }
            if bit == parity(word) && board.place(word & !3) != Place::Elsewhere =>
        {
            Packet::write(Register::Tar, word & !3)
        }
        Packet::Write { byte: DRW, word, parity: bit }
            if bit == parity(word)
                && board.place(board.tar) == Place::SysReq
                && word & BIT_31 != 0
                && CALLS.contains(&(word & 0xFF)) =>
        {
            Packet::write(Register::Drw, word & (BIT_31 | 0xFF))
        }
        _ => packet,
    }
}

/// The read at which 4 or 6 would take a list that is not at PARAMS: nobody says which words those are.
pub fn is_open_read(board: &Board, packet: Packet) -> bool {
    let listed = |call: u32| [LOAD_LATCH, PROGRAM_ROW].contains(&call);
    packet == Packet::read(Register::Drw)
        && board.place(board.tar) == Place::SysReq
        && board.sysarg != PARAMS
        && board
            .running
            .is_some_and(|call| call.outcome.success && call.outcome.busy == 0 && listed(call.command))
}
