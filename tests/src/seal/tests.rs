//! 'Succeeded' on both sides of each of its limits.

use super::*;
use crate::board::{CallOutcome, Line, LineEvent, Lists, Running};
use crate::flow::{LOAD_LATCH, WRITE_PROTECTION};
use crate::parts::{KILL, OPEN, PROTECTED};
use crate::rng::Rng;
use crate::texts::sample_image;
use crate::wire::{Packet, Register};

const READ: Packet = Packet::read(Register::Drw);
const LEVELS: [u8; 3] = [OPEN, PROTECTED, KILL];

/// A board of part 3 with two macros, OPEN stored, on which this call runs; TAR is at SYSREQ.
fn running(command: u32, sysarg: u32, outcome: CallOutcome) -> Board {
    let mut rng = Rng(71);
    let (header, _) = sample_image(&mut rng, 3, 2);
    let mut board = Board::any(&mut rng, &header, OPEN);
    (board.in_effect, board.tar, board.sysarg) = (OPEN, board.sizes.part.sysreq, sysarg);
    board.running = Some(Running { command, outcome });
    board
}

/// 0x0D for this level and macro.
fn locking(level: u8, number: u32, outcome: CallOutcome) -> Board {
    running(WRITE_PROTECTION, number << 24 | u32::from(level) << 16 | 0xE0B6, outcome)
}

/// Whether the board is sealed after each of these packets, the line doing this to each transfer.
fn after(mut board: Board, packets: &[(Packet, Line)]) -> Vec<bool> {
    let mut seal = Seal::of(&board);
    assert!(!seal.sealed);
    packets
        .iter()
        .map(|&(packet, line)| {
            board.answer(packet, &mut Lists { line: vec![LineEvent::of(line)], ..Lists::default() });
            seal.met(&board);
            seal.sealed
        })
        .collect()
}

fn failed(stores: bool) -> CallOutcome {
    CallOutcome { success: false, stores, ..CallOutcome::OK }
}

/// The read in which the call ends, and it stays so whatever is met then, also where step 7 sends OPEN.
#[test]
fn at_the_read_where_the_call_ends() {
    for level in LEVELS {
        let board = || locking(level, 0, CallOutcome::OK);
        for line in [Line::Ok, Line::SilentCarriedOut, Line::NoisyCarriedOut, Line::WrongParity] {
            assert_eq!(after(board(), &[(READ, line), (READ, Line::Fault)]), [true, true]);
            assert_eq!(after(board(), &[(READ, line), (Packet::Xres, Line::Ok)]), [true, true]);
        }
    }
}

/// A read that is not carried out ends nothing; nor does a look elsewhere, a write or a line reset.
#[test]
fn not_before_it() {
    let board = || locking(KILL, 0, CallOutcome::OK);
    for line in [Line::Wait, Line::Fault, Line::SilentLost, Line::NoisyLost] {
        assert_eq!(after(board(), &[(READ, line)]), [false]);
        assert_eq!(after(board(), &[(READ, line), (READ, Line::Ok)]), [false, true]);
    }
    let tar = Packet::write(Register::Tar, board().sizes.part.sysarg());
    let packets = [(Packet::LineReset, Line::Ok), (tar, Line::Ok), (READ, Line::Ok)];
    assert_eq!(after(board(), &packets), [false; 3]);
}

#[test]
fn not_while_busy() {
    let board = locking(PROTECTED, 0, CallOutcome { busy: 2, ..CallOutcome::OK });
    assert_eq!(after(board, &[(READ, Line::Ok); 4]), [false, false, true, true]);
    // SYSARG alone is no success, should someone write it meanwhile.
    let board = locking(PROTECTED, 0, CallOutcome { busy: 2, ..CallOutcome::OK });
    let write =
        [Packet::write(Register::Tar, board.sizes.part.sysarg()), Packet::write(Register::Drw, 0xA000_0000)];
    assert_eq!(after(board, &write.map(|packet| (packet, Line::Ok))), [false; 2]);
}

/// Not a call that fails, also where it stores the level.
#[test]
fn not_after_failure() {
    for (stores, level) in [false, true].into_iter().flat_map(|stores| LEVELS.map(|level| (stores, level))) {
        assert_eq!(after(locking(level, 0, failed(stores)), &[(READ, Line::Ok); 2]), [false; 2]);
    }
}

/// "XRES ... drops a running call as failed", though its entry says success.
#[test]
fn not_after_xres() {
    for stores in [false, true] {
        let board = locking(KILL, 0, CallOutcome { stores, ..CallOutcome::OK });
        assert_eq!(after(board, &[(Packet::Xres, Line::Ok), (READ, Line::Ok)]), [false; 2]);
    }
}

/// A cut drops it too, whatever SYSARG holds then; a board sealed before stays so.
#[test]
fn not_after_a_cut() {
    for sealed in [false, true] {
        let mut board = locking(PROTECTED, 0, CallOutcome::OK);
        let mut seal = Seal::of(&board);
        if sealed {
            board.answer(READ, &mut Lists::default());
            seal.met(&board);
        }
        board.cut(failed(true), &mut Rng(72));
        seal.cut();
        board.sysarg = 0xA000_0000;
        board.answer(Packet::Xres, &mut Lists::default());
        seal.met(&board);
        assert_eq!((seal.sealed, board.stored), (sealed, PROTECTED));
    }
}

/// Not macro 1's call, nor one of another number with the same argument.
#[test]
fn not_another_call() {
    assert_eq!(after(locking(KILL, 1, CallOutcome::OK), &[(READ, Line::Ok)]), [false]);
    assert_eq!(after(running(LOAD_LATCH, 0x0004_E0B6, CallOutcome::OK), &[(READ, Line::Ok)]), [false]);
}

/// Not the reopening call; with PROTECTED in effect another level reopens nothing.
#[test]
fn not_the_reopening_call() {
    for (level, sealed) in [(OPEN, false), (PROTECTED, true), (KILL, true)] {
        let board = Board { in_effect: PROTECTED, ..locking(level, 0, CallOutcome::OK) };
        assert_eq!(after(board, &[(READ, Line::Ok)]), [sealed]);
    }
}

/// A call that starts while the session runs is watched as one that ran before it.
#[test]
fn begun_by_the_session() {
    let mut board = locking(OPEN, 0, CallOutcome::OK);
    board.running = None;
    let start = Packet::write(Register::Drw, 0x8000_000D);
    assert_eq!(after(board, &[(start, Line::SilentCarriedOut), (READ, Line::Ok)]), [false, true]);
}
