//! A cut on both sides of each of its limits.

use super::*;
use crate::board::Lists;
use crate::flow::{CHECKSUM, ERASE_ALL, LOAD_LATCH, PROGRAM_ROW, SET_IMO, SILICON_ID, WRITE_PROTECTION};
use crate::parts::{KILL, OPEN, PROTECTED};
use crate::texts::sample_image;
use crate::wire::{Answer, Packet, Register};

const LEVELS: [u8; 3] = [OPEN, PROTECTED, KILL];

/// A residue: flash and locks from this seed, or kept; the level sent stored, or the old one kept.
fn residue(scramble: Option<u64>, stores: bool) -> CallOutcome {
    CallOutcome { success: false, scramble, stores, ..CallOutcome::OK }
}

/// A board of part 3 with two macros, of any contents.
fn board(stored: u8) -> Board {
    let mut rng = Rng(51);
    let (header, _) = sample_image(&mut rng, 3, 2);
    Board::any(&mut rng, &header, stored)
}

/// The argument of 0x0D for this level and macro.
fn argument(level: u8, number: u32) -> u32 {
    number << 24 | u32::from(level) << 16 | 0xE0B6
}

/// A board on which a call with this argument runs, whose own entry is this.
fn running(stored: u8, command: u32, sysarg: u32, outcome: CallOutcome) -> Board {
    Board { running: Some(Running { command, outcome }), sysarg, ..board(stored) }
}

/// The board before the cut and after it.
fn cut(before: Board, residue: CallOutcome) -> (Board, Board) {
    let mut after = before.clone();
    after.cut(residue, &mut Rng(52));
    assert!(after.running.is_none());
    (before, after)
}

fn keeps_memory((before, after): &(Board, Board)) -> bool {
    before.flash == after.flash && before.locks == after.locks
}

/// Bytes as the residue has them up to a place, which is given, and as before from there on.
fn came_to(after: &[u8], residue: &[u8], before: &[u8]) -> usize {
    let place = (0..after.len()).find(|&at| after[at] != residue[at]).unwrap_or(after.len());
    assert!(after[place..] == before[place..]);
    place
}

/// Every residue that these tests use.
fn residues() -> [CallOutcome; 4] {
    [residue(None, false), residue(None, true), residue(Some(9), false), residue(Some(9), true)]
}

/// With nothing running flash, locks and level stay, whatever SYSARG and SYSREQ hold.
#[test]
fn nothing_runs() {
    for stored in LEVELS {
        for residue in residues() {
            let mut before = board(stored);
            (before.sysarg, before.sysreq) = (argument(KILL, 0), 0x8000_000D);
            let both = cut(before, residue);
            assert!(keeps_memory(&both));
            assert_eq!(both.1.stored, stored);
        }
    }
}

/// "unless it is 0, 0x0B or 0x15": these leave flash, locks and level.
#[test]
fn calls_that_leave_the_memory() {
    for command in [SILICON_ID, CHECKSUM, SET_IMO] {
        for residue in residues() {
            let entry = CallOutcome { scramble: Some(8), stores: true, ..CallOutcome::OK };
            let both = cut(running(OPEN, command, argument(KILL, 0), entry), residue);
            assert!(keeps_memory(&both), "{command:#x}");
            assert_eq!(both.1.stored, OPEN);
        }
    }
}

/// "any flash, locks and latch": those of the residue, not of the call's own entry, and never its success.
#[test]
fn calls_that_leave_anything() {
    let entries = [CallOutcome::OK, residue(Some(8), true), residue(None, false)];
    for (command, entry) in
        [LOAD_LATCH, PROGRAM_ROW, ERASE_ALL, WRITE_PROTECTION].iter().flat_map(|&c| entries.map(|e| (c, e)))
    {
        let start = || running(PROTECTED, command, argument(OPEN, 1), entry);
        assert!(keeps_memory(&cut(start(), residue(None, true))), "{command:#x}");
        let (before, after) = cut(start(), residue(Some(9), true));
        let mut rng = Rng(9);
        came_to(&after.flash, &rng.bytes(before.flash.len()), &before.flash);
        came_to(&after.locks, &rng.bytes(before.locks.len()), &before.locks);
        assert_eq!(after.stored, PROTECTED);
    }
}

/// All of the flash, none of it, and what is between.
#[test]
fn half_done() {
    let (before, made) =
        (running(OPEN, ERASE_ALL, PARAMS, CallOutcome::OK), Rng(9).bytes(board(OPEN).flash.len()));
    let mut rng = Rng(54);
    let places: Vec<usize> = (0..40)
        .map(|_| {
            let mut after = before.clone();
            after.cut(residue(Some(9), false), &mut rng);
            came_to(&after.flash, &made, &before.flash)
        })
        .collect();
    let whole = places.iter().filter(|&&place| place == made.len()).count();
    assert!(whole > 5 && whole < 35, "{places:?}");
    assert_eq!(cut(before, residue(None, false)).1.flash, board(OPEN).flash);
}

/// 4, 6 and 0x0A store no level, whatever their argument looks like.
#[test]
fn other_calls_store_no_level() {
    for command in [LOAD_LATCH, PROGRAM_ROW, ERASE_ALL] {
        for residue in residues() {
            let before = running(OPEN, command, argument(KILL, 0), CallOutcome::OK);
            assert_eq!(cut(before, residue).1.stored, OPEN, "{command:#x}");
        }
    }
}

/// "a failed 0x0D on macro 0 stores the old level or the one sent": as the residue says, not the entry.
#[test]
fn level_on_macro_0() {
    for (stored, sent) in LEVELS.iter().flat_map(|&stored| LEVELS.map(|sent| (stored, sent))) {
        for new in [false, true] {
            for entry in [CallOutcome::OK, residue(Some(8), !new)] {
                let mut before = running(stored, WRITE_PROTECTION, argument(sent, 0), entry);
                // The reopening, where PROTECTED is in effect and OPEN sent, is no exception.
                before.in_effect = stored;
                let both = cut(before, residue(None, new));
                assert_eq!(both.1.stored, if new { sent } else { stored });
                assert!(keeps_memory(&both));
            }
        }
    }
}

/// "on macro 0 only".
#[test]
fn no_level_on_other_macros() {
    for number in [1, 2, 255] {
        for residue in residues() {
            let before = running(OPEN, WRITE_PROTECTION, argument(KILL, number), CallOutcome::OK);
            assert_eq!(cut(before, residue).1.stored, OPEN, "macro {number}");
        }
    }
}

/// The call is gone: a later look at SYSREQ ends nothing.
#[test]
fn nothing_runs_afterwards() {
    let entry = CallOutcome { busy: 3, ..CallOutcome::OK };
    let (before, mut after) = cut(running(OPEN, ERASE_ALL, PARAMS, entry), residue(None, false));
    let mut lists = Lists::default();
    assert_eq!(after.answer(Packet::Xres, &mut lists), Answer::ResetDone);
    assert_eq!((after.in_effect, after.sysreq), (OPEN, 0));
    after.answer(Packet::write(Register::Tar, after.sizes.part.sysreq), &mut lists);
    for _ in 0..6 {
        after.answer(Packet::read(Register::Drw), &mut lists);
    }
    assert_eq!((after.posted, lists.calls_used), (0, 0));
    assert!(after.flash == before.flash && after.locks == before.locks);
}

/// What has no charge is anything, "Sizes and IDs stay", and S.
#[test]
fn what_has_no_charge() {
    let mut rng = Rng(53);
    let (mut levels, mut board) = ([0; 16], board(OPEN));
    for _ in 0..200 {
        let before = board.clone();
        board.cut(residue(Some(rng.draw()), true), &mut rng);
        levels[usize::from(board.in_effect)] += 1;
        assert!(board.latch != before.latch && board.params != before.params);
        assert!(board.sysarg != before.sysarg && board.sysreq != before.sysreq);
        assert!(board.test_mode != before.test_mode && board.posted != before.posted);
        assert_eq!((board.latch.len(), board.params.len()), (before.latch.len(), before.params.len()));
        assert_eq!((board.ids, board.privileged, board.sizes), (before.ids, before.privileged, before.sizes));
    }
    assert!(levels.iter().all(|&count| count > 0), "{levels:?}");
}
