//! The board's own behaviour, also where no session goes.

use super::*;
use crate::parts::{OPEN, PROTECTED};
use crate::texts::sample_image;
use crate::wire::Register;

const SYSREQ: u32 = 0x4010_0004;
const SYSARG: u32 = 0x4010_0008;

/// A board of part 3 with two macros, of any contents, its stored level in effect.
fn board(stored: u8) -> (Board, Lists) {
    let mut rng = Rng(41);
    let (header, _) = sample_image(&mut rng, 3, 2);
    let mut board = Board::any(&mut rng, &header, stored);
    assert_eq!(board.answer(Packet::Xres, &mut Lists::default()), Answer::ResetDone);
    (board, Lists::default())
}

fn ack(answer: Answer) -> u32 {
    match answer {
        Answer::Wire { ack, .. } => ack,
        Answer::ResetDone => panic!("a reset's answer"),
    }
}

fn write(board: &mut Board, lists: &mut Lists, address: u32, word: u32) -> u32 {
    assert_eq!(ack(board.answer(Packet::write(Register::Tar, address), lists)), 1);
    ack(board.answer(Packet::write(Register::Drw, word), lists))
}

/// The word of a Read, or the acknowledgement that stopped it.
fn read(board: &mut Board, lists: &mut Lists, address: u32) -> Result<u32, u32> {
    assert_eq!(ack(board.answer(Packet::write(Register::Tar, address), lists)), 1);
    for last in [false, true] {
        match board.answer(Packet::read(Register::Drw), lists) {
            Answer::Wire { ack: 1, word, parity: bit } if last && bit == parity(word) => return Ok(word),
            Answer::Wire { ack: 1, .. } => {}
            other => return Err(ack(other)),
        }
    }
    panic!("wrong parity")
}

fn call(board: &mut Board, lists: &mut Lists, command: u32, argument: u32) -> Result<u32, u32> {
    assert_eq!(write(board, lists, SYSARG, argument), 1);
    assert_eq!(write(board, lists, SYSREQ, BIT_31 + command), 1);
    read(board, lists, SYSREQ)?;
    read(board, lists, SYSARG)
}

/// "PROTECTED in effect answers FAULT for flash and PARAMS"; a silence or a noise there is not carried out.
#[test]
fn protected_answers_fault() {
    let (mut b, mut lists) = board(PROTECTED);
    for address in [0, 131_068, PARAMS, PARAMS + 4] {
        assert_eq!(read(&mut b, &mut lists, address), Err(4));
        assert_eq!(write(&mut b, &mut lists, address, 0), 4);
    }
    for address in [131_072, LOCKS, LOCKS + 0x400, LOCKS + 124, SYSREQ, SYSARG, TEST_MODE] {
        assert!(read(&mut b, &mut lists, address).is_ok());
    }
    let before = b.params.clone();
    for (line, answer) in [(Line::SilentCarriedOut, 7), (Line::NoisyCarriedOut, 5)] {
        let event = LineEvent { noise: 5, ..LineEvent::of(line) };
        let mut lists = Lists { line: vec![LineEvent::OK, event], ..Lists::default() };
        assert_eq!(write(&mut b, &mut lists, PARAMS, !before[0]), answer);
        assert_eq!(b.params, before);
    }
}

/// "KILL is silent", whatever the list says.
#[test]
fn kill_is_silent() {
    let (mut b, _) = board(KILL);
    let tar = b.tar;
    for line in [Line::Ok].into_iter().chain(Line::DISTURBANCES) {
        let event = LineEvent { noise: 5, ..LineEvent::of(line) };
        let mut lists = Lists { line: vec![event], ..Lists::default() };
        assert_eq!(ack(b.answer(Packet::write(Register::Tar, !tar), &mut lists)), 7);
        let mut lists = Lists { line: vec![event], ..Lists::default() };
        assert_eq!(ack(b.answer(Packet::read(Register::IdCode), &mut lists)), 7);
        assert_eq!((lists.line_used, b.tar), (1, tar));
    }
}

/// "OK; WAIT or FAULT, not carried out; silence, carried out or not; wrong parity on a read, carried
/// out"; "a noisy transfer, like a silent one, may have been carried out or not according to its list".
#[test]
fn what_is_carried_out() {
    let lines = [Line::Ok].into_iter().chain(Line::DISTURBANCES);
    for (line, carried) in lines.zip([true, false, false, true, false, true, false, true]) {
        let (mut b, _) = board(OPEN);
        let mut lists = Lists { line: vec![LineEvent::of(line)], ..Lists::default() };
        b.tar = 4;
        b.answer(Packet::write(Register::Tar, 8), &mut lists);
        assert_eq!(b.tar == 8, carried);
        let (mut b, _) = board(OPEN);
        let mut lists = Lists { line: vec![LineEvent::of(line)], ..Lists::default() };
        (b.tar, b.posted) = (4, 0x5555_0001);
        let answer = b.answer(Packet::read(Register::Drw), &mut lists);
        assert_eq!(b.posted == crate::image::word(&b.flash[4..]), carried);
        if let Answer::Wire { ack: 1, word, parity: bit } = answer {
            assert_eq!(bit == parity(word), line == Line::Ok);
            assert!(line != Line::Ok || word == 0x5555_0001);
        }
    }
}

/// "XRES puts the stored level in effect, clears SYSREQ and drops a running call as failed."
#[test]
fn xres_drops_a_call() {
    let (mut b, _) = board(OPEN);
    let outcome =
        CallOutcome { busy: 9, success: true, status: 0x1234_5678, scramble: Some(5), stores: true };
    let mut lists = Lists { calls: vec![outcome], ..Lists::default() };
    let (flash, tar) = (b.flash.clone(), SYSREQ);
    write(&mut b, &mut lists, SYSARG, 0x0004_E0B6);
    write(&mut b, &mut lists, SYSREQ, BIT_31 + WRITE);
    assert_eq!(read(&mut b, &mut lists, SYSREQ), Ok(BIT_31 + WRITE));
    b.answer(Packet::Xres, &mut lists);
    assert_eq!((b.stored, b.in_effect, b.sysreq, b.sysarg, b.tar), (KILL, KILL, 0, 0x1234_5678, tar));
    assert!(b.flash != flash && b.running.is_none());
}

const WRITE: u32 = 0x0D;

/// "on macro 0 only, stores the level"; "4 fills the latch from byte 0, keeping the rest".
#[test]
fn locks_by_macro() {
    let (mut b, mut lists) = board(OPEN);
    let (latch, locks) = (b.latch.clone(), b.locks.clone());
    for (address, word) in
        [(PARAMS, 0x0100_D7B6), (PARAMS + 4, 5), (PARAMS + 8, 0x0403_0201), (PARAMS + 12, 0x0807_0605)]
    {
        assert_eq!(write(&mut b, &mut lists, address, word), 1);
    }
    assert_eq!(call(&mut b, &mut lists, 4, PARAMS), Ok(0xA000_0000));
    assert_eq!(b.latch[..6], [1, 2, 3, 4, 5, 6]);
    assert_eq!(b.latch[6..], latch[6..]);
    assert_eq!(call(&mut b, &mut lists, WRITE, 0x0104_E0B6), Ok(0xA000_0000));
    assert_eq!((b.stored, &b.locks[..64]), (OPEN, &locks[..64]));
    assert_eq!(b.locks[64..], b.latch[..64]);
    assert_eq!(call(&mut b, &mut lists, WRITE, 0x0002_E0B6), Ok(0xA000_0000));
    assert_eq!((b.stored, b.in_effect, &b.locks[..64]), (PROTECTED, OPEN, &b.latch[..64]));
    // The level word shows what is stored, with 0 and 1 exchanged.
    assert_eq!(read(&mut b, &mut lists, LOCKS + 124).unwrap() >> 24 & 0xF, 2);
    b.stored = OPEN;
    assert_eq!(read(&mut b, &mut lists, LOCKS + 124).unwrap() >> 24 & 0xF, 0);
}

/// "with PROTECTED in effect and OPEN sent it instead zeroes flash and locks and stores OPEN".
#[test]
fn reopening() {
    let (mut b, mut lists) = board(PROTECTED);
    assert_eq!(call(&mut b, &mut lists, WRITE, 0x0001_E0B6), Ok(0xA000_0000));
    assert_eq!((b.stored, b.in_effect), (OPEN, PROTECTED));
    assert!(b.flash.iter().chain(&b.locks).all(|&byte| byte == 0));
    assert_eq!(read(&mut b, &mut lists, 0), Err(4));
    b.answer(Packet::Xres, &mut lists);
    assert_eq!(read(&mut b, &mut lists, 0), Ok(0));
}

/// "A failed call leaves 0 in SYSREQ, a SYSARG of another top digit".
#[test]
fn failures() {
    for command in [0, 4, 6, 0x0A, 0x0B, 0x0D, 0x15] {
        let (mut b, _) = board(OPEN);
        let failed =
            CallOutcome { busy: 1, success: false, status: 0xA000_0000, scramble: Some(6), stores: false };
        let mut lists = Lists { calls: vec![failed], ..Lists::default() };
        let before = b.clone();
        let status = call(&mut b, &mut lists, command, 0x0004_0000).unwrap();
        assert!(status >> 28 != 0xA && b.sysreq == 0 && b.stored == OPEN);
        let kept = b.flash == before.flash && b.locks == before.locks && b.latch == before.latch;
        assert_eq!(kept, [0, 0x0B, 0x15].contains(&command));
    }
}

/// 0x0B "adds (S + all flash bytes) mod 2^28".
#[test]
fn sums() {
    let (mut b, mut lists) = board(OPEN);
    b.flash.fill(0);
    (b.flash[0], b.flash[131_071], b.privileged) = (3, 4, 0x0FFF_FFFE);
    assert_eq!(call(&mut b, &mut lists, 0x0B, 0x8000_DEB6), Ok(0xA000_0005));
    assert_eq!(b.privileged, 0x0FFF_FFFE);
}

/// "post it busy (bit 31 set)" whatever is written meanwhile, and it stays the call that was started.
#[test]
fn sysreq_written_while_a_call_runs() {
    let (mut b, _) = board(OPEN);
    let mut lists = Lists { calls: vec![CallOutcome { busy: 2, ..CallOutcome::OK }], ..Lists::default() };
    assert_eq!(write(&mut b, &mut lists, SYSREQ, BIT_31 + 0x0A), 1);
    assert_eq!(write(&mut b, &mut lists, SYSREQ, 0x0B), 1);
    assert_eq!(read(&mut b, &mut lists, SYSREQ), Ok(BIT_31 + 0x0B));
    assert!(b.running.is_some() && b.flash.iter().any(|&byte| byte != 0));
    assert_eq!(read(&mut b, &mut lists, SYSREQ), Ok(0));
    assert!(b.running.is_none() && b.flash.iter().all(|&byte| byte == 0));
}

/// Neither a request byte nor a word of wrong parity is carried out; both take an entry of the line's list.
#[test]
fn malformed_packets_are_lost() {
    let (mut b, mut lists) = board(OPEN);
    let (tar, word) = (b.tar, b.tar ^ 4);
    let wrong = Packet::Write { byte: 0x8B, word, parity: !parity(word) };
    for packet in
        [wrong, Packet::Read { byte: 0x8B }, Packet::Write { byte: 0xAB, word, parity: parity(word) }]
    {
        assert_eq!(ack(b.answer(packet, &mut lists)), 7);
    }
    assert_eq!((b.tar, b.malformed, lists.line_used), (tar, 3, 3));
}
