//! Document 02, Eleven: a board of the right part, cut at any place of 1 to 4 sessions, can be loaded again. And one that
//! kept its supply while a call runs.

use reference::board::{Board, Lists};
use reference::claims::entry_of;
use reference::counts::loops;
use reference::cross::Reference;
use reference::cuts::chains;
use reference::image::Header;
use reference::parts::{KILL, OPEN, PROTECTED, SIZES};
use reference::play::{play, step_through, RandomLists};
use reference::rng::Rng;
use reference::session::{start, Outcome};
use reference::texts::sample_image;
use reference::wire::Packet;
use std::collections::BTreeMap;

#[test]
fn picked_up_after_a_cut() {
    let tally = chains::<_, Board>(&Reference, 61, 480);
    println!("{} chains, {} cuts, {} requests", tally.chains, tally.cuts, tally.requests);
    println!("{}", tally.line());
    println!("{:?}, reports before a cut {:?}", tally.sizes, tally.numbers);
    tally.assert_all_reached();
}

/// A session left while its nth call runs, or after its report.
fn left(header: &Header, image: &[u8], mut board: Board, mut lists: RandomLists, nth: u64) -> Board {
    let (mut session, mut outcome) = start(header, image, true);
    let mut calls = 0;
    while let Outcome::Ask(packet) = outcome {
        let ran = board.running.is_some();
        let answer = board.answer(packet, &mut lists);
        calls += u64::from(!ran && board.running.is_some());
        if calls == nth {
            return board;
        }
        outcome = session.step(image, answer);
    }
    board
}

/// A call of steps 1 to 3, one of steps 7 and 9, or any; from 1 on.
fn some_call(rng: &mut Rng, board: &Board) -> u64 {
    let calls = loops(&board.sizes, entry_of(board)) as usize - 1;
    let nth = match rng.below(3) {
        0 => rng.below(5),
        1 => calls - 1 - rng.below(6),
        _ => rng.below(calls),
    };
    nth as u64 + 1
}

/// "XRES ... drops a running call as failed": a session begun while a call runs is one on what that leaves.
#[test]
fn begun_while_a_call_runs() {
    let mut rng = Rng(62);
    let mut found = BTreeMap::new();
    for round in 0..120 {
        let (part, macros) = SIZES[[0, 3, 0, 1, 0, 2][round % 6]];
        let (header, image) = sample_image(&mut rng, part, macros);
        let stored = *rng.pick(&[OPEN, PROTECTED]);
        let board = Board::any(&mut rng, &header, stored);
        let nth = some_call(&mut rng, &board);
        let mut lists = RandomLists::calm(rng.draw());
        lists.calls.insert(nth - 1, RandomLists::failure(&mut rng));
        let board = left(&header, &image, board, lists, nth);
        let mut dropped = board.clone();
        dropped.answer(Packet::Xres, &mut Lists::default());
        assert!(dropped.running.is_none());
        let calm = RandomLists::calm(rng.draw());
        let played = play(&header, &image, &dropped, &calm);
        let (mut met, mut lists) = (board.clone(), calm);
        let same = step_through(&header, &image, None, |packet| met.answer(packet, &mut lists));
        assert_eq!(same, (played.report, played.packets));
        assert!(met.flash == played.board.flash && met.locks == played.board.locks);
        assert_eq!(played.report.number, if dropped.stored == KILL { 26 } else { 0 });
        let call = board.running.map(|call| call.command);
        *found.entry((call, dropped.stored != board.stored)).or_insert(0) += 1;
    }
    println!("{found:?}");
    for call in [0x15, 0, 0x0A, 4, 6, 0x0D, 0x0B] {
        assert!(found.contains_key(&(Some(call), false)), "never in {call:#x}");
    }
    assert!(found.contains_key(&(Some(0x0D), true)));
}
