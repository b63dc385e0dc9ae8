//! Whole sessions: demand 3 on random boards and lists, every report number, every edge of a limit.

use reference::board::{Board, CallOutcome, Ids, Line, LineEvent};
use reference::counts::{plan, Entry};
use reference::cross::random_run;
use reference::flow::Report;
use reference::image::{header_for, Header};
use reference::parts::{Sizes, IDCODE, KILL, OPEN, PROTECTED, SIZES};
use reference::play::{play, Played, RandomLists};
use reference::rng::Rng;
use reference::session::{start, Outcome, Session};
use reference::texts::sample_image;
use reference::wire::{Answer, Packet};
use std::collections::BTreeMap;

fn sizes(header: &Header) -> Sizes {
    header.sizes().unwrap()
}

fn entry(level: u8) -> Entry {
    if level == PROTECTED {
        Entry::Protected
    } else {
        Entry::Open
    }
}

#[test]
fn calm_sessions_take_the_plan() {
    let mut rng = Rng(11);
    for (part, macros) in SIZES {
        for stored in [OPEN, PROTECTED] {
            let (header, image) = sample_image(&mut rng, part, macros);
            let board = Board::any(&mut rng, &header, stored);
            let played = play(&header, &image, &board, &RandomLists::calm(rng.draw()));
            let transfers = plan(&sizes(&header), entry(stored)) as u32;
            assert_eq!(played.report, Report { number: 0, step: 9, transfers });
        }
    }
}

/// The dry run's image: "All-zero flash, sum 0, no locks, ID 0A 0A 0A 9A, level 1: `done 27279`".
#[test]
fn dry_run() {
    let image = vec![0; 16_416];
    let header = header_for(1, 1, 0x0A, 0x0A, OPEN, &image);
    let played = play(&header, &image, &Board::blank(&header, OPEN), &RandomLists::calm(0));
    assert_eq!(played.report, Report { number: 0, step: 9, transfers: 27_279 });
}

#[test]
fn demand_3_on_random_runs() {
    let mut rng = Rng(12);
    let mut numbers = BTreeMap::new();
    for round in 0..260 {
        let (part, macros) = SIZES[[0, 0, 1, 0, 2, 0, 1, 3][round % 8]];
        let run = random_run(&mut rng, part, macros);
        let played = play(&run.header, &run.image, &run.board, &run.lists);
        *numbers.entry(played.report.number).or_insert(0) += 1;
    }
    println!("{numbers:?}");
    for number in [0, 16, 18, 19, 20, 26, 27, 28, 29, 30, 33] {
        assert!(numbers.contains_key(&number), "{number} never came");
    }
}

/// A right board of part 1, OPEN, with given lists.
fn small(lists: RandomLists) -> Played {
    let (header, image) = sample_image(&mut Rng(13), 1, 1);
    play(&header, &image, &Board::blank(&header, OPEN), &lists)
}

fn with_line(places: std::ops::Range<u64>, line: Line) -> RandomLists {
    let mut lists = RandomLists::calm(1);
    lists.line.extend(places.map(|place| (place, LineEvent::of(line))));
    lists
}

fn with_call(place: u64, outcome: CallOutcome) -> RandomLists {
    let mut lists = RandomLists::calm(1);
    lists.calls.insert(place, outcome);
    lists
}

#[test]
fn thirtieth_attempt() {
    for line in Line::DISTURBANCES {
        let report = small(with_line(0..29, line)).report;
        assert_eq!(report, Report { number: 0, step: 9, transfers: 27_279 + 29 });
        let report = small(with_line(0..30, line)).report;
        assert_eq!(report, Report { number: 26, step: 1, transfers: 30 });
    }
}

#[test]
fn seventeenth_wait() {
    for place in [1, 5, 27_278] {
        assert_eq!(small(with_line(place..place + 16, Line::Wait)).report.number, 0);
        let report = small(with_line(place..place + 17, Line::Wait)).report;
        let step = if place == 27_278 { 9 } else { 1 };
        assert_eq!(report, Report { number: 27, step, transfers: place as u32 + 17 });
    }
    // A run of WAITs ends with its transfer: 16, an OK, 16 more.
    let mut lists = with_line(40..56, Line::Wait);
    lists.line.extend(with_line(57..73, Line::Wait).line);
    assert_eq!(small(lists).report, Report { number: 0, step: 9, transfers: 27_279 + 32 });
}

/// "The 10,000th busy poll is 18, so 19,998 busy reads still pass." A poll's two DRW reads both
/// count, and the word that counts was posted by the first.
#[test]
fn ten_thousandth_poll() {
    let busy = |busy| small(with_call(0, CallOutcome { busy, ..CallOutcome::OK })).report;
    assert_eq!(busy(19_998), Report { number: 0, step: 9, transfers: 27_279 + 3 * 9_999 });
    assert_eq!(busy(19_997), Report { number: 0, step: 9, transfers: 27_279 + 3 * 9_999 });
    assert_eq!(busy(19_999), Report { number: 18, step: 1, transfers: 12 + 4 + 30_000 });
    assert_eq!(busy(0), Report { number: 0, step: 9, transfers: 27_279 });
    assert_eq!(busy(1), Report { number: 0, step: 9, transfers: 27_282 });
    assert_eq!(busy(2), Report { number: 0, step: 9, transfers: 27_282 });
}

#[test]
fn failed_calls_give_their_step() {
    let failed = CallOutcome { success: false, ..CallOutcome::OK };
    // IMO, ID, erase, sum, then 2 for each of 256 rows, latch and locks, sum.
    let last = 4 + 512 + 2;
    let steps = [(0, 1), (1, 2), (2, 3), (3, 4), (4, 5), (5, 5), (515, 5), (516, 7), (517, 7), (last, 9)];
    for (call, step) in steps {
        let report = small(with_call(call, failed)).report;
        assert_eq!((report.number, report.step), (19, step), "call {call}");
    }
    assert_eq!(small(with_call(last + 1, failed)).report.number, 0);
}

/// The wrong part, a wrong IDCODE.
#[test]
fn wrong_parts() {
    let (header, image) = sample_image(&mut Rng(14), 2, 1);
    let run = |change: fn(&mut Ids)| {
        let mut board = Board::blank(&header, PROTECTED);
        change(&mut board.ids);
        let report = play(&header, &image, &board, &RandomLists::calm(3)).report;
        (report.number, report.step, report.transfers)
    };
    assert_eq!(run(|ids| ids.idcode = 0x0BC1_1477), (16, 1, 1));
    assert_eq!(run(|ids| ids.high = 5), (20, 2, 28));
    assert_eq!(run(|ids| ids.family = 0xA1), (20, 2, 28));
    assert_eq!(run(|ids| ids.low = 0x80), (20, 2, 28));
    assert_eq!(run(|ids| ids.low = 0x9F), (20, 2, 28));
    assert_eq!(run(|ids| (ids.low, ids.revision) = (0x7F, 9)).0, 0);
    assert_eq!(run(|ids| ids.low = 0xA0).0, 0);
}

#[test]
fn starting() {
    let (mut header, image) = sample_image(&mut Rng(19), 1, 1);
    header.level = KILL;
    let refused = |header: &Header, image: &[u8], leave| start(header, image, leave);
    let no = |number| (Session::ZERO, Outcome::Refused(number));
    assert_eq!(refused(&header, &image, false), no(15));
    assert_eq!(refused(&header, &image, true).1, Outcome::Ask(Packet::Xres));
    assert_eq!(refused(&Header { level: 0, ..header }, &image, false), no(8));
    assert_eq!(refused(&Header { sum: !header.sum, ..header }, &image, false), no(9));
    assert_eq!(refused(&Header { macros: 2, ..header }, &image[1..], false), no(11));
    assert_eq!(refused(&header, &image[1..], false), no(12));
    assert_eq!(refused(&header, &[&image[..], &[0]].concat(), false), no(12));
    let mut version = header;
    version.metadata[1] = 3;
    assert_eq!(refused(&version, &image, false), no(6));
    assert_eq!(refused(&Header::ZERO, &[], false), no(11));
}

/// "A step checks 13, 12, 14": a session of zeros is impossible whatever is lent and answered.
#[test]
fn the_session_of_zeros_is_impossible() {
    for image in [&[][..], &[0; 16_416]] {
        for answer in [Answer::ResetDone, Answer::Wire { ack: 1, word: IDCODE, parity: true }] {
            let mut session = Session::ZERO;
            assert_eq!(session.step(image, answer), Outcome::Refused(13));
            assert_eq!(session, Session::ZERO);
        }
    }
}

/// KILL in effect at the start is undone by XRES; KILL stored by step 7 is read back before XRES.
#[test]
fn killing() {
    let (mut header, image) = sample_image(&mut Rng(20), 3, 2);
    header.level = KILL;
    let mut board = Board::blank(&header, OPEN);
    board.in_effect = KILL;
    let played = play(&header, &image, &board, &RandomLists::calm(0));
    assert_eq!((played.report.number, played.board.stored), (0, KILL));
}
