//! The ABI's own edges: buffers of other lengths (`lengths`), impossible marks (13), parts and M that a byte
//! can name; the bench board's too, whose buffers of other sizes are 12 with nothing written.

mod lengths;

use super::outcome_bytes;
use crate::image::Header;
use crate::indexed::{header_bytes, started};
use crate::parts::{KILL, SIZES};
use crate::rng::Rng;
use crate::session::Outcome;
use crate::texts::sample_image;
use halzuqeen::{bench, raw};

/// What a buffer holds that a refused call must leave.
const LEFT: u8 = 0x5A;

/// Sizes about the right one, the right one left out.
fn other_sizes(right: usize) -> impl Iterator<Item = usize> {
    (0..2 * right + 2).filter(move |&size| size != right)
}

const RESET_DONE: raw::Answer = raw::Answer { reset_done: 1, ack: 0, word: 0, parity: 0 };

/// Any byte but 0 is leave for KILL.
fn leaves(header: &Header, image: &[u8]) -> u64 {
    let killing = Header { level: KILL, ..*header };
    for leave in 0..=255 {
        let (mut session, mut outcome) = ([LEFT; raw::SESSION], [LEFT; raw::OUTCOME]);
        let number = raw::start(&header_bytes(&killing), image, leave, &mut session, &mut outcome);
        assert_eq!(number, if leave == 0 { 15 } else { 0 });
        assert_eq!(session, if leave == 0 { [0; raw::SESSION] } else { started(&killing) });
    }
    256
}

/// Entry or finished over 1: 13, said by the outcome too.
fn impossible_marks(header: &Header, image: &[u8]) -> u64 {
    let mut calls = 0;
    for (at, mark) in (17..19).flat_map(|at| (2..=255).map(move |mark| (at, mark))) {
        let (mut session, mut outcome) = (started(header), [LEFT; raw::OUTCOME]);
        session[at] = mark;
        let before = session;
        assert_eq!(raw::step(&mut session, image, RESET_DONE, &mut outcome), 13);
        assert_eq!((session, outcome), (before, outcome_bytes(Outcome::Refused(13))));
        calls += 1;
    }
    calls
}

/// Every part and M that a byte can name: 11, but for those of the table, where the empty buffer is 12.
fn parts() -> u64 {
    for (part, macros) in (0..=255).flat_map(|part| (0..=255).map(move |macros| (part, macros))) {
        let number = if SIZES.contains(&(u32::from(part), u32::from(macros))) { 12 } else { 11 };
        let (mut header, mut length) = ([LEFT; raw::HEADER], [LEFT; raw::LENGTH]);
        assert_eq!(raw::read(part, macros, b":00000001FF\n", &mut [], &mut header), number);
        assert_eq!(header, [0; raw::HEADER]);
        (header[0], header[1]) = (part, macros);
        assert_eq!(raw::write(&header, &[], &mut [], &mut length), number);
        let (mut session, mut outcome) = ([LEFT; raw::SESSION], [LEFT; raw::OUTCOME]);
        assert_eq!(raw::start(&header, &[], 1, &mut session, &mut outcome), number);
        assert_eq!((length, session), ([0; raw::LENGTH], [0; raw::SESSION]));
        assert_eq!(outcome, outcome_bytes(Outcome::Refused(number as u8)));
    }
    3 * 65_536
}

/// What the bench board is lent with fixed sizes: board, event, call, packet, answer.
const BENCH: [usize; 5] = [bench::BOARD, bench::EVENT, bench::CALL, raw::OUTCOME, bench::ANSWER];

/// The bench board meets a packet; refused, it writes nothing.
fn meet(part: u8, macros: u8, lent: &mut [Vec<u8>; 5]) -> u32 {
    let before = lent.clone();
    let [board, event, call, packet, answer] = lent;
    let (mut flash, mut locks, mut latch, mut params) = ([LEFT; 256], [LEFT; 64], [LEFT; 64], [0x5A5A; 18]);
    let bench =
        bench::Bench { board, flash: &mut flash, locks: &mut locks, latch: &mut latch, params: &mut params };
    let outcomes = bench::Outcomes { event, call, residue: [&[], &[], &[]] };
    let number = bench::meet(part, macros, bench, outcomes, packet, answer);
    if number != 0 {
        assert!(flash.iter().chain(&locks).chain(&latch).all(|&byte| byte == LEFT) && params == [0x5A5A; 18]);
        assert_eq!(*lent, before);
    }
    number
}

/// The bench board's refusals: 12, then 11, then 13 for each mark that is none.
fn bench() -> u64 {
    let mut calls = 0;
    for (which, size) in (0..5).flat_map(|which| other_sizes(BENCH[which]).map(move |size| (which, size))) {
        let mut lent = BENCH.map(|right| vec![LEFT; right]);
        lent[which] = vec![LEFT; size];
        assert_eq!(meet(0, 0, &mut lent), 12);
        calls += 1;
    }
    // A line reset, with a call running.
    let mut fine = BENCH.map(|right| vec![0; right]);
    (fine[0][34], fine[3][0]) = (1, 2);
    for (part, macros) in (0..=255).flat_map(|part| (0..=255).map(move |macros| (part, macros))) {
        let number = if SIZES.contains(&(u32::from(part), u32::from(macros))) { 0 } else { 11 };
        assert_eq!(meet(part, macros, &mut fine.clone()), number);
        calls += 1;
    }
    // Lent, byte, the marks that are some.
    let marks = [(0, 34, 0..=1), (0, 39, 0..=1), (0, 44, 0..=1), (1, 0, 0..=7), (2, 4, 0..=1), (2, 9, 0..=1)];
    for (which, at, some) in marks.into_iter().chain([(3, 0, 1..=4)]) {
        for mark in 0..=255 {
            let mut lent = fine.clone();
            lent[which][at] = mark;
            assert_eq!(meet(1, 1, &mut lent), if some.contains(&mark) { 0 } else { 13 });
            calls += 1;
        }
    }
    calls
}

/// Gives the number of calls made.
pub fn edges() -> u64 {
    let mut rng = Rng(51);
    let mut calls = parts() + bench();
    for (part, macros) in SIZES {
        let (header, image) = sample_image(&mut rng, part, macros);
        calls += leaves(&header, &image) + impossible_marks(&header, &image);
        calls += lengths::lengths(&mut rng, part, macros);
    }
    calls
}
