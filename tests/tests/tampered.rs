//! Answers that no plain board gives, and what of an answer matters.

use reference::board::{Board, Lists};
use reference::flow::{self, Report};
use reference::image::Header;
use reference::parts::{LOCKS, OPEN, PROTECTED, SIZES, TEST_MODE};
use reference::play::step_through;
use reference::rng::Rng;
use reference::texts::sample_image;
use reference::wire::{parity, Answer, Packet};

/// A session on a calm board whose answers `tamper` changes by their transfer's place; the waiting
/// programme sees the same answers.
fn tampered(header: &Header, image: &[u8], stored: u8, tamper: impl Fn(u64, Answer) -> Answer) -> Report {
    let transport = || {
        let (mut board, mut lists, mut place) = (Board::blank(header, stored), Lists::default(), 0);
        let tamper = &tamper;
        move |packet: Packet| {
            let answer = board.answer(packet, &mut lists);
            if !packet.is_transfer() {
                return answer;
            }
            place += 1;
            tamper(place - 1, answer)
        }
    };
    let (report, _) = step_through(header, image, None, transport());
    assert_eq!(flow::run(header, image, transport()), report);
    report
}

/// The places at which a calm session takes the counting word of a Read of `address`.
fn reads_of(header: &Header, image: &[u8], stored: u8, address: u32) -> Vec<u64> {
    let (mut board, mut lists) = (Board::blank(header, stored), Lists::default());
    let (mut places, mut place, mut tar, mut reads) = (vec![], 0, 0, 0);
    flow::run(header, image, |packet| {
        match packet {
            Packet::Write { byte: 0x8B, word, .. } => (tar, reads) = (word, 0),
            Packet::Read { byte: 0x9F } => reads += 1,
            _ => {}
        }
        if (tar, reads) == (address, 2) && packet == (Packet::Read { byte: 0x9F }) {
            places.push(place);
        }
        place += u64::from(packet.is_transfer());
        board.answer(packet, &mut lists)
    });
    places
}

fn ok(word: u32) -> Answer {
    Answer::Wire { ack: 1, word, parity: parity(word) }
}

/// The report when one Read's word is changed.
fn changed(
    header: &Header,
    image: &[u8],
    stored: u8,
    address: u32,
    which: usize,
    change: fn(u32) -> u32,
) -> (u8, u8) {
    let at = reads_of(header, image, stored, address)[which];
    let report = tampered(header, image, stored, |place, answer| match answer {
        Answer::Wire { word, .. } if place == at => ok(change(word)),
        _ => answer,
    });
    (report.number, report.step)
}

#[test]
fn answers_that_no_plain_board_gives() {
    for (part, macros) in SIZES {
        let (header, image) = sample_image(&mut Rng(15), part, macros);
        let s = header.sizes().unwrap();
        let run = |address, which, change| changed(&header, &image, OPEN, address, which, change);
        let (sysreq, sysarg) = (s.part.sysreq, s.part.sysarg());
        assert_eq!(run(TEST_MODE, 0, |w| w & !0x8000_0000), (17, 1));
        assert_eq!(run(TEST_MODE, 0, |w| w | 0x7FFF_FFFF), (0, 9));
        // Reads of SYSREQ: step 1's poll, the IMO call's, call 0's, then step 2's own.
        let own = 2 + usize::from(s.part.imo);
        for level in [0u32, 3, 4, 5, 9, 10, 15] {
            let at = reads_of(&header, &image, OPEN, sysreq)[own];
            let report = tampered(&header, &image, OPEN, |place, answer| match answer {
                Answer::Wire { word, .. } if place == at => ok(word & !0xF000 | level << 12),
                _ => answer,
            });
            assert_eq!((report.number, report.step), (21, 2));
        }
        assert_eq!(run(sysreq, own, |w| w | 0x0FFF_0F00), (0, 9));
        assert_eq!(run(sysreq, own, |w| w ^ 0x80), (20, 2));
        assert_eq!(run(sysreq, own, |w| w ^ 0x80 | 0xF000), (20, 2));
        // Call 0's status Read, then step 2's own: 20 is judged by the second.
        let id = 1 + usize::from(s.part.imo);
        assert_eq!(run(sysarg, id, |w| w ^ 0x100), (20, 2));
        assert_eq!(run(sysarg, id, |w| w ^ 0xF0FF_0000), (0, 9));
        assert_eq!(run(sysarg, id - 1, |w| w ^ 0x100), (0, 9));
        // Bit 28 keeps a poll waiting like bit 31.
        assert_eq!(run(sysreq, 0, |w| w | 0x1000_0000), (0, 9));
    }
}

/// Flash, locks, level and sums that differ.
#[test]
fn comparisons() {
    for (part, macros) in SIZES {
        let (header, image) = sample_image(&mut Rng(15), part, macros);
        let s = header.sizes().unwrap();
        let run = |address, which, change| changed(&header, &image, OPEN, address, which, change);
        assert_eq!(run(0, 0, |w| w ^ 1), (22, 6));
        assert_eq!(run(s.flash() as u32 - 4, 0, |w| w ^ 0x8000_0000), (22, 6));
        assert_eq!(run(LOCKS, 0, |w| w ^ 1), (23, 8));
        let last = LOCKS + (s.macros as u32 - 1) * 0x400 + s.lock_bytes() as u32 - 4;
        assert_eq!(run(last, 0, |w| w ^ 0x8000_0000), (23, 8));
        assert_eq!(run(s.part.level_word, 0, |w| w ^ 0x0100_0000), (24, 8));
        assert_eq!(run(s.part.level_word, 0, |w| w ^ 0x0800_0000), (24, 8));
        assert_eq!(run(s.part.level_word, 0, |w| w ^ 0xF0FF_FFFF), (0, 9));
        let (sysarg, first) = (s.part.sysarg(), 4 + usize::from(s.part.imo));
        let sums = reads_of(&header, &image, OPEN, sysarg).len();
        assert_eq!(run(sysarg, sums - 1, |w| w ^ 1), (25, 9));
        assert_eq!(run(sysarg, sums - 1, |w| w ^ 0xFFFF_0000), (0, 9));
        assert_eq!(run(sysarg, sums - 1, |w| w ^ 0x8000), (25, 9));
        assert_eq!(run(sysarg, first, |w| w ^ 1), (25, 9));
        assert_eq!(run(sysarg, first, |w| w ^ 0xFFFF_0000), (0, 9));
    }
}

/// After reopening the level must be OPEN, and 20 is judged again.
#[test]
fn after_reopening() {
    for (part, macros) in SIZES {
        let (header, image) = sample_image(&mut Rng(16), part, macros);
        let imo = usize::from(header.sizes().unwrap().part.imo);
        let sysreq = header.sizes().unwrap().part.sysreq;
        let run = |which, change| changed(&header, &image, PROTECTED, sysreq, which, change);
        // Poll, IMO, call 0, own, reopening's 0x0D, then the same again.
        let own = 2 + imo + 1 + 1 + 2 + imo;
        assert_eq!(run(own, |w| w & !0xF000 | 0x2000), (21, 2));
        assert_eq!(run(own, |w| w & !0xF000 | 0x4000), (21, 2));
        assert_eq!(run(own, |w| w ^ 1), (20, 2));
        assert_eq!(run(own, |w| w), (0, 9));
        let arg = header.sizes().unwrap().part.sysarg();
        // The status of reopening's 0x0D.
        let status = changed(&header, &image, PROTECTED, arg, imo + 2, |_| 0x9000_0000);
        assert_eq!(status, (19, 3));
        let test = changed(&header, &image, PROTECTED, TEST_MODE, 1, |_| 0);
        assert_eq!(test, (17, 1));
    }
}

/// Poll loops with bit 28 alone, in step 1 too.
#[test]
fn bit_28_alone() {
    let (header, image) = sample_image(&mut Rng(17), 1, 1);
    // Step 1's first poll is transfers 9, 10, 11; every third after it is a poll's counting word.
    let busy = |polls: u64| {
        tampered(&header, &image, OPEN, |place, answer| {
            if place >= 11 && place < 11 + 3 * polls && (place - 11) % 3 == 0 {
                ok(0x1000_0000)
            } else {
                answer
            }
        })
    };
    assert_eq!(busy(9_999), Report { number: 0, step: 9, transfers: 27_279 + 3 * 9_999 });
    assert_eq!(busy(10_000), Report { number: 18, step: 1, transfers: 9 + 30_000 });
}

/// The stale word's parity counts (30), its value doesn't; a write's word and parity don't.
#[test]
fn what_matters_of_an_answer() {
    let (header, image) = sample_image(&mut Rng(18), 1, 1);
    let stale = |place, word, bit| {
        let report = tampered(&header, &image, OPEN, |at, answer| {
            if at == place {
                Answer::Wire { ack: 1, word, parity: bit }
            } else {
                answer
            }
        });
        (report.number, report.transfers)
    };
    // Transfers: 0 IDCODE, 1 to 3 set-up, 4 and 5 Write TEST_MODE, 6 TAR, 7 stale, 8 counts.
    assert_eq!(stale(7, 1, true).0, 0);
    assert_eq!(stale(7, 1, false), (30, 8));
    assert_eq!(stale(8, 0x8000_0000, false), (30, 9));
    assert_eq!(stale(6, 1, false).0, 0);
    assert_eq!(stale(3, 0, true).0, 0);
    let noise = [0, 3, 5, 6, 8, 9, 0x101, u32::MAX].map(|ack| (ack, 33));
    for (ack, number) in noise.into_iter().chain([(7, 29)]) {
        let report = tampered(&header, &image, OPEN, |at, answer| {
            if at == 8 {
                Answer::Wire { ack, word: 0, parity: false }
            } else {
                answer
            }
        });
        assert_eq!(report, Report { number, step: 1, transfers: 9 });
    }
}
