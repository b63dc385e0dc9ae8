//! Packets of whole sessions as numbers that nothing here computes.

use reference::board::{Board, Lists};
use reference::flow::Report;
use reference::image::Header;
use reference::parts::{OPEN, PROTECTED};
use reference::play::step_through;
use reference::wire::Packet;

type Transfer = (u8, u32);

fn write(address: u32, word: u32) -> Vec<Transfer> {
    vec![(0x8B, address), (0xBB, word)]
}

fn read(address: u32) -> Vec<Transfer> {
    vec![(0x8B, address), (0x9F, 0), (0x9F, 0)]
}

fn call(argument: u32, command: u32) -> Vec<Transfer> {
    let (arg, req) = (0x4010_0008, 0x4010_0004);
    [write(arg, argument), write(req, command), read(req), read(arg)].concat()
}

fn latch(count: u32, words: u32) -> Vec<Transfer> {
    let mut all = [write(0x2000_0100, 0x0000_D7B6), write(0x2000_0104, count)].concat();
    (0..words).for_each(|i| all.extend(write(0x2000_0108 + 4 * i, 0x1111_1111)));
    [all, call(0x2000_0100, 0x8000_0004)].concat()
}

/// The reads and writes of a session of part 1 from OPEN, on flash and locks of 0x11.
fn transfers() -> Vec<Transfer> {
    let image = vec![0x11; 16_416];
    let metadata = [0, 2, 0x0A, 1, 2, 0x9A, 0, 0, 0, 0, 0, 0];
    let header = Header { part: 1, macros: 1, sum: 0x4000, metadata, level: 2 };
    let (mut board, mut lists, mut seen) = (Board::blank(&header, OPEN), Lists::default(), vec![]);
    let (report, _) = step_through(&header, &image, None, |packet| {
        match packet {
            Packet::Read { byte } => seen.push((byte, 0)),
            Packet::Write { byte, word, parity } => {
                assert_eq!(parity, word.count_ones() % 2 == 1);
                seen.push((byte, word));
            }
            Packet::Xres | Packet::LineReset => assert!(seen.is_empty()),
        }
        board.answer(packet, &mut lists)
    });
    assert_eq!(report, Report { number: 0, step: 9, transfers: 27_279 });
    seen
}

/// Steps 1 to 4 and two rows.
#[test]
fn first_transfers() {
    let first = [
        vec![(0xA5, 0), (0xA9, 0x5400_0000), (0xB1, 0), (0xA3, 2)],
        write(0x4003_0014, 0x8000_0000),
        read(0x4003_0014),
        read(0x4010_0004),
        call(0x0000_E8B6, 0x8000_0015),
        call(0x0000_D3B6, 0x8000_0000),
        read(0x4010_0008),
        read(0x4010_0004),
        write(0x2000_0100, 0x0000_DDB6),
        call(0x2000_0100, 0x8000_000A),
        call(0x8000_DEB6, 0x8000_000B),
        read(0x4010_0008),
        latch(63, 16),
        write(0x2000_0100, 0x0000_D9B6),
        call(0x2000_0100, 0x8000_0006),
        latch(63, 16),
        write(0x2000_0100, 0x0001_D9B6),
    ]
    .concat();
    assert_eq!(transfers()[..first.len()], first);
}

/// The last word of step 6, then steps 7 to 9.
#[test]
fn last_transfers() {
    let last = [
        read(0x0000_3FFC),
        latch(31, 8),
        call(0x0002_E0B6, 0x8000_000D),
        (0..8).flat_map(|i| read(0x0FFF_F000 + 4 * i)).collect(),
        read(0x0FFF_F07C),
        call(0x8000_DEB6, 0x8000_000B),
        read(0x4010_0008),
    ]
    .concat();
    assert!(transfers().ends_with(&last));
}

/// What a session of part 3 with two macros writes, from PROTECTED.
fn words_of_two_macros() -> Vec<u32> {
    let mut image = vec![0; 131_200];
    image[65_536] = 0x21;
    image[131_072 + 64] = 0x43;
    let header = Header {
        part: 3,
        macros: 2,
        sum: 0x21,
        metadata: [0, 2, 0x11, 1, 2, 0xA1, 0, 0, 0, 0, 0, 0],
        level: 1,
    };
    let (mut board, mut lists, mut words) = (Board::blank(&header, PROTECTED), Lists::default(), vec![]);
    step_through(&header, &image, None, |packet| {
        if let Packet::Write { word, .. } = packet {
            words.push(word);
        }
        board.answer(packet, &mut lists)
    });
    words
}

/// How often the words come one after the other.
fn count(words: &[u32], part: &[u32]) -> usize {
    words.windows(part.len()).filter(|window| *window == part).count()
}

/// The second macro's rows, and reopening, in numbers alone.
#[test]
fn second_macro_in_numbers() {
    let words = words_of_two_macros();
    let holds = |part: &[u32]| count(&words, part);
    // Reopening: SYSARG is k + 0x10000, then the set-up again.
    assert_eq!(
        holds(&[0x4010_0008, 0x0001_E0B6, 0x4010_0004, 0x8000_000D, 0x4010_0004, 0x4010_0008, 0x5400_0000]),
        1
    );
    // Row 512's latch goes to macro 1, its number counts over the whole flash.
    assert_eq!(holds(&[0x2000_0100, 0x0100_D7B6, 0x2000_0104, 127, 0x2000_0108, 0x21]), 1);
    assert_eq!(holds(&[0x2000_0100, 0x01FF_D9B6]), 1);
    assert_eq!(holds(&[0x2000_0100, 0x0200_D9B6]), 1);
    assert_eq!(holds(&[0x2000_0100, 0x03FF_D9B6]), 1);
    assert_eq!(holds(&[0x2000_0100, 0x0400_D9B6]), 0);
    // No erasing after reopening.
    assert_eq!(holds(&[0x8000_000A]), 0);
}

/// Document 02, One: "from the highest macro down to 0", in numbers alone.
#[test]
fn macro_0_last_in_numbers() {
    let words = words_of_two_macros();
    let holds = |part: &[u32]| count(&words, part);
    // After step 6 macro 1's locks: latch, 0x0D with level and macro, then its own address.
    assert_eq!(holds(&[0x0001_FFFC, 0x2000_0100, 0x0100_D7B6, 0x2000_0104, 63, 0x2000_0108, 0x43]), 1);
    let rest = [0x4010_0004, 0x8000_000D, 0x4010_0004, 0x4010_0008];
    let call = |argument, next: [u32; 2]| [&[0x4010_0008, argument], &rest[..], &next].concat();
    assert_eq!(holds(&call(0x0101_E0B6, [0x0FFF_F400, 0x0FFF_F404])), 1);
    // Then macro 0's in the same way, the level once, step 9.
    assert_eq!(holds(&[0x0FFF_F43C, 0x2000_0100, 0x0000_D7B6, 0x2000_0104, 63, 0x2000_0108, 0]), 1);
    assert_eq!(holds(&call(0x0001_E0B6, [0x0FFF_F000, 0x0FFF_F004])), 1);
    assert_eq!(holds(&[0x0FFF_F03C, 0x0FFF_F07C, 0x4010_0008, 0x8000_DEB6]), 1);
    assert_eq!((holds(&[0x4010_0008, 0x0001_E0B6]), holds(&[0x4010_0008, 0x0101_E0B6])), (2, 1));
    assert_eq!(holds(&[0x0FFF_F07C]), 1);
}
