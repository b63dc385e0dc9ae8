//! Document 02, One: what a board has once step 7's call 0x0D for macro 0 has succeeded on it.

use reference::board::{Board, Line, LineEvent};
use reference::claims::entry_of;
use reference::counts::Entry;
use reference::cross::Reference;
use reference::flow::Report;
use reference::image::Header;
use reference::parts::{Sizes, KILL, OPEN, PROTECTED, SIZES};
use reference::play::{play, Played, RandomLists};
use reference::rng::Rng;
use reference::seal::{places, sealing_read};
use reference::texts::sample_image;

#[test]
fn at_every_place_of_steps_7_to_9() {
    let places = places::<_, Board>(&Reference, 81);
    println!("{places:?}");
    places.assert_all_reached();
}

/// Its place from 0: part 3's with two macros is transfer 190,673, from PROTECTED 26 later.
#[test]
fn the_sealing_read() {
    let reads = SIZES.map(|(part, macros)| {
        let sizes = Sizes::of(part, macros).unwrap();
        [Entry::Open, Entry::Protected].map(|entry| sealing_read(&sizes, entry))
    });
    assert_eq!(reads, [[27_234, 27_270], [47_704, 47_730], [95_336, 95_362], [190_672, 190_698]]);
}

/// Part 3, M 2: this happens to the read in which macro 0's call ends, on a board of any contents.
fn at_the_sealing_read(level: u8, stored: u8, line: Line) -> (Header, Vec<u8>, Played) {
    let mut rng = Rng(82);
    let (header, image) = sample_image(&mut rng, 3, 2);
    let header = Header { level, ..header };
    let board = Board::any(&mut rng, &header, stored);
    let mut lists = RandomLists::calm(rng.draw());
    lists.line.insert(sealing_read(&board.sizes, entry_of(&board)), LineEvent::of(line));
    let played = play(&header, &image, &board, &lists);
    (header, image, played)
}

/// The session hears nothing, or noise, and reports 29 or 33 at step 7: carried out, the board has all of the image;
/// not carried out, macro 0's locks and the level are as step 3 left them.
#[test]
fn unheard_where_macro_0s_call_ends() {
    let unheard =
        [(29, Line::SilentCarriedOut, Line::SilentLost), (33, Line::NoisyCarriedOut, Line::NoisyLost)];
    for ((stored, transfers), (number, carried_out, lost)) in
        [(OPEN, 190_673), (PROTECTED, 190_699)].into_iter().flat_map(|case| unheard.map(|line| (case, line)))
    {
        for level in [OPEN, PROTECTED, KILL] {
            let report = Report { number, step: 7, transfers };
            let (header, image, played) = at_the_sealing_read(level, stored, carried_out);
            assert_eq!((played.report, played.sealed), (report, true));
            assert!(played.board.holds(&header, &image));

            let (_, image, played) = at_the_sealing_read(level, stored, lost);
            assert_eq!((played.report, played.sealed), (report, false));
            let (flash, locks) = image.split_at(131_072);
            assert_eq!((played.board.stored, &played.board.locks[..64]), (OPEN, &[0; 64][..]));
            assert!(played.board.flash == flash && played.board.locks[64..] == locks[64..]);
        }
    }
}
