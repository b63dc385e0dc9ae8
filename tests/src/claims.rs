//! Demand 3's claims, asserted of one list of steps on a plain board, and document 02, One: what a sealed board holds.

use crate::board::Board;
use crate::counts::{acquisitions, bound, plan, Entry};
use crate::flow::Report;
use crate::image::Header;
use crate::monitor::Monitor;
use crate::parts::{Sizes, PROTECTED, VIRGIN};
use crate::seal::{reported, Seal, Sealed};
use crate::wire::{Answer, Packet};

/// How step 3 will find a board.
pub fn entry_of(board: &Board) -> Entry {
    if board.stored == PROTECTED {
        Entry::Protected
    } else {
        Entry::Open
    }
}

#[derive(Clone)]
pub struct Claims<'a> {
    pub monitor: Monitor,
    pub seal: Seal,
    header: &'a Header,
    image: &'a [u8],
    sizes: Sizes,
    entry: Entry,
    right: bool,
}

impl<'a> Claims<'a> {
    /// Of a board as it is before the first request.
    pub fn new(header: &'a Header, image: &'a [u8], board: &Board) -> Claims<'a> {
        let sizes = header.sizes().expect("a part of the table");
        let (monitor, seal) = (Monitor::new(&sizes), Seal::of(board));
        let (entry, right) = (entry_of(board), board.ids.right_for(header));
        Claims { monitor, seal, header, image, sizes, entry, right }
    }

    /// "A report comes within document 01's count of transfers and resets", and "no list of demand 3
    /// hands out more than the count".
    pub fn handed_out(&mut self, packet: Packet) {
        self.monitor.hand_out(packet);
        let (entry, most) = (self.entry, acquisitions(self.entry));
        assert!(self.monitor.transfers <= bound(&self.sizes, entry));
        assert!(self.monitor.xres <= most && self.monitor.line_resets <= 30 * most);
    }

    /// "it isn't in VIRGIN after any such list"
    pub fn answered(&mut self, packet: Packet, answer: Answer, board: &Board) {
        self.monitor.observe(packet, answer);
        assert_ne!(board.stored, VIRGIN);
        self.seal.met(board);
        // The whole memory at each packet: no more than 70 follow the sealing one, but for WAITs and busy polls.
        self.holds_if_sealed(board);
    }

    /// The power went, before the report or after it.
    pub fn cut(&mut self, board: &Board) {
        self.seal.cut();
        self.holds_if_sealed(board);
    }

    /// Counts the board, if it is sealed, by what is reported of it.
    pub fn count_sealed(&self, report: Report, sealed: &mut Sealed) {
        if self.seal.sealed {
            let key = (self.header.macros, self.entry == Entry::Protected, reported(report));
            *sealed.entry(key).or_default() += 1;
        }
    }

    /// "has the image's flash, level and all its locks ... even where the session reports a failure"
    fn holds_if_sealed(&self, board: &Board) {
        assert!(!self.seal.sealed || board.holds(self.header, self.image), "sealed without the image");
    }

    pub fn reported(&self, report: Report, board: &Board) {
        let monitor = &self.monitor;
        self.holds_if_sealed(board);
        assert_ne!(board.stored, VIRGIN);
        assert_eq!(board.malformed, 0);
        // "The report's transfers are those handed out in the list."
        assert_eq!(u64::from(report.transfers), monitor.transfers);
        // "It says done exactly when the board is the right part and nothing in document 01's list of
        // mishaps has occurred."
        let good = self.right && monitor.mishap.is_none();
        assert_eq!(report.number == 0, good, "{report:?} {:?}", monitor.mishap);
        match (report.number, monitor.mishap) {
            (0, _) => {
                // "the board's every flash byte, row lock and chip level are the image's"
                assert!(self.seal.sealed && board.holds(self.header, self.image));
                assert_eq!(report.step, 9);
                // "a done report counts exactly plan when nothing waits or is busy"
                assert_eq!(monitor.transfers, plan(&self.sizes, self.entry) + monitor.delays());
            }
            (number, Some(mishap)) => assert_eq!(number, mishap),
            (number, None) => assert!(!self.right && [16, 20].contains(&number)),
        }
    }
}
