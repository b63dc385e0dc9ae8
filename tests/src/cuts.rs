//! Document 02, Eleven: sessions "cut after any transfer", 1 to 4 of them on one board, then one without mishap that
//! nobody cuts. Call `chains` for a core and a board that it is joined to.

mod place;
mod tally;

pub use tally::{Cuts, KINDS};

use crate::board::{Board, CallOutcome, Kind};
use crate::claims::{entry_of, Claims};
use crate::counts::plan;
use crate::cross::Core;
use crate::flow::Report;
use crate::image::Header;
use crate::parts::{KILL, OPEN, PROTECTED, SIZES};
use crate::play::RandomLists;
use crate::rng::Rng;
use crate::session::Outcome;
use crate::texts::sample_image;
use crate::wire::{Answer, Packet};
use place::{disturbed, slow, Place};

/// A plain board that meets requests and can be cut: ours, or ours with the bench board beside it.
pub trait Powered {
    fn of(header: &Header, board: Board) -> Self;
    fn board(&self) -> &Board;
    fn meet(&mut self, packet: Packet, lists: &mut RandomLists) -> Answer;
    fn cut(&mut self, residue: CallOutcome, rng: &mut Rng);
    /// Where there are two boards, their memories are the same.
    fn assert_alike(&self) {}
    /// Whether flash, locks and stored level are the image's, of both where there are two.
    fn holds(&self, header: &Header, image: &[u8]) -> bool {
        self.board().holds(header, image)
    }
}

impl Powered for Board {
    fn of(_: &Header, board: Board) -> Board {
        board
    }

    fn board(&self) -> &Board {
        self
    }

    fn meet(&mut self, packet: Packet, lists: &mut RandomLists) -> Answer {
        self.answer(packet, lists)
    }

    fn cut(&mut self, residue: CallOutcome, rng: &mut Rng) {
        Board::cut(self, residue, rng);
    }
}

/// What "every later session" reports once KILL is stored: silence, thirty attempts long.
const CLOSED: Report = Report { number: 26, step: 1, transfers: 30 };

/// One board and the sessions on it.
struct Chain<'a, C, T> {
    core: &'a C,
    rng: &'a mut Rng,
    tally: &'a mut Cuts,
    target: T,
    header: Header,
    image: Vec<u8>,
    /// Flash and locks since KILL is stored.
    closed: Option<(Vec<u8>, Vec<u8>)>,
}

/// How a session ended: with its report, or cut before it.
struct End {
    report: Option<Report>,
    /// Transfers that the board met.
    transfers: u64,
}

impl<C: Core, T: Powered> Chain<'_, C, T> {
    /// The last session's image, or another of the same part and M, of any level.
    fn choose_image(&mut self) {
        if self.rng.bit() {
            let Header { part, macros, .. } = self.header;
            (self.header, self.image) = sample_image(self.rng, part, macros);
        }
        assert!(self.target.board().ids.right_for(&self.header));
    }

    /// Steps a session to its report or to the cut's place; demand 3's claims hold as far as it goes.
    fn session(&mut self, claims: &mut Claims, mut lists: RandomLists, mut place: Place) -> End {
        let Chain { core, rng, tally, target, header, image, .. } = self;
        let (mut session, mut outcome) = core.start(header, image, true);
        let mut transfers = 0;
        loop {
            let packet = match outcome {
                Outcome::Ask(packet) => packet,
                Outcome::Report(report) => {
                    claims.reported(report, target.board());
                    return End { report: Some(report), transfers };
                }
                Outcome::Refused(number) => panic!("refused with {number}"),
            };
            claims.handed_out(packet);
            if place.comes(target.board(), packet) {
                return End { report: None, transfers };
            }
            let answer = target.meet(packet, &mut lists);
            claims.answered(packet, answer, target.board());
            transfers += u64::from(packet.is_transfer());
            tally.requests += 1;
            if rng.chance(5_000) {
                tally.refused += refused(*core, &mut session, image, packet);
            }
            outcome = core.step(&mut session, image, answer);
        }
    }

    /// A session that is cut, and what must hold of the board then.
    fn cut_session(&mut self) {
        self.choose_image();
        let (header, image) = (self.header, self.image.clone());
        let board = self.target.board();
        let (lists, place) = (disturbed(self.rng, board), Place::any(self.rng, board));
        let mut claims = Claims::new(&header, &image, board);
        let end = self.session(&mut claims, lists, place);
        if let Some(report) = end.report {
            assert!(self.closed.is_none() || report == CLOSED, "{report:?}");
            *self.tally.numbers.entry(report.number).or_default() += 1;
        }
        let before = Before::of(self.target.board());
        let residue = RandomLists::failure(self.rng);
        self.target.cut(residue, self.rng);
        claims.cut(self.target.board());
        let stored = self.target.board().stored;
        assert!([OPEN, PROTECTED, KILL].contains(&stored));
        self.tally.see_cut(&before, &residue, stored);
        self.tally.see_end(end.transfers, end.report.is_some(), before.kind.is_some());
        self.tally.see_seal(claims.seal, end.report);
        self.stays_closed();
    }

    /// Once KILL is stored it stays, and so do flash and locks.
    fn stays_closed(&mut self) {
        let Board { stored, flash, locks, .. } = self.target.board();
        match &self.closed {
            Some((kept, kept_locks)) => assert!(*stored == KILL && flash == kept && locks == kept_locks),
            None => self.closed = (*stored == KILL).then(|| (flash.clone(), locks.clone())),
        }
    }

    /// "a fresh session ... without mishap reports done, unless KILL had been stored".
    fn fresh_session(&mut self) {
        self.choose_image();
        let (header, image) = (self.header, self.image.clone());
        let board = self.target.board();
        let (sizes, entry) = (board.sizes, entry_of(board));
        let mut claims = Claims::new(&header, &image, board);
        self.tally.found(board.stored);
        let calm = self.rng.bit();
        let lists = if calm { RandomLists::calm(self.rng.draw()) } else { slow(self.rng, board) };
        let end = self.session(&mut claims, lists, Place::never());
        // Calm, it takes the plan; what WAITs and busy polls add to it is in the claims.
        let taken =
            end.report.filter(|_| !calm).map_or(plan(&sizes, entry) as u32, |report| report.transfers);
        let done = Report { number: 0, step: 9, transfers: taken };
        let due = if self.closed.is_some() { CLOSED } else { done };
        assert_eq!(end.report, Some(due));
        self.target.assert_alike();
        if self.closed.is_some() {
            return self.stays_closed();
        }
        assert!(self.target.holds(&header, &image));
    }

    fn play(&mut self) {
        let cuts = 1 + self.rng.below(4);
        let (ids, privileged) = (self.target.board().ids, self.target.board().privileged);
        (0..cuts).for_each(|_| self.cut_session());
        self.fresh_session();
        assert_eq!((self.target.board().ids, self.target.board().privileged), (ids, privileged));
        self.tally.see_chain(&self.header, cuts);
    }
}

/// What a cut's kind depends on, before it.
struct Before {
    /// The call that runs.
    kind: Option<Kind>,
    stored: u8,
    /// The level that 0x0D is sent.
    sent: u8,
}

impl Before {
    fn of(board: &Board) -> Before {
        Before { kind: Kind::of(board), stored: board.stored, sent: board.sent().0 }
    }
}

/// Steps that 12 and 14 refuse, which leave the session.
fn refused<C: Core>(core: &C, session: &mut C::Session, image: &[u8], packet: Packet) -> u64 {
    let before = session.clone();
    let wire = Answer::Wire { ack: 1, word: 0, parity: false };
    let wrong = if packet.is_transfer() { Answer::ResetDone } else { wire };
    assert_eq!(core.step(session, &image[1..], wire), Outcome::Refused(12));
    assert_eq!(core.step(session, image, wrong), Outcome::Refused(14));
    assert_eq!(*session, before);
    2
}

/// So many chains on boards of the right part, of any contents, OPEN or PROTECTED.
pub fn chains<C: Core, T: Powered>(core: &C, seed: u64, count: usize) -> Cuts {
    let mut rng = Rng(seed);
    let mut tally = Cuts::default();
    for round in 0..count {
        let (part, macros) = SIZES[[0, 3, 0, 1, 0, 2, 0, 1][round % 8]];
        let (header, image) = sample_image(&mut rng, part, macros);
        let stored = *rng.pick(&[OPEN, PROTECTED]);
        let mut board = Board::any(&mut rng, &header, stored);
        board.ids.revision = rng.byte();
        if part != 2 {
            board.ids.low = rng.byte();
        }
        let target = T::of(&header, board);
        Chain { core, rng: &mut rng, tally: &mut tally, target, header, image, closed: None }.play();
    }
    tally
}
