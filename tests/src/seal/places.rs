//! Every transfer of steps 7 to 9 meets every event of the line, every call of them fails, and the power goes before
//! each: the board is sealed from the read in which macro 0's call ends, and has the image from there on.

use super::{assert_sealed, Sealed, REPORTED};
use crate::board::{Board, Line, LineEvent};
use crate::claims::Claims;
use crate::counts::{plan, Entry};
use crate::cross::{add, Core};
use crate::cuts::Powered;
use crate::flow::{Report, BIT_31};
use crate::image::Header;
use crate::parts::{Sizes, KILL, OPEN, PROTECTED, SIZES};
use crate::play::RandomLists;
use crate::rng::Rng;
use crate::session::Outcome;
use crate::texts::sample_image;
use crate::wire::{Packet, Register};

/// What the sessions came to, each disturbed or cut at one place.
#[derive(Clone, Default, Debug)]
pub struct Places {
    pub sealed: Sealed,
    pub unsealed: u64,
    /// Cut before their report, on a sealed board and on one that is not.
    pub cut: [u64; 2],
}

impl Places {
    pub fn add(&mut self, other: &Places) {
        add(&mut self.sealed, &other.sealed);
        self.unsealed += other.unsealed;
        (0..2).for_each(|which| self.cut[which] += other.cut[which]);
    }

    pub fn assert_all_reached(&self) {
        REPORTED.iter().for_each(|reported| assert_sealed(&self.sealed, reported));
        assert!(self.unsealed > 0 && self.cut.iter().all(|&count| count > 0));
    }
}

/// Every event but OK, and whether a read that meets it is carried out.
const LINES: [(Line, bool); 7] = [
    (Line::Wait, false),
    (Line::Fault, false),
    (Line::SilentLost, false),
    (Line::SilentCarriedOut, true),
    (Line::NoisyLost, false),
    (Line::NoisyCarriedOut, true),
    (Line::WrongParity, true),
];

/// What a session reports that does not hear its answer.
const fn unheard(line: Line) -> Option<u8> {
    match line {
        Line::SilentCarriedOut | Line::SilentLost => Some(29),
        Line::NoisyCarriedOut | Line::NoisyLost => Some(33),
        _ => None,
    }
}

/// The place, from 0, of the DRW read in which macro 0's call ends. After it come the other read of its poll, the Read
/// of its status, those of its locks and of the level, and step 9.
pub fn sealing_read(sizes: &Sizes, entry: Entry) -> u64 {
    let locks = 3 * sizes.lock_bytes() as u64 / 4;
    plan(sizes, entry) - 1 - (1 + 3 + locks + 3 + 13)
}

/// The place of step 7's first transfer: 16 of the plan come after step 8's locks.
fn locking_starts(sizes: &Sizes, entry: Entry) -> u64 {
    let each = 24 + 5 * sizes.lock_bytes() as u64 / 4;
    plan(sizes, entry) - 16 - sizes.macros as u64 * each
}

/// A session and its board.
struct Walk<'a, C: Core, T> {
    core: &'a C,
    image: &'a [u8],
    session: C::Session,
    outcome: Outcome,
    target: T,
    lists: RandomLists,
    claims: Claims<'a>,
}

impl<'a, C: Core, T: Powered + Clone> Walk<'a, C, T> {
    /// A calm one, before its first request.
    fn of(core: &'a C, header: &'a Header, image: &'a [u8], board: Board, seed: u64) -> Self {
        let (session, outcome) = core.start(header, image, true);
        let (claims, lists) = (Claims::new(header, image, &board), RandomLists::calm(seed));
        Walk { core, image, session, outcome, target: T::of(header, board), lists, claims }
    }

    fn fork(&self) -> Self {
        let Walk { core, image, outcome, .. } = *self;
        let (session, target) = (self.session.clone(), self.target.clone());
        let (lists, claims) = (self.lists.clone(), self.claims.clone());
        Walk { core, image, session, outcome, target, lists, claims }
    }

    /// Transfers met so far, which is the place of the next one.
    fn place(&self) -> u64 {
        self.claims.monitor.transfers
    }

    /// Meets the request that stands, if one does.
    fn step(&mut self) -> bool {
        let Outcome::Ask(packet) = self.outcome else { return false };
        self.claims.handed_out(packet);
        let answer = self.target.meet(packet, &mut self.lists);
        self.claims.answered(packet, answer, self.target.board());
        self.outcome = self.core.step(&mut self.session, self.image, answer);
        true
    }

    /// The transfer that stands meets this, seventeen times where it is WAIT.
    fn meets(mut self, line: Line) -> Self {
        let (at, times) = (self.place(), if line == Line::Wait { 17 } else { 1 });
        self.lists.line.extend((at..at + times).map(|at| (at, LineEvent::of(line))));
        self
    }

    /// Whether the request that stands starts a call.
    fn starts_a_call(&self) -> bool {
        const DRW: u8 = Register::Drw.write_byte();
        let sysreq = self.target.board().tar == self.target.board().sizes.part.sysreq;
        let starts = |packet| matches!(packet, Packet::Write { byte: DRW, word, .. } if word & BIT_31 != 0);
        sysreq && matches!(self.outcome, Outcome::Ask(packet) if starts(packet))
    }
}

/// One image, from one entry.
struct Round<'a> {
    header: &'a Header,
    image: &'a [u8],
    entry: Entry,
    rng: &'a mut Rng,
    places: &'a mut Places,
}

impl Round<'_> {
    /// Walks to the report, from step 7 on with every disturbance and a cut at each place.
    fn walk<C: Core, T: Powered + Clone>(&mut self, mut calm: Walk<C, T>) {
        let sizes = self.header.sizes().expect("a part of the table");
        let (first, sealing) = (locking_starts(&sizes, self.entry), sealing_read(&sizes, self.entry));
        while let Outcome::Ask(_) = calm.outcome {
            let at = calm.place();
            if at >= first {
                for (line, carried_out) in LINES {
                    let sealed = at > sealing || at == sealing && carried_out;
                    let report = self.ends(calm.fork().meets(line), sealed);
                    if let Some(number) = unheard(line).filter(|_| at == sealing) {
                        assert_eq!(report, Report { number, step: 7, transfers: at as u32 + 1 });
                    }
                }
                self.cut_before_the_report(calm.fork(), at > sealing);
            }
            if at >= first && calm.starts_a_call() {
                let mut failing = calm.fork();
                failing.lists.next_call(RandomLists::failure(self.rng));
                self.ends(failing, at > sealing);
            }
            calm.step();
        }
        self.ends(calm, true);
    }

    /// Steps on to the report, which is given: sealed as said, or done.
    fn ends<C: Core, T: Powered + Clone>(&mut self, mut walk: Walk<C, T>, sealed: bool) -> Report {
        while walk.step() {}
        let Outcome::Report(report) = walk.outcome else { panic!("{:?}", walk.outcome) };
        walk.claims.reported(report, walk.target.board());
        assert_eq!(walk.claims.seal.sealed, sealed || report.number == 0, "{report:?}");
        assert!(!walk.claims.seal.sealed || walk.target.holds(self.header, self.image));
        walk.target.assert_alike();
        walk.claims.count_sealed(report, &mut self.places.sealed);
        self.places.unsealed += u64::from(!walk.claims.seal.sealed);
        self.cut(walk);
        report
    }

    fn cut_before_the_report<C: Core, T: Powered + Clone>(&mut self, walk: Walk<C, T>, sealed: bool) {
        assert_eq!(walk.claims.seal.sealed, sealed);
        self.places.cut[usize::from(!sealed)] += 1;
        self.cut(walk);
    }

    /// The power goes: what is sealed stays.
    fn cut<C: Core, T: Powered + Clone>(&mut self, mut walk: Walk<C, T>) {
        walk.target.cut(RandomLists::failure(self.rng), self.rng);
        walk.claims.cut(walk.target.board());
    }
}

/// Every size, entry and level, on a board of any contents.
pub fn places<C: Core, T: Powered + Clone>(core: &C, seed: u64) -> Places {
    let (mut rng, mut places) = (Rng(seed), Places::default());
    for (part, macros) in SIZES {
        let entries = [(OPEN, Entry::Open), (PROTECTED, Entry::Protected)];
        for ((stored, entry), level) in entries.iter().flat_map(|e| [OPEN, PROTECTED, KILL].map(|l| (*e, l)))
        {
            let (header, image) = sample_image(&mut rng, part, macros);
            let header = Header { level, ..header };
            let board = Board::any(&mut rng, &header, stored);
            let walk = Walk::<C, T>::of(core, &header, &image, board, rng.draw());
            Round { header: &header, image: &image, entry, rng: &mut rng, places: &mut places }.walk(walk);
        }
    }
    places
}
