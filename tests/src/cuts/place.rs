//! Where the power goes in a session, and what the lists hold until then.

use crate::board::{Board, Kind, Line, Place as At};
use crate::claims::entry_of;
use crate::counts::{acquisitions, loops, plan, Entry};
use crate::flow::{CHECKSUM, ERASE_ALL, LOAD_LATCH, PROGRAM_ROW, SET_IMO, SILICON_ID};
use crate::parts::{Sizes, KILL};
use crate::play::RandomLists;
use crate::rng::Rng;
use crate::wire::{Packet, Register};

#[derive(Clone, Copy, Debug)]
enum Aim {
    /// After so many requests.
    Requests(usize),
    /// In the nth call of this kind, so many requests after its start, or before the read that would end it.
    Inside { kind: Kind, nth: usize, after: usize },
    /// After the report.
    Report,
}

/// Where the power goes; after the report where the session doesn't get there. A transfer that the cut falls into
/// is carried out or not, so it is a place after it or before it.
pub struct Place {
    aim: Aim,
    requests: usize,
    running: bool,
    /// Calls of the kind begun, and requests met while the nth runs.
    begun: usize,
    inside: usize,
}

impl Place {
    fn of(aim: Aim) -> Place {
        Place { aim, requests: 0, running: false, begun: 0, inside: 0 }
    }

    pub fn never() -> Place {
        Place::of(Aim::Report)
    }

    /// Half of the time a place of the plan: any, an early one, or its very ends; otherwise inside a call.
    pub fn any(rng: &mut Rng, board: &Board) -> Place {
        let entry = entry_of(board);
        let resets = 2 * acquisitions(entry) as usize;
        let requests = plan(&board.sizes, entry) as usize + resets;
        Place::of(match rng.below(16) {
            // Before XRES, after it, after the line reset.
            0 => Aim::Requests(rng.below(3)),
            1 => Aim::Report,
            // Thirty attempts are 61 requests.
            _ if board.stored == KILL => Aim::Requests(rng.below(122)),
            // An early one, so that the board is left PROTECTED or with step 3 half done.
            2 | 3 => Aim::Requests(rng.below(80)),
            4..=7 => Aim::Requests(rng.below(requests + 1)),
            _ => inside(rng, &board.sizes, entry),
        })
    }

    /// Whether the power goes now, before this request is met. Asked once for each request.
    pub fn comes(&mut self, board: &Board, next: Packet) -> bool {
        let met = self.requests;
        self.requests += 1;
        match self.aim {
            Aim::Report => false,
            Aim::Requests(place) => met == place,
            Aim::Inside { kind, nth, after } => {
                let now = Kind::of(board);
                let begins = now == Some(kind) && !self.running;
                self.running = now.is_some();
                self.begun += usize::from(begins);
                if now != Some(kind) || self.begun != nth + 1 {
                    return false;
                }
                self.inside += 1;
                self.inside > after || may_end(board, next)
            }
        }
    }
}

/// "which takes effect there": the DRW read of SYSREQ past the busy ones.
fn may_end(board: &Board, next: Packet) -> bool {
    let due = board.running.is_some_and(|call| call.outcome.busy == 0);
    due && next == Packet::read(Register::Drw) && board.place(board.tar) == At::SysReq
}

/// A call that a session from this entry makes, those that come once more often.
fn inside(rng: &mut Rng, sizes: &Sizes, entry: Entry) -> Aim {
    let acquired = acquisitions(entry) as usize;
    let third = match entry {
        Entry::Open => Kind::Call(ERASE_ALL),
        Entry::Protected => Kind::Reopening,
    };
    let mut calls = vec![
        (third, 1),
        (third, 1),
        (Kind::Locks(0), 1),
        (Kind::Locks(0), 1),
        (Kind::Call(LOAD_LATCH), sizes.rows() + sizes.macros),
        (Kind::Call(PROGRAM_ROW), sizes.rows()),
        (Kind::Call(SILICON_ID), acquired),
        (Kind::Call(CHECKSUM), 2),
    ];
    if sizes.part.imo {
        calls.push((Kind::Call(SET_IMO), acquired));
    }
    if sizes.macros == 2 {
        calls.extend([(Kind::Locks(1), 1); 4]);
    }
    let (kind, times) = *rng.pick(&calls);
    Aim::Inside { kind, nth: rng.below(times), after: rng.below(8) }
}

/// Calm lists half of the time, or WAITs, busy calls, a failed call, another event on the line.
pub fn disturbed(rng: &mut Rng, board: &Board) -> RandomLists {
    let mut lists = RandomLists::calm(rng.draw());
    if rng.bit() {
        return lists;
    }
    let (sizes, entry) = (&board.sizes, entry_of(board));
    // An early place half of the time, so that the first calls have their failures.
    let near = rng.bit();
    let place = |rng: &mut Rng, most: u64| rng.below(if near { 60 } else { most as usize }) as u64;
    if rng.bit() {
        (lists.wait_one_in, lists.most_waits) = (20 + rng.below(200), 1 + rng.below(14) as u32);
    }
    if rng.bit() {
        (lists.busy_one_in, lists.most_busy) = (1 + rng.below(5), 1 + rng.below(8));
    }
    if rng.chance(4) {
        let at = place(rng, loops(sizes, entry));
        lists.calls.insert(at, RandomLists::failure(rng));
    }
    if rng.chance(3) {
        let line = *rng.pick(Line::mishaps());
        lists.line.insert(place(rng, plan(sizes, entry)), RandomLists::event(rng, line));
    }
    lists
}

/// Without mishap: WAITs, sixteen running at most, and busy calls.
pub fn slow(rng: &mut Rng, board: &Board) -> RandomLists {
    let mut lists = RandomLists::calm(rng.draw());
    (lists.busy_one_in, lists.most_busy) = (1 + rng.below(5), 1 + rng.below(40));
    for start in (0..plan(&board.sizes, entry_of(board))).step_by(400) {
        let (at, waits) = (start + rng.below(300) as u64, 1 + rng.below(16) as u64);
        lists.line.extend((at..at + waits).map(|at| (at, RandomLists::event(rng, Line::Wait))));
    }
    lists
}
