//! The proved bench board held to ours, packet by packet: whole sessions with disturbances in both free lists,
//! and single packets that no session sends.

mod packets;
mod seen;

use super::bench::{Met, Pair};
use super::Linked;
use crate::board::{Board, FreeLists, Ids, Line, Running};
use crate::claims::entry_of;
use crate::counts::{loops, plan};
use crate::cross::{add, random_run, Core, Counts, Run};
use crate::cuts::Powered;
use crate::parts::{KILL, OPEN, PROTECTED, SIZES};
use crate::play::RandomLists;
use crate::rng::Rng;
use crate::seal::Seal;
use crate::session::Outcome;
use crate::texts::sample_image;
use crate::wire::Packet;
use packets::{any_call, is_open_read, Packets, CALLS};
use seen::{counted, Before, Seen, KINDS};
use std::collections::BTreeMap;

/// What was met alike.
#[derive(Clone, Default, Debug)]
pub struct Boards {
    pub sessions: u64,
    /// Sessions that met a disturbance of each of the two lists.
    pub disturbed: u64,
    /// By report.
    pub numbers: Counts,
    /// By part, M, stored level at the start, level of the image.
    pub kinds: BTreeMap<(u32, u32, u8, u8), u64>,
    /// Packets of sessions, and single ones.
    pub packets: [u64; 2],
    pub reached: BTreeMap<&'static str, u64>,
    /// Calls that succeeded, failed, or were dropped by XRES, by number; 256 for all other numbers.
    pub calls: BTreeMap<(u32, &'static str), u64>,
}

impl Boards {
    pub fn add(&mut self, other: &Boards) {
        self.sessions += other.sessions;
        self.disturbed += other.disturbed;
        (0..2).for_each(|which| self.packets[which] += other.packets[which]);
        add(&mut self.numbers, &other.numbers);
        add(&mut self.kinds, &other.kinds);
        add(&mut self.reached, &other.reached);
        add(&mut self.calls, &other.calls);
    }

    /// Every kind of packet, every part, M, entry and level, and each call's end in each way.
    pub fn assert_all_reached(&self) {
        for (name, _) in KINDS {
            assert!(self.reached.contains_key(name), "never reached: {name}");
        }
        for (call, end) in CALLS.iter().chain(&[256]).flat_map(|&call| ENDS.map(|end| (call, end))) {
            assert!(self.calls.contains_key(&(call, end)), "never reached: call {call:#x} {end}");
        }
        for (part, macros) in SIZES {
            for kind in [OPEN, PROTECTED].iter().flat_map(|&stored| LEVELS.map(|l| (part, macros, stored, l)))
            {
                assert!(self.kinds.contains_key(&kind), "never reached: {kind:?}");
            }
        }
        assert!(2 * self.disturbed > self.sessions);
    }
}

const LEVELS: [u8; 3] = [OPEN, PROTECTED, KILL];
pub const ENDS: [&str; 3] = ["succeeded", "failed", "dropped by XRES"];

/// Counts by place in `KINDS`, cheap enough for each packet.
struct Tally {
    sum: Boards,
    kinds: [u64; KINDS.len()],
}

impl Tally {
    fn see(&mut self, seen: &Seen) {
        for (count, (_, is)) in self.kinds.iter_mut().zip(KINDS) {
            *count += u64::from(is(seen));
        }
        if let Some(call) = seen.ended() {
            let end = match seen.packet {
                Packet::Xres => ENDS[2],
                _ if call.outcome.success => ENDS[0],
                _ => ENDS[1],
            };
            *self.sum.calls.entry((counted(call.command), end)).or_default() += 1;
        }
    }

    fn meet(&mut self, pair: &mut Pair, packet: Packet, lists: &mut impl FreeLists) -> Met {
        let before = Before::of(&pair.ours);
        let (answer, event, call) = pair.meet(packet, lists);
        self.see(&Seen { before, packet, answer, event, call, board: &pair.ours });
        (answer, event, call)
    }

    fn done(mut self) -> Boards {
        for ((name, _), count) in KINDS.into_iter().zip(self.kinds).filter(|(_, count)| *count > 0) {
            self.sum.reached.insert(name, count);
        }
        self.sum
    }
}

/// WAITs and busy calls at rates from one in 8 to one in 4,096 and one in 1 to one in 128, on the right
/// part; half of the time with a failed call or another event besides.
fn disturb(rng: &mut Rng, run: &mut Run) {
    let (sizes, entry) = (run.header.sizes().expect("a part of the table"), entry_of(&run.board));
    let (transfers, calls) = (plan(&sizes, entry), loops(&sizes, entry));
    run.board.ids = Ids::of(&run.header);
    run.lists = RandomLists::calm(rng.draw());
    let lists = &mut run.lists;
    (lists.wait_one_in, lists.most_waits) = (8 << rng.below(10), 1 + rng.below(14) as u32);
    (lists.busy_one_in, lists.most_busy) = (1 << rng.below(8), 1 << rng.below(7));
    if rng.chance(4) {
        lists.calls.insert(rng.below(calls as usize) as u64, RandomLists::failure(rng));
    }
    if rng.chance(4) {
        let line = *rng.pick(Line::mishaps());
        lists.line.insert(rng.below(transfers as usize) as u64, RandomLists::event(rng, line));
    }
}

/// A session of the proved core, its requests met by both boards; then single packets on what it left.
fn session(rng: &mut Rng, tally: &mut Tally, part: u32, macros: u32) {
    let mut run = random_run(rng, part, macros);
    if !rng.chance(4) {
        disturb(rng, &mut run);
    }
    if rng.chance(16) {
        run.board.stored = rng.byte() & 0xF;
    }
    let Run { header, image, board, mut lists, .. } = run;
    *tally.sum.kinds.entry((part, macros, board.stored, header.level)).or_default() += 1;
    let mut pair = Pair::of(&header, board);
    let (mut session, mut outcome) = Linked.start(&header, &image, true);
    let (mut disturbed, mut seal) = ([false; 2], Seal::of(&pair.ours));
    while let Outcome::Ask(packet) = outcome {
        assert!(!is_open_read(&pair.ours, packet));
        let (answer, event, call) = tally.meet(&mut pair, packet, &mut lists);
        outcome = Linked.step(&mut session, &image, answer);
        seal.met(&pair.ours);
        disturbed[0] |= event.is_some_and(|event| event.line != Line::Ok);
        disturbed[1] |= call.is_some_and(|call| call.busy > 0 || !call.success);
        tally.sum.packets[0] += 1;
    }
    let Outcome::Report(report) = outcome else { panic!("{outcome:?}") };
    pair.assert_memory_alike();
    assert!(!seal.sealed || pair.holds(&header, &image));
    *tally.sum.numbers.entry(report.number).or_default() += 1;
    tally.sum.sessions += 1;
    tally.sum.disturbed += u64::from(disturbed == [true; 2]);
    single_packets(rng, tally, &mut pair, 60);
}

/// Any contents and levels, at times with a call running.
fn any_pair(rng: &mut Rng) -> Pair {
    let (part, macros) = *rng.pick(&SIZES);
    let (header, _) = sample_image(rng, part, macros);
    let stored = if rng.chance(4) { rng.byte() & 0xF } else { *rng.pick(&[1, 1, 1, 2, 2, 4]) };
    let mut board = Board::any(rng, &header, stored);
    if !rng.chance(4) {
        board.in_effect = *rng.pick(&[OPEN, OPEN, PROTECTED]);
    }
    let (command, outcome) = (*rng.pick(&CALLS), any_call(rng));
    board.running = rng.chance(4).then_some(Running { command, outcome });
    Pair::of(&header, board)
}

fn single_packets(rng: &mut Rng, tally: &mut Tally, pair: &mut Pair, count: usize) {
    let mut packets = Packets::default();
    for number in 0..count {
        let (packet, mut entries) = packets.next(rng, &pair.ours);
        tally.meet(pair, packet, &mut entries);
        tally.sum.packets[1] += 1;
        if number % 8 == 0 {
            pair.assert_memory_alike();
        }
    }
    pair.assert_memory_alike();
}

/// So many sessions of the core, and single packets on boards of any state.
pub fn boards(seed: u64, sessions: usize, packets: usize) -> Boards {
    let mut rng = Rng(seed);
    let mut tally = Tally { sum: Boards::default(), kinds: [0; KINDS.len()] };
    for round in 0..sessions {
        let (part, macros) = SIZES[[0, 1, 0, 2, 0, 3][round % 6]];
        session(&mut rng, &mut tally, part, macros);
    }
    for _ in 0..packets / 250 {
        let mut pair = any_pair(&mut rng);
        single_packets(&mut rng, &mut tally, &mut pair, 250);
    }
    tally.done()
}
