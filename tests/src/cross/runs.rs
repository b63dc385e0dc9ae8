//! Boards with disturbances of every kind, and answers tampered with.

use crate::board::{Board, CallOutcome, Ids, Line};
use crate::claims::entry_of;
use crate::counts::{acquisitions, loops, plan};
use crate::image::Header;
use crate::parts::{LOCKS, OPEN, PROTECTED, TEST_MODE};
use crate::play::RandomLists;
use crate::rng::Rng;
use crate::texts::sample_image;
use crate::wire::{parity, Answer, Packet};

/// A board, its lists, and at times one Read whose word is changed on the way.
pub struct Run {
    pub header: Header,
    pub image: Vec<u8>,
    pub board: Board,
    pub lists: RandomLists,
    pub tampered: Option<Tampered>,
    /// One answer in so many is anything at all; 0 for none.
    pub wild_one_in: usize,
}

/// The nth Read of an address gives its word with these bits turned.
#[derive(Clone, Copy, Debug)]
pub struct Tampered {
    pub address: u32,
    pub nth: u32,
    pub turned: u32,
}

/// A run with disturbances of every kind on a plain board.
pub fn random_run(rng: &mut Rng, part: u32, macros: u32) -> Run {
    let (header, image) = sample_image(rng, part, macros);
    let stored = *rng.pick(&[OPEN, PROTECTED]);
    let mut board = Board::any(rng, &header, stored);
    board.ids.revision = rng.byte();
    if part != 2 {
        board.ids.low = rng.byte();
    }
    let lists = RandomLists::calm(rng.draw());
    let mut run = Run { header, image, board, lists, tampered: None, wild_one_in: 0 };
    for _ in 0..1 + rng.below(2) {
        run.disturb(rng);
    }
    run
}

/// Where a disturbance comes, so that every step has its failures.
#[derive(Clone, Copy)]
enum When {
    Early,
    Late,
    Any,
}

impl When {
    /// Of so many places: one of the first hundred, one of the last, or any.
    fn place(self, rng: &mut Rng, most: u64, last: usize) -> u64 {
        match self {
            When::Early => rng.below(100) as u64,
            When::Late => most - 1 - rng.below(last) as u64,
            When::Any => rng.below(most as usize) as u64,
        }
    }
}

impl Run {
    fn disturb(&mut self, rng: &mut Rng) {
        let sizes = self.header.sizes().unwrap();
        let entry = entry_of(&self.board);
        // A call has one loop, and each acquisition one without a call.
        let (transfers, calls) = (plan(&sizes, entry), loops(&sizes, entry) - acquisitions(entry));
        let when = *rng.pick(&[When::Early, When::Late, When::Any]);
        // Steps 7 to 9 of two macros are 240 transfers, and 5 calls.
        let transfer = |rng: &mut Rng| when.place(rng, transfers, 150);
        let call = |rng: &mut Rng| when.place(rng, calls, 5);
        match rng.below(9) {
            0 => self.lists.wait_one_in = 20 + rng.below(200),
            1 => (self.lists.busy_one_in, self.lists.most_busy) = (1 + rng.below(5), 1 + rng.below(40)),
            2 | 3 => {
                let (at, line) = (transfer(rng), *rng.pick(Line::mishaps()));
                self.lists.line.insert(at, RandomLists::event(rng, line));
            }
            4 => {
                let (at, run) = (transfer(rng), 10 + rng.below(14) as u64);
                self.lists.line.extend((at..at + run).map(|at| (at, RandomLists::event(rng, Line::Wait))));
            }
            5 => {
                let at = call(rng);
                self.lists.calls.insert(at, RandomLists::failure(rng));
            }
            6 => {
                let (at, busy) = (call(rng), 19_990 + rng.below(20) as u32);
                self.lists.calls.insert(at, CallOutcome { busy, ..CallOutcome::OK });
            }
            7 => {
                for at in 0..25 + rng.below(8) as u64 {
                    let line = *rng.pick(&Line::DISTURBANCES);
                    self.lists.line.insert(at, RandomLists::event(rng, line));
                }
            }
            _ => self.other_part(rng),
        }
    }

    /// Other IDs, which part 1 and 3 may still take.
    fn other_part(&mut self, rng: &mut Rng) {
        let ids = &mut self.board.ids;
        match rng.below(4) {
            0 => ids.idcode ^= 1 << rng.below(32),
            1 => ids.high = ids.high.wrapping_add(1 + rng.byte() % 255),
            2 => ids.family ^= 1 << rng.below(8),
            _ => ids.low = rng.byte(),
        }
    }

    /// Whether every answer is the plain board's own.
    pub fn is_plain(&self) -> bool {
        self.tampered.is_none() && self.wild_one_in == 0
    }

    /// Answers that no plain board gives: on a calm board of the image's IDs, a Read's word changed or
    /// now and then anything.
    pub fn unplain(&mut self, rng: &mut Rng) {
        self.lists = RandomLists::calm(rng.draw());
        self.board.ids = Ids::of(&self.header);
        if rng.chance(6) {
            self.wild_one_in = 10 + rng.below(10_000);
        } else {
            self.tamper(rng);
        }
    }

    /// Turns bits of one Read's word: what no plain board does.
    fn tamper(&mut self, rng: &mut Rng) {
        let sizes = self.header.sizes().unwrap();
        let (part, imo) = (sizes.part, u32::from(sizes.part.imo));
        let (bit, level_bit) = (1 << rng.below(32), rng.below(4));
        // Reads of SYSARG before step 4, and from there to step 9's.
        let before = if self.board.stored == OPEN { imo + 3 } else { 2 * imo + 5 };
        let between = 2 * (sizes.rows() + sizes.macros) as u32 + 2;
        let (address, nth, turned) = match rng.below(8) {
            0 => (TEST_MODE, rng.below(2) as u32, *rng.pick(&[bit, 1 << 31])),
            1 => (part.sysreq, rng.below(14) as u32, *rng.pick(&[bit, 1 << 28, 1 << 31])),
            // Step 2's own Read, the first time or the second.
            2 => (part.sysreq, *rng.pick(&[imo + 2, 2 * imo + 6]), 0x1000 << level_bit),
            3 => (part.sysarg(), rng.below(14) as u32, bit),
            4 => (part.sysarg(), before + 1 + *rng.pick(&[0, between]), bit),
            5 => (4 * rng.below(sizes.flash() / 4) as u32, 0, bit),
            6 => {
                let start = LOCKS + rng.below(sizes.macros) as u32 * 0x400;
                (start + 4 * rng.below(sizes.lock_bytes() / 4) as u32, 0, bit)
            }
            _ => (part.level_word, 0, *rng.pick(&[bit, 1 << (24 + level_bit)])),
        };
        self.tampered = Some(Tampered { address, nth, turned });
    }
}

/// Answers requests from a run's board and lists, tampering as the run says.
pub(super) struct Transport {
    pub(super) board: Board,
    lists: RandomLists,
    tampered: Option<Tampered>,
    wild: Option<(usize, Rng)>,
    address: u32,
    reads: u32,
}

impl Transport {
    pub(super) fn of(run: &Run) -> Transport {
        let wild = (run.wild_one_in > 0).then_some((run.wild_one_in, Rng(run.lists.rng.0 ^ 0x311D)));
        let (board, lists) = (run.board.clone(), run.lists.clone());
        Transport { board, lists, tampered: run.tampered, wild, address: 0, reads: 0 }
    }

    pub(super) fn answer(&mut self, packet: Packet) -> Answer {
        let answer = self.board.answer(packet, &mut self.lists);
        if let (Some((one_in, rng)), Answer::Wire { .. }) = (&mut self.wild, answer) {
            if rng.chance(*one_in) {
                let (ack, word) = (*rng.pick(&[1, 1, 1, 1, 2, 4, 0, 7]), rng.word());
                return Answer::Wire { ack, word, parity: parity(word) != rng.chance(20) };
            }
        }
        let Answer::Wire { ack: 1, word, parity: bit } = answer else {
            return answer;
        };
        match packet {
            Packet::Write { byte: 0x8B, word, .. } => (self.address, self.reads) = (word, 0),
            Packet::Read { byte: 0x9F } => self.reads += 1,
            _ => {}
        }
        match &mut self.tampered {
            Some(tampered) if tampered.address == self.address && self.reads == 2 && bit == parity(word) => {
                // Only the Read's own word: what follows until the next TAR isn't it.
                self.reads = 3;
                match tampered.nth {
                    0 => {
                        let word = word ^ tampered.turned;
                        self.tampered = None;
                        Answer::Wire { ack: 1, word, parity: parity(word) }
                    }
                    _ => {
                        tampered.nth -= 1;
                        answer
                    }
                }
            }
            _ => answer,
        }
    }
}
