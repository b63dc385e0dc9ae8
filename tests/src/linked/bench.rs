//! The proved bench board through its C ABI, beside ours: both meet each packet with the same entries.

use super::{abi_answer, outcome_bytes};
use crate::board::{Board, CallOutcome, FreeLists, Line, LineEvent, Place};
use crate::cuts::Powered;
use crate::image::Header;
use crate::play::RandomLists;
use crate::rng::Rng;
use crate::session::Outcome;
use crate::wire::{request_byte, Answer, Packet, Register};
use halzuqeen::{bench, raw};

const READS: [u8; 2] = [Register::IdCode.read_byte(), Register::Drw.read_byte()];
const WRITES: [u8; 5] = [
    Register::Tar.write_byte(),
    Register::Drw.write_byte(),
    Register::CtrlStat.write_byte(),
    Register::Select.write_byte(),
    Register::Csw.write_byte(),
];

/// A request byte that SWD has, of a register that document 01 does not use: its answer is nowhere fixed.
pub fn is_of_other_register(packet: Packet) -> bool {
    let formed = |byte: u8| request_byte(byte & 2 != 0, byte & 4 != 0, byte >> 3 & 3) == byte;
    match packet {
        Packet::Read { byte } => !READS.contains(&byte) && byte & 4 != 0 && formed(byte),
        Packet::Write { byte, .. } => !WRITES.contains(&byte) && byte & 4 == 0 && formed(byte),
        _ => false,
    }
}

/// Lists that remember what was taken from them for one packet.
struct Taken<'a, F> {
    lists: &'a mut F,
    event: Option<LineEvent>,
    call: Option<CallOutcome>,
}

impl<F: FreeLists> FreeLists for Taken<'_, F> {
    fn line(&mut self) -> LineEvent {
        assert!(self.event.is_none(), "two entries for one transfer");
        *self.event.insert(self.lists.line())
    }

    fn call(&mut self) -> CallOutcome {
        assert!(self.call.is_none(), "two entries for one call");
        *self.call.insert(self.lists.call())
    }
}

fn event_bytes(event: &LineEvent, elsewhere: u32) -> [u8; bench::EVENT] {
    let mut bytes = [0; bench::EVENT];
    bytes[0] = match event.line {
        Line::Ok => 0,
        Line::Wait => 1,
        Line::Fault => 2,
        Line::WrongParity => 3,
        Line::SilentLost => 4,
        Line::SilentCarriedOut => 5,
        Line::NoisyLost => 6,
        Line::NoisyCarriedOut => 7,
    };
    bytes[1] = u8::try_from(event.noise).unwrap_or(u8::MAX);
    bytes[2..6].copy_from_slice(&event.word.to_le_bytes());
    bytes[6] = event.parity.into();
    bytes[7..].copy_from_slice(&elsewhere.to_le_bytes());
    bytes
}

fn call_bytes(call: &CallOutcome) -> [u8; bench::CALL] {
    let mut bytes = [0; bench::CALL];
    bytes[..4].copy_from_slice(&call.busy.to_le_bytes());
    bytes[4] = call.success.into();
    bytes[5..9].copy_from_slice(&call.status.to_le_bytes());
    bytes[9] = call.stores.into();
    bytes
}

/// All of our board but flash, locks, latch and PARAMS, as the bench board has it.
fn board_bytes(board: &Board) -> [u8; bench::BOARD] {
    let mut bytes = [0; bench::BOARD];
    let ids = board.ids;
    let words = [(0, ids.idcode), (8, board.privileged), (14, board.sysarg), (18, board.sysreq)];
    for (at, word) in words.into_iter().chain([(22, board.test_mode), (26, board.tar), (30, board.posted)]) {
        bytes[at..at + 4].copy_from_slice(&word.to_le_bytes());
    }
    bytes[4..8].copy_from_slice(&[ids.high, ids.low, ids.revision, ids.family]);
    (bytes[12], bytes[13]) = (board.stored, board.in_effect);
    if let Some(call) = &board.running {
        bytes[34] = 1;
        bytes[35..45].copy_from_slice(&call_bytes(&call.outcome));
        bytes[45] = call.command as u8;
    }
    bytes
}

/// An answer's eight bytes, with what was taken from the lists.
fn answer_bytes(answer: Answer, used: u8) -> [u8; bench::ANSWER] {
    let raw::Answer { reset_done, ack, word, parity } = abi_answer(answer);
    let [a, b, c, d] = word.to_le_bytes();
    [reset_done, ack, parity, used, a, b, c, d]
}

/// The answer, and the entries taken for it.
pub type Met = (Answer, Option<LineEvent>, Option<CallOutcome>);

/// Both boards.
#[derive(Clone)]
pub struct Pair {
    pub ours: Board,
    part: u8,
    macros: u8,
    board: [u8; bench::BOARD],
    flash: Vec<u8>,
    locks: Vec<u8>,
    latch: Vec<u8>,
    params: Vec<u32>,
    /// The running call's residue if it fails: flash, locks and latch.
    residue: [Vec<u8>; 3],
}

impl Pair {
    pub fn of(header: &Header, ours: Board) -> Pair {
        let (part, macros) = (header.part as u8, header.macros as u8);
        let (flash, locks, latch) = (ours.flash.clone(), ours.locks.clone(), ours.latch.clone());
        let (board, params, residue) = (board_bytes(&ours), ours.params.clone(), [vec![], vec![], vec![]]);
        let mut pair = Pair { ours, part, macros, board, flash, locks, latch, params, residue };
        if let Some(call) = pair.ours.running {
            pair.set_residue(&call.outcome);
        }
        pair
    }

    /// A call keeps flash, locks and latch if it fails, or scrambles them as ours does.
    fn set_residue(&mut self, call: &CallOutcome) {
        for (residue, now) in self.residue.iter_mut().zip([&self.flash, &self.locks, &self.latch]) {
            residue.clone_from(now);
        }
        if let Some(seed) = call.scramble {
            let mut rng = Rng(seed);
            self.residue.iter_mut().for_each(|residue| rng.fill(residue));
        }
    }

    /// The free bits of the level word and of a busy SYSREQ: ours are the board's, theirs the event's.
    fn free_bits(&self) -> Option<u32> {
        match self.ours.place(self.ours.tar) {
            Place::Level => Some(self.ours.level_rest),
            Place::SysReq => Some(self.ours.sysreq),
            _ => None,
        }
    }

    /// Both boards meet a packet.
    pub fn meet(&mut self, packet: Packet, lists: &mut impl FreeLists) -> Met {
        let free_bits = self.free_bits();
        let mut taken = Taken { lists, event: None, call: None };
        let answer = self.ours.answer(packet, &mut taken);
        if let Some(call) = &taken.call {
            self.set_residue(call);
        }
        // What isn't taken must not matter.
        let event = taken.event.unwrap_or(LineEvent { noise: 1, ..LineEvent::of(Line::SilentCarriedOut) });
        let call = taken.call.unwrap_or(CallOutcome { success: false, ..CallOutcome::OK });
        let elsewhere = free_bits.unwrap_or(event.elsewhere);
        let given = self.meet_theirs(packet, &event_bytes(&event, elsewhere), &call_bytes(&call));
        let used = u8::from(taken.event.is_some()) + 2 * u8::from(taken.call.is_some());
        if is_of_other_register(packet) {
            assert_eq!(given[3], used, "{packet:?}");
        } else {
            assert_eq!(given, answer_bytes(answer, used), "{packet:?}, {:?}, {:?}", taken.event, taken.call);
        }
        assert_eq!(self.board, board_bytes(&self.ours), "{packet:?}, {:?}, {:?}", taken.event, taken.call);
        (answer, taken.event, taken.call)
    }

    fn meet_theirs(&mut self, packet: Packet, event: &[u8], call: &[u8]) -> [u8; bench::ANSWER] {
        let mut answer = [super::UNWRITTEN; bench::ANSWER];
        let bench = bench::Bench {
            board: &mut self.board,
            flash: &mut self.flash,
            locks: &mut self.locks,
            latch: &mut self.latch,
            params: &mut self.params,
        };
        let residue = self.residue.each_ref().map(Vec::as_slice);
        let entries = bench::Outcomes { event, call, residue };
        let packet = outcome_bytes(Outcome::Ask(packet));
        assert_eq!(bench::meet(self.part, self.macros, bench, entries, &packet, &mut answer), 0);
        answer
    }

    /// The power goes: ours is cut, and theirs gets the same bytes, its mark of a running call 0.
    pub fn cut(&mut self, residue: CallOutcome, rng: &mut Rng) {
        self.assert_memory_alike();
        self.ours.cut(residue, rng);
        self.board = board_bytes(&self.ours);
        assert_eq!(self.board[34], 0);
        self.flash.clone_from(&self.ours.flash);
        self.locks.clone_from(&self.ours.locks);
        self.latch.clone_from(&self.ours.latch);
        self.params.clone_from(&self.ours.params);
    }

    /// Whether the bench board's own buffers have the image's flash, locks and level.
    fn theirs_holds(&self, header: &Header, image: &[u8]) -> bool {
        let (flash, locks) = image.split_at(self.flash.len());
        self.flash == flash && self.locks == locks && self.board[12] == header.level
    }

    /// Flash, locks, latch and PARAMS; the rest is compared at each packet.
    pub fn assert_memory_alike(&self) {
        let Board { flash, locks, latch, params, .. } = &self.ours;
        assert!(self.flash == *flash, "flash");
        assert!(self.locks == *locks, "locks");
        assert_eq!((&self.latch, &self.params), (latch, params));
    }
}

impl Powered for Pair {
    fn of(header: &Header, board: Board) -> Pair {
        Pair::of(header, board)
    }

    fn board(&self) -> &Board {
        &self.ours
    }

    fn meet(&mut self, packet: Packet, lists: &mut RandomLists) -> Answer {
        Pair::meet(self, packet, lists).0
    }

    fn cut(&mut self, residue: CallOutcome, rng: &mut Rng) {
        Pair::cut(self, residue, rng);
    }

    fn assert_alike(&self) {
        self.assert_memory_alike();
    }

    fn holds(&self, header: &Header, image: &[u8]) -> bool {
        self.ours.holds(header, image) && self.theirs_holds(header, image)
    }
}
