//! Whole sessions against a board, with demand 3's claims asserted on the way.

use crate::board::{Board, CallOutcome, FreeLists, Line, LineEvent};
use crate::claims::Claims;
use crate::flow::{self, Report};
use crate::fnv::Fnv;
use crate::image::Header;
use crate::monitor::Monitor;
use crate::rng::Rng;
use crate::session::{start, Outcome, Session};
use crate::wire::{Answer, Packet};
use std::collections::HashMap;

/// The lists of one random run: a plan of events by place, and chances for the rest.
#[derive(Clone, Debug)]
pub struct RandomLists {
    pub rng: Rng,
    /// By the transfer's place in the run.
    pub line: HashMap<u64, LineEvent>,
    /// By the call's place in the run.
    pub calls: HashMap<u64, CallOutcome>,
    /// One transfer in so many waits; 0 for none.
    pub wait_one_in: usize,
    /// Most WAITs in a row that chance gives.
    pub most_waits: u32,
    /// One call in so many is busy; 0 for none.
    pub busy_one_in: usize,
    pub most_busy: usize,
    transfer: u64,
    call: u64,
    waits_left: u32,
}

impl RandomLists {
    pub fn calm(seed: u64) -> RandomLists {
        RandomLists {
            rng: Rng(seed),
            line: HashMap::new(),
            calls: HashMap::new(),
            wait_one_in: 0,
            most_waits: 16,
            busy_one_in: 0,
            most_busy: 20,
            transfer: 0,
            call: 0,
            waits_left: 0,
        }
    }

    /// The next call comes to this.
    pub fn next_call(&mut self, outcome: CallOutcome) {
        self.calls.insert(self.call, outcome);
    }

    /// Fills in what is free beside the event.
    pub fn event(rng: &mut Rng, line: Line) -> LineEvent {
        let noise = loop {
            let ack = if rng.bit() { rng.below(8) as u32 } else { rng.word() };
            if !line.is_noisy() || ![1, 2, 4, 7].contains(&ack) {
                break ack;
            }
        };
        LineEvent { line, noise, word: rng.word(), parity: rng.bit(), elsewhere: rng.word() }
    }

    /// A failed call with anything that it may leave.
    pub fn failure(rng: &mut Rng) -> CallOutcome {
        let status = loop {
            let status = rng.word();
            if status >> 28 != 0xA {
                break status;
            }
        };
        let scramble = rng.bit().then(|| rng.draw());
        CallOutcome { busy: rng.below(5) as u32, success: false, status, scramble, stores: rng.bit() }
    }
}

impl FreeLists for RandomLists {
    fn line(&mut self) -> LineEvent {
        self.transfer += 1;
        let mut line = Line::Ok;
        if self.waits_left > 0 {
            self.waits_left -= 1;
            line = Line::Wait;
        } else if self.wait_one_in > 0 && self.rng.chance(self.wait_one_in) {
            self.waits_left = self.rng.below(self.most_waits as usize) as u32;
            line = Line::Wait;
        }
        let free = RandomLists::event(&mut self.rng, line);
        self.line.get(&(self.transfer - 1)).copied().unwrap_or(free)
    }

    fn call(&mut self) -> CallOutcome {
        self.call += 1;
        let mut outcome = CallOutcome::OK;
        if self.busy_one_in > 0 && self.rng.chance(self.busy_one_in) {
            outcome.busy = self.rng.below(self.most_busy + 1) as u32;
        }
        self.calls.get(&(self.call - 1)).copied().unwrap_or(outcome)
    }
}

/// What a run came to.
pub struct Played {
    pub report: Report,
    /// FNV-1a over all packets, as `hash_packet` feeds them.
    pub packets: u64,
    pub sealed: bool,
    pub monitor: Monitor,
    pub board: Board,
}

/// A packet's bytes in a checksum: kind (0 XRES, 1 line reset, 2 read, 3 write), request byte, and
/// for a write the word, low byte first, and the parity bit.
pub fn hash_packet(sum: &mut Fnv, packet: Packet) {
    match packet {
        Packet::Xres => sum.byte(0),
        Packet::LineReset => sum.byte(1),
        Packet::Read { byte } => sum.bytes(&[2, byte]),
        Packet::Write { byte, word, parity } => {
            sum.bytes(&[3, byte]);
            sum.bytes(&word.to_le_bytes());
            sum.byte(u8::from(parity));
        }
    }
}

/// Refused steps put in between: one request in so many, 0 for none.
fn refused_steps(session: &mut Session, image: &[u8], packet: Packet, rng: &mut Rng) {
    let before = *session;
    let length = rng.below(image.len() + 50);
    let other = if length == image.len() { vec![] } else { rng.bytes(length) };
    let wire = Answer::Wire { ack: rng.word(), word: rng.word(), parity: rng.bit() };
    let any = if rng.bit() { wire } else { Answer::ResetDone };
    assert_eq!(session.step(&other, any), Outcome::Refused(12));
    let wrong = if packet.is_transfer() { Answer::ResetDone } else { wire };
    assert_eq!(session.step(image, wrong), Outcome::Refused(14));
    assert_eq!(*session, before);
}

/// Steps a session to its report; `transport` answers each transfer or reset. `refused` puts refused
/// steps before one request in so many. `check` sees the session's traffic after every request.
pub fn step_through(
    header: &Header,
    image: &[u8],
    mut refused: Option<(&mut Rng, usize)>,
    mut transport: impl FnMut(Packet) -> Answer,
) -> (Report, u64) {
    let mut sum = Fnv::default();
    let (mut session, mut outcome) = start(header, image, true);
    loop {
        let packet = match outcome {
            Outcome::Ask(packet) => packet,
            Outcome::Report(report) => {
                after_report(&mut session, image, report);
                return (report, sum.value());
            }
            Outcome::Refused(number) => panic!("refused with {number}"),
        };
        hash_packet(&mut sum, packet);
        let answer = transport(packet);
        if let Some((rng, one_in)) = &mut refused {
            if rng.chance(*one_in) {
                refused_steps(&mut session, image, packet, rng);
            }
        }
        outcome = session.step(image, answer);
    }
}

/// "a finished session that passes 13 and 12 repeats its report for any answer, without 14".
fn after_report(session: &mut Session, image: &[u8], report: Report) {
    for answer in [Answer::ResetDone, Answer::Wire { ack: 2, word: 0, parity: true }] {
        assert_eq!(session.step(image, answer), Outcome::Report(report));
    }
    assert_eq!(session.step(&image[1..], Answer::ResetDone), Outcome::Refused(12));
}

/// Plays a session on a plain board and asserts demand 3. The board starts OPEN or PROTECTED.
pub fn play(header: &Header, image: &[u8], board: &Board, lists: &RandomLists) -> Played {
    let mut claims = Claims::new(header, image, board);
    let (mut met, mut left) = (board.clone(), lists.clone());
    let mut rng = Rng(lists.rng.0 ^ 0x5EED);
    let (report, packets) = step_through(header, image, Some((&mut rng, 5_000)), |packet| {
        claims.handed_out(packet);
        let answer = met.answer(packet, &mut left);
        claims.answered(packet, answer, &met);
        answer
    });
    claims.reported(report, &met);
    assert_same_as_flow(header, image, board, lists, report, packets);
    Played { report, packets, sealed: claims.seal.sealed, monitor: claims.monitor, board: met }
}

/// The waiting programme hands out the same packets and ends with the same report.
fn assert_same_as_flow(
    header: &Header,
    image: &[u8],
    board: &Board,
    lists: &RandomLists,
    report: Report,
    packets: u64,
) {
    let (mut board, mut left) = (board.clone(), lists.clone());
    let mut sum = Fnv::default();
    let plain = flow::run(header, image, |packet| {
        hash_packet(&mut sum, packet);
        board.answer(packet, &mut left)
    });
    assert_eq!((plain, sum.value()), (report, packets));
}
