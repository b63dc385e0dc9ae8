//! The cases of whole sessions for the program crate `cases_session`: a calm board, and answers
//! put in the place of its own. vectors/README.md says how they are framed.

mod make;
mod reports;

pub use make::cases;

use crate::board::{Board, Lists};
use crate::flow::{self, Report};
use crate::fnv::Fnv;
use crate::image::Header;
use crate::play::hash_packet;
use crate::session::{start, Outcome};
use crate::wire::{Answer, Packet};

/// Answers that stand for the board's own: transfers `at`, `at + stride`, ... , `count` of them.
#[derive(Clone, Copy, Debug)]
pub struct Override {
    pub at: u32,
    pub stride: u32,
    pub count: u32,
    /// Whether the board meets the request at all.
    pub carried: bool,
    pub ack: u32,
    pub word: u32,
    pub parity: bool,
}

impl Override {
    fn covers(&self, transfer: u32) -> bool {
        let past = transfer.checked_sub(self.at);
        past.is_some_and(|past| past % self.stride == 0 && past / self.stride < self.count)
    }

    fn answer(&self) -> Answer {
        Answer::Wire { ack: self.ack, word: self.word, parity: self.parity }
    }
}

#[derive(Clone)]
pub struct Case {
    pub name: String,
    pub header: Header,
    /// Bytes of the image that are lent.
    pub length: usize,
    pub seed: u32,
    pub leave: bool,
    pub stored: u8,
    /// S.
    pub privileged: u32,
    pub overrides: Vec<Override>,
    /// The number that the case was made for, and the flow step of a report.
    expected: (u8, u8),
}

/// The bytes of an image: seed 0 all 0; seed 1 all 0 but two that make row 0 one that 10 refuses;
/// else the top bytes of x = x × 1664525 + 1013904223 mod 2^32, starting with x = seed.
pub fn image_bytes(seed: u32, length: usize) -> Vec<u8> {
    let mut bytes = vec![0; length];
    match seed {
        0 => {}
        1 => (bytes[3], bytes[63]) = (128, 128),
        _ => {
            let mut x = seed;
            for byte in &mut bytes {
                x = x.wrapping_mul(1_664_525).wrapping_add(1_013_904_223);
                *byte = (x >> 24) as u8;
            }
        }
    }
    bytes
}

pub fn stdin(cases: &[Case]) -> String {
    let mut text = String::new();
    for case in cases {
        let Header { part, macros, sum, metadata: m, level } = case.header;
        let (version, leave) = (case.header.version(), u8::from(case.leave));
        text += &format!(
            "{part} {macros} {} {} {sum} {version} {} {} {} {} {level} {leave} {} {} {}\n",
            case.length,
            case.seed,
            m[2],
            m[3],
            m[4],
            m[5],
            case.stored,
            case.privileged,
            case.overrides.len()
        );
        for o in &case.overrides {
            let (carried, parity) = (u8::from(o.carried), u8::from(o.parity));
            text += &format!("{} {} {} {carried} {} {} {parity}\n", o.at, o.stride, o.count, o.ack, o.word);
        }
    }
    text
}

/// The board of a case, with its answers overridden.
struct Bench<'a> {
    board: Board,
    lists: Lists,
    overrides: &'a [Override],
    transfer: u32,
}

impl Bench<'_> {
    fn new(case: &Case) -> Bench<'_> {
        let mut board = Board::blank(&case.header, case.stored);
        board.privileged = case.privileged;
        Bench { board, lists: Lists::default(), overrides: &case.overrides, transfer: 0 }
    }

    fn answer(&mut self, packet: Packet) -> Answer {
        if !packet.is_transfer() {
            return self.board.answer(packet, &mut self.lists);
        }
        self.transfer += 1;
        let standing = self.overrides.iter().find(|o| o.covers(self.transfer - 1));
        match standing {
            Some(o) if !o.carried => o.answer(),
            Some(o) => {
                self.board.answer(packet, &mut self.lists);
                o.answer()
            }
            None => self.board.answer(packet, &mut self.lists),
        }
    }
}

/// One packet in so many, the first included, is followed by two steps that are refused.
const REFUSED_EVERY: u32 = 509;

/// The line that the case's session gives.
pub fn outcome(case: &Case) -> String {
    let image = image_bytes(case.seed, case.length);
    let (mut session, mut outcome) = start(&case.header, &image, case.leave);
    if let Outcome::Refused(number) = outcome {
        assert_eq!((number, 0), case.expected, "{}", case.name);
        return format!("refused {number}");
    }
    let (mut bench, mut sum, mut packets) = (Bench::new(case), Fnv::default(), 0u32);
    while let Outcome::Ask(packet) = outcome {
        hash_packet(&mut sum, packet);
        let answer = bench.answer(packet);
        if packets % REFUSED_EVERY == 0 {
            let wrong = match packet.is_transfer() {
                true => Answer::ResetDone,
                false => Answer::Wire { ack: 1, word: 0, parity: false },
            };
            for (lent, answer) in [(&image[1..], answer), (&image[..], wrong)] {
                match session.step(lent, answer) {
                    Outcome::Refused(number) => sum.bytes(&[240, number]),
                    other => panic!("not refused: {other:?}"),
                }
            }
        }
        packets += 1;
        outcome = session.step(&image, answer);
    }
    assert_eq!(session.step(&image, Answer::ResetDone), outcome);
    let Outcome::Report(report) = outcome else { panic!("{outcome:?}") };
    let Report { number, step, transfers } = report;
    assert_eq!((number, step), case.expected, "{}", case.name);
    let mut bench = Bench::new(case);
    assert_eq!(flow::run(&case.header, &image, |packet| bench.answer(packet)), report);
    format!("report {number} {step} {transfers} {:016x}", sum.value())
}
