//! What is lent for a header, a session, an outcome or a length, at lengths about its size. Longer is fine,
//! and bytes past the size stay. Under size is 12, in document 01's order; an output that is under size
//! stays, and one that fits has what a refusal gives: "all 0", or the refusal.

use super::{LEFT, RESET_DONE};
use crate::counts::Entry;
use crate::hex::{self, text_length};
use crate::image::Header;
use crate::indexed::{self, header_bytes, sequence, started, Move, BYTES};
use crate::linked::{abi_answer, outcome_bytes};
use crate::parts::{Sizes, KILL, OPEN};
use crate::rng::Rng;
use crate::session::{self, Outcome};
use crate::texts::sample_image;
use crate::wire::{Answer, Packet};
use halzuqeen::raw;
use std::collections::BTreeMap;

/// How often each call gave each number.
pub type Reached = BTreeMap<(&'static str, u32), u64>;

/// What must be reached: every number that the lengths stand between.
const NUMBERS: [(&str, &[u32]); 4] = [
    ("read", &[0, 1, 11, 12]),
    ("write", &[0, 6, 11, 12]),
    ("start", &[0, 6, 11, 12, 15]),
    ("step", &[0, 12, 13, 14]),
];

/// An image that passes and is no KILL, its text, and its moves.
struct Case {
    header: Header,
    image: Vec<u8>,
    text: Vec<u8>,
    moves: Vec<Move>,
}

impl Case {
    fn new(rng: &mut Rng, part: u32, macros: u32) -> Case {
        let (header, image) = sample_image(rng, part, macros);
        let header = Header { level: OPEN, ..header };
        let mut text = vec![0; text_length(&header.sizes().expect("a part of the table"))];
        assert_eq!(hex::write(&header, &image, &mut text).0, 0);
        let moves = sequence(&header, &image, Entry::Open);
        Case { header, image, text, moves }
    }

    /// The header, one of a part that is none, one of another version.
    fn headers(&self) -> [Header; 3] {
        let mut version = self.header;
        version.metadata[1] = 3;
        [self.header, Header { part: 9, ..self.header }, version]
    }
}

/// Lengths about a size: none, one under, the size, one over, twice.
fn about(size: usize) -> [usize; 5] {
    [0, size - 1, size, size + 1, 2 * size]
}

fn pairs(first: usize, second: usize) -> impl Iterator<Item = (usize, usize)> {
    about(first).into_iter().flat_map(move |a| about(second).into_iter().map(move |b| (a, b)))
}

/// These bytes, cut or followed by others.
fn lent(bytes: &[u8], length: usize) -> Vec<u8> {
    let mut lent = bytes.to_vec();
    lent.resize(length, LEFT);
    lent
}

/// A buffer that these bytes were put into, where they fit.
fn put(mut buffer: Vec<u8>, bytes: &[u8]) -> Vec<u8> {
    if let Some(front) = buffer.get_mut(..bytes.len()) {
        front.copy_from_slice(bytes);
    }
    buffer
}

/// "Reading checks 11, 12, then 1 to 5 per record in that order, then 6 to 10."
fn read(case: &Case, reached: &mut Reached) {
    for (header, text) in case.headers()[..2].iter().flat_map(|h| [(h, case.text.as_slice()), (h, b"\n")]) {
        for (image, told_length) in pairs(case.image.len(), raw::HEADER) {
            let (mut buffer, mut told) = (vec![LEFT; image], vec![LEFT; told_length]);
            let mut expected = buffer.clone();
            let (number, found) = match header.sizes() {
                Some(_) if told_length < raw::HEADER => (12, Header::ZERO),
                _ => hex::read(header.part, header.macros, text, &mut expected),
            };
            let (part, macros) = (header.part as u8, header.macros as u8);
            let got = raw::read(part, macros, text, &mut buffer, &mut told);
            assert_eq!(got, number.into(), "an image of {image} bytes, a header of {told_length}");
            assert_eq!(told, put(vec![LEFT; told_length], &header_bytes(&found)));
            assert!(buffer == expected);
            *reached.entry(("read", got)).or_default() += 1;
        }
    }
}

/// "Writing and starting check 11, 12, 6 to 10"; no part can be read from a header under size.
fn write(case: &Case, reached: &mut Reached) {
    let (exact, enough) = (case.image.len(), case.text.len());
    for (header, (told_length, length)) in
        case.headers().iter().flat_map(|h| pairs(raw::HEADER, raw::LENGTH).map(move |lengths| (h, lengths)))
    {
        for (image, text) in [
            (exact, enough),
            (exact, enough - 1),
            (exact, enough + 9),
            (exact - 1, enough),
            (exact + 1, enough),
        ] {
            let (image, mut buffer, mut size) =
                (lent(&case.image, image), vec![LEFT; text], vec![LEFT; length]);
            let mut expected = buffer.clone();
            let (number, written) = match header.sizes() {
                _ if told_length < raw::HEADER => (12, 0),
                Some(_) if length < raw::LENGTH => (12, 0),
                _ => hex::write(header, &image, &mut expected),
            };
            let got = raw::write(&lent(&header_bytes(header), told_length), &image, &mut buffer, &mut size);
            assert_eq!(got, number.into(), "a header of {told_length} bytes, a length of {length}");
            assert_eq!(size, put(vec![LEFT; length], &(written as u64).to_le_bytes()));
            assert!(buffer == expected);
            *reached.entry(("write", got)).or_default() += 1;
        }
    }
}

/// The same for starting, "then 15", over the bytes of a session that a step takes: none of them may be left.
fn start(case: &Case, reached: &mut Reached) {
    let killing = Header { level: KILL, ..case.header };
    for (header, told_length) in case
        .headers()
        .iter()
        .chain([&killing])
        .flat_map(|h| about(raw::HEADER).map(move |told_length| (h, told_length)))
    {
        for ((session, outcome), image) in pairs(raw::SESSION, raw::OUTCOME)
            .flat_map(|lengths| [0, 1].map(|more| (lengths, lent(&case.image, case.image.len() + more))))
        {
            let before = lent(&started(&case.header), session);
            let (mut bytes, mut told) = (before.clone(), vec![LEFT; outcome]);
            let expected = match header.sizes() {
                _ if told_length < raw::HEADER => Outcome::Refused(12),
                Some(_) if session < raw::SESSION || outcome < raw::OUTCOME => Outcome::Refused(12),
                _ => session::start(header, &image, false).1,
            };
            let (number, given) = match expected {
                Outcome::Refused(number) => (number, [0; BYTES]),
                _ => (0, started(header)),
            };
            let got = raw::start(&lent(&header_bytes(header), told_length), &image, 0, &mut bytes, &mut told);
            assert_eq!(got, number.into(), "a header of {told_length} bytes, {session}, {outcome}");
            assert_eq!(bytes, put(before, &given));
            assert_eq!(told, put(vec![LEFT; outcome], &outcome_bytes(expected)));
            *reached.entry(("start", got)).or_default() += 1;
            if got != 0 && session >= raw::SESSION {
                assert_eq!(raw::step(&mut bytes, &case.image, RESET_DONE, &mut [LEFT; raw::OUTCOME]), 13);
            }
        }
    }
}

/// Sessions that stand at XRES and at the line reset, one that is impossible, and bytes that no session has.
fn sessions(header: &Header) -> [[u8; BYTES]; 4] {
    let mut sessions = [started(header); 4];
    sessions[1][21] = 1;
    sessions[2][25] = 17;
    sessions[3][17] = 2;
    sessions
}

/// "A step checks 13, 12, 14 and, refused, gives back the session it got"; there is none in bytes under size.
fn step(case: &Case, reached: &mut Reached) {
    let exact = case.image.len();
    let answers = [Answer::ResetDone, Answer::Wire { ack: 1, word: 0, parity: false }];
    for (own, answer) in sessions(&case.header).iter().flat_map(|own| answers.map(|answer| (own, answer))) {
        for ((session, outcome), image) in pairs(raw::SESSION, raw::OUTCOME)
            .flat_map(|lengths| [exact, exact - 1, 0].map(|image| (lengths, &case.image[..image])))
        {
            let (mut bytes, mut told) = (lent(own, session), vec![LEFT; outcome]);
            let mut after = *own;
            let expected = match indexed::step(&mut after, image.len(), answer, |_, _| &case.moves) {
                _ if session < raw::SESSION => Outcome::Refused(12),
                Outcome::Refused(13) => Outcome::Refused(13),
                _ if outcome < raw::OUTCOME => Outcome::Refused(12),
                came => came,
            };
            let (number, left) = match expected {
                Outcome::Refused(number) => (number, *own),
                _ => (0, after),
            };
            let got = raw::step(&mut bytes, image, abi_answer(answer), &mut told);
            assert_eq!(got, number.into(), "a session of {session} bytes, an outcome of {outcome}");
            assert_eq!(bytes, put(lent(own, session), &left));
            assert_eq!(told, put(vec![LEFT; outcome], &outcome_bytes(expected)));
            *reached.entry(("step", got)).or_default() += 1;
        }
    }
}

/// A start with a header of 16 bytes over a session that asks for a line reset: the next step is refused, and asks for nothing.
fn refused_over_a_live_session(case: &Case) {
    let (mut bytes, mut told) = (started(&case.header), [LEFT; raw::OUTCOME]);
    assert_eq!(raw::step(&mut bytes, &case.image, RESET_DONE, &mut told), 0);
    assert_eq!(told, outcome_bytes(Outcome::Ask(Packet::LineReset)));
    assert_eq!(raw::start(&header_bytes(&case.header)[..16], &case.image, 1, &mut bytes, &mut told), 12);
    assert_eq!((bytes, told), ([0; BYTES], outcome_bytes(Outcome::Refused(12))));
    assert_eq!(raw::step(&mut bytes, &case.image, RESET_DONE, &mut told), 13);
    assert_eq!((bytes, told), ([0; BYTES], outcome_bytes(Outcome::Refused(13))));
}

/// All four calls for a part; the numbers that lengths stand between are all reached.
pub fn lengths(rng: &mut Rng, part: u32, macros: u32) -> u64 {
    assert!(Sizes::of(9, macros).is_none());
    let (case, mut reached) = (Case::new(rng, part, macros), Reached::new());
    read(&case, &mut reached);
    write(&case, &mut reached);
    start(&case, &mut reached);
    step(&case, &mut reached);
    refused_over_a_live_session(&case);
    for (call, numbers) in NUMBERS {
        let got: Vec<u32> =
            reached.keys().filter(|(name, _)| *name == call).map(|&(_, number)| number).collect();
        assert_eq!(got, numbers, "{call}");
    }
    reached.values().sum()
}
