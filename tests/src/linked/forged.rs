//! Forged sessions: any 45 bytes are refused or stepped as the session by index has it, byte for byte.

use super::{abi_answer, outcome_bytes, UNWRITTEN};
use crate::counts::{acquisitions, bound, plan, Entry};
use crate::cross::Counts;
use crate::image::{word, Header};
use crate::indexed::{self, sequence, started, Move, Purpose, BYTES};
use crate::parts::{IDCODE, SIZES};
use crate::rng::Rng;
use crate::session::Outcome;
use crate::texts::sample_image;
use crate::wire::{parity, Answer};
use halzuqeen::raw;
use std::collections::HashMap;

/// What the forged sessions came to.
#[derive(Clone, Default, Debug)]
pub struct Forged {
    pub steps: u64,
    pub impossible: u64,
    pub refused: u64,
    /// By number.
    pub reports: Counts,
    pub requests: u64,
}

/// An image of each size, and its lists of moves as they are needed.
struct Bench {
    images: Vec<(Header, Vec<u8>)>,
    lists: HashMap<(u32, u32, u8, Entry), Vec<Move>>,
}

impl Bench {
    fn image(&self, part: u8, macros: u8) -> Option<&(Header, Vec<u8>)> {
        self.images.iter().find(|(h, _)| (h.part, h.macros) == (part.into(), macros.into()))
    }

    fn moves(&mut self, header: &Header, entry: Entry) -> &[Move] {
        let key = (header.part, header.macros, header.level, entry);
        let images = &self.images;
        self.lists.entry(key).or_insert_with(|| {
            let own = images.iter().find(|(h, _)| (h.part, h.macros) == (key.0, key.1));
            sequence(header, &own.expect("an image of each size").1, entry)
        })
    }

    /// Both step these bytes; gives what came.
    fn step(
        &mut self,
        rng: &mut Rng,
        bytes: &mut [u8; BYTES],
        lent: &[u8],
        answer: Answer,
        tally: &mut Forged,
    ) -> Outcome {
        let (mut theirs, mut got) = (*bytes, [UNWRITTEN; raw::OUTCOME]);
        let before = *bytes;
        // The lists of every entry that the step may look at.
        let header = indexed::header_of(bytes);
        if header.sizes().is_some() && matches!(header.level, 1 | 2 | 4) {
            for entry in [Entry::Open, Entry::Protected] {
                self.moves(&header, entry);
            }
        }
        let key = |entry| (header.part, header.macros, header.level, entry);
        let outcome = indexed::step(bytes, lent.len(), answer, |_, entry| &self.lists[&key(entry)]);
        let number = raw::step(&mut theirs, lent, spelled(rng, answer), &mut got);
        assert_eq!(got, outcome_bytes(outcome), "{before:?} {answer:?}");
        assert_eq!(theirs, *bytes, "{before:?} {answer:?}");
        tally.steps += 1;
        match outcome {
            Outcome::Refused(refusal) => {
                assert_eq!((number, *bytes), (refusal.into(), before));
                if refusal == 13 {
                    tally.impossible += 1;
                } else {
                    tally.refused += 1;
                }
            }
            Outcome::Report(report) => *tally.reports.entry(report.number).or_default() += 1,
            Outcome::Ask(_) => tally.requests += 1,
        }
        outcome
    }

    /// An answer, often one that leads on from where the bytes stand.
    fn answer(&mut self, rng: &mut Rng, bytes: &[u8; BYTES]) -> Answer {
        let (header, at) = (indexed::header_of(bytes), word(&bytes[21..]) as usize);
        let entry = if bytes[17] == 1 { Entry::Protected } else { Entry::Open };
        let known = header.sizes().is_some() && matches!(header.level, 1 | 2 | 4);
        let standing = if known { self.moves(&header, entry).get(at).copied() } else { None };
        let fitting = match standing.map(|m| m.purpose) {
            Some(Purpose::IdCode) => IDCODE,
            Some(Purpose::TestBit) => 0x8000_0000 | rng.word(),
            Some(Purpose::Poll) => *rng.pick(&[0, 0, 1 << 28, 1 << 31]),
            Some(Purpose::Status) => 0xA000_0000 | rng.word() >> 4,
            Some(Purpose::EntryLevel | Purpose::Reopened) => {
                u32::from(header.id_family()) | (rng.below(4) as u32) << 12
            }
            Some(Purpose::Keep) => u32::from(header.id_high()) << 8,
            Some(Purpose::Same(word, _)) => word,
            Some(Purpose::StoredLevel) => [1, 0, 2, 3, 4][usize::from(header.level)] << 24,
            Some(Purpose::LastSum) => word(&bytes[37..]).wrapping_add(header.sum.into()),
            _ => rng.word(),
        };
        let reset = standing.is_some_and(|m| !m.packet.is_transfer());
        if reset != rng.chance(20) {
            return Answer::ResetDone;
        }
        let ack = match rng.below(20) {
            0 => rng.byte().into(),
            1..=3 => *rng.pick(&[2, 2, 2, 4, 7]),
            _ => 1,
        };
        let word = if rng.chance(20) { rng.word() } else { fitting };
        Answer::Wire { ack, word, parity: parity(word) != rng.chance(40) }
    }
}

/// An answer in any of the ABI's spellings: a reset is done by any byte but 0, whatever stands beside it, and
/// a parity byte over 1 is no word's parity.
fn spelled(rng: &mut Rng, answer: Answer) -> raw::Answer {
    let any = rng.byte();
    match (abi_answer(answer), answer) {
        (_, Answer::ResetDone) => {
            raw::Answer { reset_done: any.max(1), ack: rng.byte(), word: rng.word(), parity: rng.byte() }
        }
        (wire, Answer::Wire { word, parity: bit, .. }) if bit != parity(word) && any > 1 => {
            raw::Answer { parity: any, ..wire }
        }
        (wire, _) => wire,
    }
}

/// A possible session at any place, with counts near their limits half of the time.
fn possible(rng: &mut Rng, header: &Header) -> [u8; BYTES] {
    let sizes = header.sizes().expect("a part of the table");
    let mut bytes = started(header);
    bytes[16] = *rng.pick(&[1, 2, 4]);
    let entry = *rng.pick(&[Entry::Open, Entry::Protected]);
    bytes[17] = u8::from(entry == Entry::Protected);
    let moves = plan(&sizes, entry) + 2 * acquisitions(entry);
    let near = |rng: &mut Rng, most: u64| match rng.below(4) {
        0 => 0,
        1 => most.saturating_sub(rng.below(3) as u64),
        2 => (rng.below(100) as u64).min(most),
        _ => rng.below(most as usize + 1) as u64,
    };
    let most = [moves - 1, 16, 9_999, 29, u32::MAX.into(), bound(&sizes, Entry::Protected)];
    for (to, most) in bytes[21..].chunks_exact_mut(4).zip(most) {
        to.copy_from_slice(&(near(rng, most) as u32).to_le_bytes());
    }
    if rng.chance(8) {
        (bytes[18], bytes[19]) = (1, *rng.pick(&[0, 16, 22, 30, 33]));
        bytes[20] = if bytes[19] == 0 { 9 } else { 1 + rng.below(9) as u8 };
    }
    bytes
}

/// Changes bytes of a session, or words of it to values about the limits.
fn forge(rng: &mut Rng, bytes: &mut [u8; BYTES]) {
    match rng.below(6) {
        0 => bytes[rng.below(BYTES)] = rng.byte(),
        1 => bytes[rng.below(BYTES)] ^= 1 << rng.below(8),
        2 => {
            let at = 21 + 4 * rng.below(6);
            let value = word(&bytes[at..]).wrapping_add(rng.below(5) as u32).wrapping_sub(2);
            bytes[at..at + 4].copy_from_slice(&value.to_le_bytes());
        }
        3 => {
            let at = 21 + 4 * rng.below(6);
            let value = *rng.pick(&[0, 1, 16, 17, 29, 30, 9_999, 10_000, 1 << 31, u32::MAX]);
            bytes[at..at + 4].copy_from_slice(&value.to_le_bytes());
        }
        4 => (bytes[0], bytes[1]) = (rng.below(5) as u8, rng.below(4) as u8),
        _ => rng.fill(bytes),
    }
}

/// Every value of every byte of some possible sessions, then `rounds` forged ones, each stepped on.
pub fn forged(seed: u64, bases: usize, rounds: usize) -> Forged {
    let (mut rng, mut tally) = (Rng(seed), Forged::default());
    let images: Vec<_> = SIZES.iter().map(|&(p, m)| sample_image(&mut rng, p, m)).collect();
    let mut bench = Bench { images: images.clone(), lists: HashMap::new() };
    for base in 0..bases {
        let bytes = possible(&mut rng, &images[base % 4].0);
        for (at, value) in (0..BYTES).flat_map(|at| (0..=255).map(move |value| (at, value))) {
            let mut bytes = bytes;
            bytes[at] = value;
            one(&mut bench, &mut rng, &images, bytes, 1, &mut tally);
        }
    }
    for _ in 0..rounds {
        let header = &images[[0, 0, 0, 1, 2, 3][rng.below(6)]].0;
        let mut bytes = possible(&mut rng, header);
        (0..rng.below(3)).for_each(|_| forge(&mut rng, &mut bytes));
        let steps = 1 + rng.below(40);
        one(&mut bench, &mut rng, &images, bytes, steps, &mut tally);
    }
    tally
}

fn one(
    bench: &mut Bench,
    rng: &mut Rng,
    images: &[(Header, Vec<u8>)],
    mut bytes: [u8; BYTES],
    steps: usize,
    tally: &mut Forged,
) {
    let own = bench.image(bytes[0], bytes[1]).unwrap_or(&images[0]).0;
    let image = &images.iter().find(|(h, _)| h == &own).expect("an image of each size").1;
    for _ in 0..steps {
        let answer = bench.answer(rng, &bytes);
        let lent = if rng.chance(30) { &image[..rng.below(image.len())] } else { &image[..] };
        let finished = bytes[18] == 1;
        match bench.step(rng, &mut bytes, lent, answer, tally) {
            Outcome::Refused(13) => return,
            Outcome::Report(_) if finished => return,
            _ => {}
        }
    }
}
