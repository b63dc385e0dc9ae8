//! Whole sessions stepped by both cores: every request, refusal and report must agree, and where the
//! board is plain, demand 3's claims hold.

use super::runs::{random_run, Run, Transport};
use super::{add, Core, Counts};
use crate::claims::{entry_of, Claims};
use crate::counts::Entry;
use crate::parts::SIZES;
use crate::rng::Rng;
use crate::seal::Sealed;
use crate::session::{self, Outcome, Session};
use crate::wire::Answer;
use std::collections::BTreeMap;

/// What the sessions came to.
#[derive(Clone, Default, Debug)]
pub struct Tally {
    pub numbers: Counts,
    /// By part, M, entry from PROTECTED, level: sessions, and those that were done.
    pub kinds: BTreeMap<(u32, u32, bool, u8), (u64, u64)>,
    /// Sessions on a plain board, for which demand 3's claims were asserted.
    pub plain: u64,
    pub requests: u64,
    /// Steps refused with 12 or 14 in between.
    pub refused: u64,
    /// Of the plain boards.
    pub sealed: Sealed,
}

impl Tally {
    pub fn sessions(&self) -> u64 {
        self.kinds.values().map(|kind| kind.0).sum()
    }

    pub fn add(&mut self, other: &Tally) {
        other.numbers.iter().for_each(|(&number, count)| *self.numbers.entry(number).or_default() += count);
        for (&kind, (sessions, done)) in &other.kinds {
            let entry = self.kinds.entry(kind).or_default();
            *entry = (entry.0 + sessions, entry.1 + done);
        }
        self.plain += other.plain;
        self.requests += other.requests;
        self.refused += other.refused;
        add(&mut self.sealed, &other.sealed);
    }
}

/// Steps `rounds` sessions with both cores, refused steps between.
pub fn sessions(core: &impl Core, seed: u64, rounds: usize) -> Tally {
    let mut rng = Rng(seed);
    let mut tally = Tally::default();
    for round in 0..rounds {
        let (part, macros) = SIZES[[0, 0, 0, 1, 0, 2, 0, 3][round % 8]];
        let mut run = random_run(&mut rng, part, macros);
        if rng.chance(3) {
            run.unplain(&mut rng);
        }
        let number = one_session(core, &mut rng, &run, &mut tally);
        *tally.numbers.entry(number).or_default() += 1;
        let protected = entry_of(&run.board) == Entry::Protected;
        let kind = tally.kinds.entry((part, macros, protected, run.header.level)).or_default();
        *kind = (kind.0 + 1, kind.1 + u64::from(number == 0));
    }
    tally
}

/// Plays one run on both cores; gives the report's number, or the refusal's.
pub fn one_session(core: &impl Core, rng: &mut Rng, run: &Run, tally: &mut Tally) -> u8 {
    let Run { header, image, .. } = run;
    let leave = !rng.chance(10);
    let (mut ours, mut outcome) = session::start(header, image, leave);
    let (mut theirs, got) = core.start(header, image, leave);
    assert_eq!(got, outcome);
    let mut transport = Transport::of(run);
    let mut claims = run.is_plain().then(|| Claims::new(header, image, &run.board));
    tally.plain += u64::from(run.is_plain());
    loop {
        let packet = match outcome {
            Outcome::Refused(number) => return number,
            Outcome::Report(report) => {
                if let Some(claims) = &claims {
                    claims.reported(report, &transport.board);
                    claims.count_sealed(report, &mut tally.sealed);
                }
                tally.refused += refused(core, rng, &mut ours, &mut theirs, image);
                return report.number;
            }
            Outcome::Ask(packet) => packet,
        };
        tally.requests += 1;
        if rng.chance(2_000) {
            tally.refused += refused(core, rng, &mut ours, &mut theirs, image);
        }
        let answer = transport.answer(packet);
        if let Some(claims) = &mut claims {
            claims.handed_out(packet);
            claims.answered(packet, answer, &transport.board);
        }
        outcome = ours.step(image, answer);
        assert_eq!(core.step(&mut theirs, image, answer), outcome);
    }
}

/// Steps that 12 or 14 may refuse, on copies, so that whatever they give the session stays; and the
/// refused ones on the sessions themselves, which they leave as they were.
fn refused<C: Core>(
    core: &C,
    rng: &mut Rng,
    ours: &mut Session,
    theirs: &mut C::Session,
    image: &[u8],
) -> u64 {
    let mut count = 0;
    for _ in 0..4 {
        let cut = if rng.bit() { image.len() } else { rng.below(image.len()) };
        let wire = Answer::Wire { ack: rng.below(9) as u32, word: rng.word(), parity: rng.bit() };
        let answer = if rng.bit() { wire } else { Answer::ResetDone };
        let (mut copy, mut their_copy) = (*ours, theirs.clone());
        let outcome = copy.step(&image[..cut], answer);
        assert_eq!(core.step(&mut their_copy, &image[..cut], answer), outcome);
        if let Outcome::Refused(_) = outcome {
            assert_eq!((copy, &their_copy), (*ours, &*theirs));
            (*ours, *theirs) = (copy, their_copy);
            count += 1;
        }
    }
    count
}
