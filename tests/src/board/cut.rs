//! The power goes and comes back, at any place of a session.

use super::{Board, CallOutcome, Running};
use crate::parts::{LOCKS, PARAMS, TEST_MODE};
use crate::rng::Rng;

impl Board {
    /// Document 02, Eleven: "the running call ends as a failed one", with any residue; its own entry of the calls'
    /// list says what it would have come to had the power stayed on. Flash, locks and level are kept otherwise.
    pub fn cut(&mut self, residue: CallOutcome, rng: &mut Rng) {
        assert!(!residue.success, "a residue is what a failed call leaves");
        if let Some(Running { command, .. }) = self.running.take() {
            let before = [self.flash.clone(), self.locks.clone()];
            self.fail(Running { command, outcome: residue });
            // Half of the time the call has come to a place of each and left the rest.
            for (now, before) in [&mut self.flash, &mut self.locks].into_iter().zip(&before) {
                let reached = if rng.bit() { now.len() } else { rng.below(now.len() + 1) };
                now[reached..].copy_from_slice(&before[reached..]);
            }
        }
        self.discharge(rng);
        if rng.bit() {
            self.tar = rng.word();
        }
    }

    /// "what has no charge is anything: level in effect, SYSARG, SYSREQ, TEST_MODE, TAR, posted word, contents of
    /// latch and PARAMS."
    pub(super) fn discharge(&mut self, rng: &mut Rng) {
        rng.fill(&mut self.latch);
        self.params.iter_mut().for_each(|word| *word = rng.word());
        self.in_effect = rng.byte() & 0xF;
        self.sysarg = rng.word();
        self.sysreq = rng.word();
        self.test_mode = rng.word();
        self.tar = *rng.pick(&[0, PARAMS, self.sizes.part.sysreq, TEST_MODE, LOCKS]);
        self.posted = rng.word();
    }
}

#[cfg(test)]
mod tests;
