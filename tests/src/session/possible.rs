//! 13: which sessions are possible, closed under steps.

use super::place::{list_length, Call, Phase, Place, Shape};
use super::Session;
use crate::counts::{bound, Entry};
use crate::flow::{Report, ATTEMPTS, POLLS, REPEATS};
use crate::image::header_refusal;
use crate::parts::{Sizes, TABLE};

impl Session {
    /// None is 13, "session impossible for its part".
    pub(super) fn possible(&self) -> Option<Sizes> {
        let sizes = self.header.sizes()?;
        let counters = self.waits <= REPEATS
            && self.attempts < ATTEMPTS
            && self.polls < POLLS
            && self.transfers <= most_transfers(&sizes);
        (counters && header_refusal(&self.header, &sizes).is_none() && self.stands(&sizes)).then_some(sizes)
    }

    /// Whether the place is one that the part's flow has.
    fn stands(&self, sizes: &Sizes) -> bool {
        let transfers = match self.place.shape() {
            Shape::Reset | Shape::Attempt => 1,
            Shape::Transfers { count, .. } => count,
        };
        let place = match self.place {
            Place::Call(call, phase) => {
                let listed = match phase {
                    Phase::List(index) => index < list_length(sizes, call),
                    _ => true,
                };
                listed && self.call_stands(sizes, call)
            }
            Place::VerifyFlash(index) => 4 * (index as usize) < sizes.flash(),
            Place::VerifyLocks(number, index) => {
                usize::from(number) < sizes.macros && 4 * usize::from(index) < sizes.lock_bytes()
            }
            Place::Reported(report) => {
                Report::fits(report.number, report.step) && report.transfers == self.transfers
            }
            _ => true,
        };
        self.transfer < transfers && place
    }

    fn call_stands(&self, sizes: &Sizes, call: Call) -> bool {
        match call {
            Call::Imo => sizes.part.imo,
            Call::Erase | Call::Reopen => !self.reopened,
            Call::LoadRow(row) | Call::ProgramRow(row) => usize::from(row) < sizes.rows(),
            Call::LoadLocks(number) | Call::Protect(number) => usize::from(number) < sizes.macros,
            Call::SiliconId | Call::FirstSum | Call::LastSum => true,
        }
    }
}

/// Where the count stops, for sessions that nobody's start gave: by part and macros, less 1.
static MOST_TRANSFERS: [[u32; 2]; 3] = {
    let mut most = [[0; 2]; 3];
    let mut index = 0;
    while index < 6 {
        let sizes = Sizes { part: &TABLE[index / 2], macros: index % 2 + 1 };
        most[index / 2][index % 2] = bound(&sizes, Entry::Protected) as u32;
        index += 1;
    }
    most
};

pub(super) fn most_transfers(sizes: &Sizes) -> u32 {
    MOST_TRANSFERS[sizes.part.number as usize - 1][sizes.macros - 1]
}
