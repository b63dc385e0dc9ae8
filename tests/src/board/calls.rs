//! What calls do when they take effect: success and failure.

use super::{Board, Ids, Running};
use crate::flow::{
    CHECKSUM, ERASE_ALL, LOAD_LATCH, LOW_28, PROGRAM_ROW, SET_IMO, SILICON_ID, WRITE_PROTECTION,
};
use crate::parts::{OPEN, PROTECTED};
use crate::rng::Rng;

impl Board {
    /// Level and macro that 0x0D is sent; a level has four bits.
    pub fn sent(&self) -> (u8, usize) {
        ((self.sysarg >> 16) as u8 & 0xF, (self.sysarg >> 24) as usize)
    }

    /// "Successful calls put 0xA0000000 in SYSARG and 0 in SYSREQ, save that 0 puts in IDs and level
    /// as step 2 reads them and 0x0B adds (S + all flash bytes) mod 2^28."
    pub(super) fn succeed(&mut self, command: u32) {
        let (mut sysarg, mut sysreq) = (0xA000_0000, 0);
        match command {
            SILICON_ID => {
                let Ids { high, low, revision, family, .. } = self.ids;
                sysarg += u32::from_be_bytes([0, revision, high, low]);
                sysreq = u32::from(self.in_effect & 0xF) << 12 | u32::from(family);
            }
            CHECKSUM => {
                let sum = self.flash.iter().fold(self.privileged, |sum, &b| sum.wrapping_add(b.into()));
                sysarg += sum & LOW_28;
            }
            // "0x0A zeroes flash and locks."
            ERASE_ALL => {
                self.flash.fill(0);
                self.locks.fill(0);
            }
            LOAD_LATCH => self.load_latch(),
            PROGRAM_ROW => self.program_row(),
            WRITE_PROTECTION => self.write_protection(),
            _ => {}
        }
        (self.sysarg, self.sysreq) = (sysarg, sysreq);
    }

    /// "4 fills the latch from byte 0, keeping the rest."
    fn load_latch(&mut self) {
        let count = (self.params[1] as usize).saturating_add(1).min(self.latch.len());
        let bytes = self.params[2..].iter().flat_map(|word| word.to_le_bytes());
        self.latch.iter_mut().zip(bytes).take(count).for_each(|(to, from)| *to = from);
    }

    /// "6 makes the row the latch."
    fn program_row(&mut self) {
        let row = (self.params[0] >> 16) as usize;
        if row < self.sizes.rows() {
            let length = self.latch.len();
            self.flash[row * length..][..length].copy_from_slice(&self.latch);
        }
    }

    /// "0x0D makes the macro's locks the latch's first PB bytes and, on macro 0 only, stores the
    /// level; with PROTECTED in effect and OPEN sent it instead zeroes flash and locks and stores
    /// OPEN."
    fn write_protection(&mut self) {
        let (level, number) = self.sent();
        if self.in_effect == PROTECTED && level == OPEN {
            self.flash.fill(0);
            self.locks.fill(0);
            self.stored = OPEN;
            return;
        }
        let size = self.sizes.lock_bytes();
        if number < self.sizes.macros {
            self.locks[number * size..][..size].copy_from_slice(&self.latch[..size]);
        }
        if number == 0 {
            self.stored = level;
        }
    }

    /// "A failed call leaves 0 in SYSREQ, a SYSARG of another top digit and, unless it is 0, 0x0B or
    /// 0x15, any flash, locks and latch; a failed 0x0D on macro 0 stores the old level or the one
    /// sent."
    pub(super) fn fail(&mut self, Running { command, outcome }: Running) {
        if let (Some(seed), true) = (outcome.scramble, ![SILICON_ID, CHECKSUM, SET_IMO].contains(&command)) {
            let mut rng = Rng(seed);
            rng.fill(&mut self.flash);
            rng.fill(&mut self.locks);
            rng.fill(&mut self.latch);
        }
        let (level, number) = self.sent();
        if command == WRITE_PROTECTION && number == 0 && outcome.stores {
            self.stored = level;
        }
        let other = if outcome.status >> 28 == 0xA { 0xF000_0000 } else { 0 };
        (self.sysarg, self.sysreq) = (outcome.status | other, 0);
    }
}
