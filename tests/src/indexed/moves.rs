//! 'Flow' as one flat list of moves: each request with its step and what its answer is judged by.

use crate::counts::Entry;
use crate::flow::{
    key, latch_list, BIT_31, CHECKSUM, ERASE_ALL, LOAD_LATCH, PROGRAM_ROW, SET_IMO, SILICON_ID,
    WRITE_PROTECTION,
};
use crate::image::{word, Header};
use crate::parts::{Sizes, LOCKS, LOCKS_STEP, PARAMS, TEST_MODE};
use crate::wire::{Packet, Register};

/// What a word is judged by.
#[derive(Clone, Copy, PartialEq, Eq, Debug)]
pub enum Purpose {
    Sent,
    IdCode,
    TestBit,
    Poll,
    Status,
    Keep,
    EntryLevel,
    Reopened,
    /// A word to equal, and the number if it doesn't.
    Same(u32, u8),
    StoredLevel,
    LastSum,
}

#[derive(Clone, Copy, PartialEq, Eq, Debug)]
pub struct Move {
    pub step: u8,
    pub packet: Packet,
    pub purpose: Purpose,
}

struct List<'a> {
    moves: Vec<Move>,
    header: &'a Header,
    sizes: Sizes,
    image: &'a [u8],
    step: u8,
}

impl List<'_> {
    fn add(&mut self, packet: Packet, purpose: Purpose) {
        self.moves.push(Move { step: self.step, packet, purpose });
    }

    fn write(&mut self, address: u32, word: u32) {
        self.add(Packet::write(Register::Tar, address), Purpose::Sent);
        self.add(Packet::write(Register::Drw, word), Purpose::Sent);
    }

    fn read(&mut self, address: u32, purpose: Purpose) {
        self.add(Packet::write(Register::Tar, address), Purpose::Sent);
        self.add(Packet::read(Register::Drw), Purpose::Sent);
        self.add(Packet::read(Register::Drw), purpose);
    }

    fn call(&mut self, command: u32, argument: u32) {
        let part = self.sizes.part;
        self.write(part.sysarg(), argument);
        self.write(part.sysreq, BIT_31 + command);
        self.read(part.sysreq, Purpose::Poll);
        self.read(part.sysarg(), Purpose::Status);
    }

    fn listed(&mut self, command: u32, list: &[u32]) {
        for (address, &word) in (PARAMS..).step_by(4).zip(list) {
            self.write(address, word);
        }
        self.call(command, PARAMS);
    }

    fn acquire(&mut self) {
        self.step = 1;
        self.add(Packet::Xres, Purpose::Sent);
        self.add(Packet::LineReset, Purpose::Sent);
        self.add(Packet::read(Register::IdCode), Purpose::IdCode);
        self.add(Packet::write(Register::CtrlStat, 0x5400_0000), Purpose::Sent);
        self.add(Packet::write(Register::Select, 0), Purpose::Sent);
        self.add(Packet::write(Register::Csw, 2), Purpose::Sent);
        self.write(TEST_MODE, BIT_31);
        self.read(TEST_MODE, Purpose::TestBit);
        self.read(self.sizes.part.sysreq, Purpose::Poll);
        if self.sizes.part.imo {
            self.call(SET_IMO, key(SET_IMO));
        }
    }

    fn silicon_id(&mut self, level: Purpose) {
        self.step = 2;
        self.call(SILICON_ID, key(SILICON_ID));
        self.read(self.sizes.part.sysarg(), Purpose::Keep);
        self.read(self.sizes.part.sysreq, level);
    }

    fn sum(&mut self, step: u8, purpose: Purpose) {
        self.step = step;
        self.call(CHECKSUM, key(CHECKSUM) + BIT_31);
        self.read(self.sizes.part.sysarg(), purpose);
    }

    fn compare(&mut self, address: u32, bytes: &[u8], number: u8) {
        for (address, expected) in (address..).step_by(4).zip(bytes.chunks_exact(4)) {
            self.read(address, Purpose::Same(word(expected), number));
        }
    }

    fn open(&mut self, entry: Entry) {
        self.step = 3;
        match entry {
            Entry::Open => self.listed(ERASE_ALL, &[key(ERASE_ALL)]),
            Entry::Protected => {
                self.call(WRITE_PROTECTION, key(WRITE_PROTECTION) + 0x10000);
                self.acquire();
                self.silicon_id(Purpose::Reopened);
            }
        }
    }

    fn program(&mut self) {
        let (flash, protection) = self.image.split_at(self.sizes.flash());
        let (part, locks) = (self.sizes.part, self.sizes.lock_bytes());
        self.step = 5;
        for (row, bytes) in flash.chunks_exact(part.row_bytes).enumerate() {
            self.listed(LOAD_LATCH, &latch_list(row / part.rows_per_macro, bytes));
            self.listed(PROGRAM_ROW, &[key(PROGRAM_ROW) + ((row as u32) << 16)]);
        }
        self.step = 6;
        self.compare(0, flash, 22);
        // "from the highest macro down to 0, and step 8 ... straight after its lock call"
        for (number, bytes) in protection.chunks_exact(locks).enumerate().rev() {
            self.lock(number, bytes);
        }
        self.read(part.level_word, Purpose::StoredLevel);
    }

    /// Steps 7 and 8 for one macro.
    fn lock(&mut self, number: usize, bytes: &[u8]) {
        let (level, number_sent) = (u32::from(self.header.level) << 16, (number as u32) << 24);
        self.step = 7;
        self.listed(LOAD_LATCH, &latch_list(number, bytes));
        self.call(WRITE_PROTECTION, key(WRITE_PROTECTION) + level + number_sent);
        self.step = 8;
        self.compare(LOCKS + number as u32 * LOCKS_STEP, bytes, 23);
    }
}

/// The moves of an image whose part and size are in the table, from OPEN or from PROTECTED.
pub fn sequence(header: &Header, image: &[u8], entry: Entry) -> Vec<Move> {
    let sizes = header.sizes().expect("a part of the table");
    let mut list = List { moves: vec![], header, sizes, image, step: 0 };
    list.acquire();
    list.silicon_id(Purpose::EntryLevel);
    list.open(entry);
    list.sum(4, Purpose::Keep);
    list.program();
    list.sum(9, Purpose::LastSum);
    list.moves
}

#[cfg(test)]
mod tests {
    use super::*;
    use crate::counts::{acquisitions, plan};
    use crate::parts::SIZES;
    use crate::rng::Rng;
    use crate::texts::sample_image;

    /// "plan": the reads and writes of the list.
    #[test]
    fn as_long_as_the_plan() {
        for (part, macros) in SIZES {
            let (header, image) = sample_image(&mut Rng(1), part, macros);
            for entry in [Entry::Open, Entry::Protected] {
                let moves = sequence(&header, &image, entry);
                let transfers = moves.iter().filter(|m| m.packet.is_transfer()).count() as u64;
                assert_eq!(transfers, plan(&header.sizes().unwrap(), entry));
                assert_eq!(moves.len() as u64, transfers + 2 * acquisitions(entry));
            }
        }
    }
}
