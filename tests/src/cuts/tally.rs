//! What the cuts fell into: every kind must be reached.

use super::Before;
use crate::board::{CallOutcome, Kind};
use crate::cross::{add, Counts};
use crate::flow::{Report, CHECKSUM, ERASE_ALL, LOAD_LATCH, PROGRAM_ROW, SET_IMO, SILICON_ID};
use crate::image::Header;
use crate::parts::{KILL, OPEN, PROTECTED, SIZES};
use crate::seal::Seal;
use std::collections::BTreeMap;

/// What a call other than 0, 0x0B and 0x15 left.
const LEFT: [&str; 2] = ["flash and locks left as anything", "flash and locks left as they were"];
const LENGTHS: [&str; 4] = ["chains of 1 cut", "of 2 cuts", "of 3 cuts", "of 4 cuts"];

/// Each kind, in the order in which they are shown.
pub const KINDS: [&str; 27] = [
    "nothing running",
    "in 0x15",
    "in 0x00",
    "in 0x0B",
    "in 0x0A",
    "in 4",
    "in 6",
    "in 0x0D on macro 0, the new level stored",
    "in 0x0D on macro 0, the old level kept",
    "in 0x0D on macro 0, the level sent being the old one",
    "in 0x0D on macro 1",
    "in the reopening 0x0D, OPEN stored",
    "in the reopening 0x0D, PROTECTED kept",
    LEFT[0],
    LEFT[1],
    "before the first transfer",
    "after the report",
    "after the report, a call running",
    "sealed, before the report",
    "sealed, after the report",
    LENGTHS[0],
    LENGTHS[1],
    LENGTHS[2],
    LENGTHS[3],
    "OPEN found",
    "PROTECTED found",
    "KILL found",
];

/// What the chains came to.
#[derive(Clone, Default, Debug)]
pub struct Cuts {
    pub chains: u64,
    pub cuts: u64,
    pub requests: u64,
    /// Steps refused with 12 or 14 in between.
    pub refused: u64,
    /// Reports of sessions that were cut after it.
    pub numbers: Counts,
    /// Chains by part and M.
    pub sizes: BTreeMap<(u32, u32), u64>,
    /// By name in `KINDS`.
    pub reached: BTreeMap<&'static str, u64>,
}

impl Cuts {
    pub fn add(&mut self, other: &Cuts) {
        self.chains += other.chains;
        self.cuts += other.cuts;
        self.requests += other.requests;
        self.refused += other.refused;
        add(&mut self.numbers, &other.numbers);
        add(&mut self.sizes, &other.sizes);
        add(&mut self.reached, &other.reached);
    }

    fn count(&mut self, name: &'static str) {
        assert!(KINDS.contains(&name), "{name}");
        *self.reached.entry(name).or_default() += 1;
    }

    pub(super) fn see_cut(&mut self, before: &Before, residue: &CallOutcome, stored: u8) {
        self.cuts += 1;
        self.count(kind_of(before, stored));
        let harmless = [SILICON_ID, CHECKSUM, SET_IMO].map(|call| Some(Kind::Call(call)));
        if before.kind.is_some() && !harmless.contains(&before.kind) {
            let anything = residue.scramble.is_some();
            self.count(if anything { LEFT[0] } else { LEFT[1] });
        }
    }

    pub(super) fn see_end(&mut self, transfers: u64, reported: bool, running: bool) {
        if transfers == 0 {
            self.count("before the first transfer");
        }
        if reported {
            self.count("after the report");
        }
        if reported && running {
            self.count("after the report, a call running");
        }
    }

    /// Of a board that macro 0's call had sealed.
    pub(super) fn see_seal(&mut self, seal: Seal, report: Option<Report>) {
        match report {
            _ if !seal.sealed => {}
            None => self.count("sealed, before the report"),
            Some(_) => self.count("sealed, after the report"),
        }
    }

    pub(super) fn found(&mut self, stored: u8) {
        self.count(match stored {
            OPEN => "OPEN found",
            PROTECTED => "PROTECTED found",
            KILL => "KILL found",
            other => panic!("level {other} found"),
        });
    }

    pub(super) fn see_chain(&mut self, header: &Header, cuts: usize) {
        self.chains += 1;
        *self.sizes.entry((header.part, header.macros)).or_default() += 1;
        self.count(LENGTHS[cuts - 1]);
    }

    /// One line: each kind with its count.
    pub fn line(&self) -> String {
        let count = |name| self.reached.get(name).copied().unwrap_or_default();
        KINDS.map(|name| format!("{name} {}", count(name))).join("; ")
    }

    pub fn assert_all_reached(&self) {
        for name in KINDS {
            assert!(self.reached.contains_key(name), "never reached: {name}");
        }
        for size in SIZES {
            assert!(self.sizes.contains_key(&size), "never reached: {size:?}");
        }
    }
}

/// The kind of a cut by the call that ran; no other call than 0x0D on macro 0 stores a level.
fn kind_of(before: &Before, stored: u8) -> &'static str {
    let Before { kind, stored: old, sent } = *before;
    let may_store = matches!(kind, Some(Kind::Locks(0) | Kind::Reopening));
    assert!(stored == old || may_store && stored == sent, "{kind:?}");
    match kind {
        None => "nothing running",
        Some(Kind::Call(SET_IMO)) => "in 0x15",
        Some(Kind::Call(SILICON_ID)) => "in 0x00",
        Some(Kind::Call(CHECKSUM)) => "in 0x0B",
        Some(Kind::Call(ERASE_ALL)) => "in 0x0A",
        Some(Kind::Call(LOAD_LATCH)) => "in 4",
        Some(Kind::Call(PROGRAM_ROW)) => "in 6",
        Some(Kind::Locks(0)) if sent == old => "in 0x0D on macro 0, the level sent being the old one",
        Some(Kind::Locks(0)) if stored == sent => "in 0x0D on macro 0, the new level stored",
        Some(Kind::Locks(0)) => "in 0x0D on macro 0, the old level kept",
        Some(Kind::Locks(1)) => "in 0x0D on macro 1",
        Some(Kind::Reopening) if stored == OPEN => "in the reopening 0x0D, OPEN stored",
        Some(Kind::Reopening) => "in the reopening 0x0D, PROTECTED kept",
        Some(other) => panic!("no session makes this call: {other:?}"),
    }
}
