//! Document 02, One: "a board on which step 7's call 0x0D for macro 0 succeeded has the image's flash, level and all
//! its locks, whatever the line did before or does after, even where the session reports a failure". Such a board is
//! sealed.

mod places;

pub use places::{places, sealing_read, Places};

use crate::board::{Board, Kind};
use crate::flow::Report;
use std::collections::BTreeMap;

/// Watches the board of one session, packet by packet.
#[derive(Clone, Copy, Debug)]
pub struct Seal {
    /// Macro 0's call runs.
    locking: bool,
    /// It has succeeded, whether the session heard so or not.
    pub sealed: bool,
}

impl Seal {
    /// Of a board before the session's first packet.
    pub fn of(board: &Board) -> Seal {
        Seal { locking: locks_macro_0(board), sealed: false }
    }

    /// After a packet, told by the board alone: the call ran, is over now, and SYSARG says "success is top digit 0xA".
    pub fn met(&mut self, board: &Board) {
        self.sealed |= self.locking && board.running.is_none() && board.sysarg >> 28 == 0xA;
        self.locking = locks_macro_0(board);
    }

    /// The power goes: "the running call ends as a failed one", whatever SYSARG holds then.
    pub fn cut(&mut self) {
        self.locking = false;
    }
}

/// Step 7's call and not step 3's, which reopens.
fn locks_macro_0(board: &Board) -> bool {
    Kind::of(board) == Some(Kind::Locks(0))
}

/// What a session reports of a sealed board.
pub const REPORTED: [&str; 3] =
    ["done", "a failure after the success was heard", "a failure, the success unheard"];

/// Which of `REPORTED`; macro 0's call is the last of step 7, so a report at step 7 comes before its success is heard.
pub fn reported(report: Report) -> &'static str {
    match (report.number, report.step) {
        (0, _) => REPORTED[0],
        (_, 7) => REPORTED[2],
        _ => REPORTED[1],
    }
}

/// Sealed boards by M, entry from PROTECTED, and which of `REPORTED`.
pub type Sealed = BTreeMap<(u32, bool, &'static str), u64>;

/// M and entry, in the order in which they are shown.
const BOARDS: [(u32, bool); 4] = [(1, false), (1, true), (2, false), (2, true)];

/// A line for each M and entry: the count of each of `REPORTED`.
pub fn lines(sealed: &Sealed) -> Vec<String> {
    let count = |m, protected, what| sealed.get(&(m, protected, what)).copied().unwrap_or_default();
    let line = |(m, protected)| {
        let entry = if protected { "PROTECTED" } else { "OPEN" };
        let counts = REPORTED.map(|what| format!("{what} {}", count(m, protected, what)));
        format!("sealed, M {m}, from {entry}: {}", counts.join("; "))
    };
    BOARDS.map(line).to_vec()
}

/// This was reported of a sealed board of each M, from each entry.
pub fn assert_sealed(sealed: &Sealed, reported: &'static str) {
    for (m, protected) in BOARDS {
        assert!(sealed.contains_key(&(m, protected, reported)), "M {m}, {protected}: never {reported}");
    }
}

#[cfg(test)]
mod tests;
