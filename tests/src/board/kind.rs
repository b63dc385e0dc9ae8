//! Which call runs.

use super::Board;
use crate::flow::WRITE_PROTECTION;
use crate::parts::{OPEN, PROTECTED};

/// What a running call is: what its end, or a cut, may leave depends on it.
#[derive(Clone, Copy, PartialEq, Eq, Debug)]
pub enum Kind {
    /// Any but 0x0D.
    Call(u32),
    /// Step 7's 0x0D on this macro.
    Locks(usize),
    /// Step 3's 0x0D, "with PROTECTED in effect and OPEN sent".
    Reopening,
}

impl Kind {
    pub fn of(board: &Board) -> Option<Kind> {
        let (level, number) = board.sent();
        Some(match board.running?.command {
            WRITE_PROTECTION if board.in_effect == PROTECTED && level == OPEN => Kind::Reopening,
            WRITE_PROTECTION => Kind::Locks(number),
            command => Kind::Call(command),
        })
    }
}
