//! The plain board's two free lists.

/// What the line does to one transfer.
#[derive(Clone, Copy, PartialEq, Eq, Debug)]
pub enum Line {
    Ok,
    /// Not carried out.
    Wait,
    /// Not carried out.
    Fault,
    SilentCarriedOut,
    SilentLost,
    NoisyCarriedOut,
    NoisyLost,
    /// On a read, carried out; met by a write it is an OK.
    WrongParity,
}

impl Line {
    /// All but OK, the one that is no mishap first.
    pub const DISTURBANCES: [Line; 7] = [
        Line::Wait,
        Line::Fault,
        Line::SilentCarriedOut,
        Line::SilentLost,
        Line::NoisyCarriedOut,
        Line::NoisyLost,
        Line::WrongParity,
    ];

    pub fn mishaps() -> &'static [Line] {
        &Line::DISTURBANCES[1..]
    }

    pub const fn is_noisy(self) -> bool {
        matches!(self, Line::NoisyCarriedOut | Line::NoisyLost)
    }
}

/// An entry of the line's list: "Per transfer: OK; WAIT or FAULT, not carried out; silence, carried
/// out or not; wrong parity on a read, carried out", by Five "a noisy transfer, like a silent one", and what is free
/// beside.
#[derive(Clone, Copy, PartialEq, Eq, Debug)]
pub struct LineEvent {
    pub line: Line,
    /// The acknowledgement of a noise, "other than 1, 2, 4 and 7"; no other line looks at it.
    pub noise: u32,
    /// Word and parity where they don't matter; the word of a wrong-parity read.
    pub word: u32,
    pub parity: bool,
    /// The word "elsewhere any word" of a read posted by this transfer.
    pub elsewhere: u32,
}

impl LineEvent {
    /// "past a list's end it is OK"
    pub const OK: LineEvent = LineEvent { line: Line::Ok, noise: 0, word: 0, parity: false, elsewhere: 0 };

    pub const fn of(line: Line) -> LineEvent {
        LineEvent { line, ..LineEvent::OK }
    }
}

/// An entry of the calls' list: "how many DRW reads of SYSREQ post it busy (bit 31 set), then
/// success or failure", with what a failure leaves.
#[derive(Clone, Copy, PartialEq, Eq, Debug)]
pub struct CallOutcome {
    pub busy: u32,
    pub success: bool,
    /// "a SYSARG of another top digit"
    pub status: u32,
    /// "any flash, locks and latch": filled from this seed, or kept.
    pub scramble: Option<u64>,
    /// "a failed 0x0D on macro 0 stores the old level or the one sent".
    pub stores: bool,
}

impl CallOutcome {
    /// "and success without busy reads"
    pub const OK: CallOutcome =
        CallOutcome { busy: 0, success: true, status: 0xF000_0001, scramble: None, stores: false };
}

/// A call under way.
#[derive(Clone, Copy, PartialEq, Eq, Debug)]
pub struct Running {
    pub command: u32,
    /// With the busy reads that are left.
    pub outcome: CallOutcome,
}

/// The two free lists.
pub trait FreeLists {
    fn line(&mut self) -> LineEvent;
    fn call(&mut self) -> CallOutcome;
}

/// Lists with an end.
#[derive(Clone, Default, Debug)]
pub struct Lists {
    pub line: Vec<LineEvent>,
    pub calls: Vec<CallOutcome>,
    pub line_used: usize,
    pub calls_used: usize,
}

impl FreeLists for Lists {
    fn line(&mut self) -> LineEvent {
        self.line_used += 1;
        self.line.get(self.line_used - 1).copied().unwrap_or(LineEvent::OK)
    }

    fn call(&mut self) -> CallOutcome {
        self.calls_used += 1;
        self.calls.get(self.calls_used - 1).copied().unwrap_or(CallOutcome::OK)
    }
}
