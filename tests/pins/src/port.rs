//! A debug port clock by clock, from Arm's Debug Interface v5 and source document 004 (4.3, appendix C).

use reference::board::{Board, Lists};
use reference::parts::TEST_MODE;
use reference::wire::{parity, Answer, Packet, SILENCE};

/// Half a clock at 4 MHz, in ns.
const HALF_CLOCK: u64 = 125;
/// "the CPU waits up to a 400 us for a special connection sequence"
const WINDOW: u64 = 400_000;
/// "at least 50 clock cycles with data = 1"
const LINE_RESET: u32 = 50;

enum State {
    /// Out of step with the host until a line reset.
    Lost,
    Idle,
    /// So many request bits have come.
    Request(u32, u8),
    /// So many clocks since the request; the answer, and for a write what it writes so far.
    Packet {
        clocks: u32,
        byte: u8,
        ack: u32,
        word: u32,
        parity: bool,
    },
}

pub struct Port {
    board: Board,
    lists: Lists,
    boot: u64,
    now: u64,
    /// When the board hears the wire, and until when TEST_MODE may be written.
    ready: u64,
    in_test_mode: bool,
    xres: bool,
    clock: bool,
    host: Option<bool>,
    out: Option<bool>,
    ones: u32,
    state: State,
}

impl Port {
    pub fn new(board: Board, lists: Lists, boot_us: u64) -> Port {
        Port {
            board,
            lists,
            boot: boot_us * 1_000,
            now: 0,
            ready: u64::MAX,
            in_test_mode: false,
            xres: true,
            clock: true,
            host: None,
            out: None,
            ones: 0,
            state: State::Lost,
        }
    }

    pub fn pause(&mut self, time: u64) {
        self.now += time;
    }

    pub fn xres(&mut self, level: bool) {
        if level && !self.xres {
            self.board.answer(Packet::Xres, &mut self.lists);
            (self.ready, self.in_test_mode) = (self.now + self.boot, false);
        }
        (self.xres, self.state, self.out) = (level, State::Lost, None);
    }

    /// The host's side of SWDIO; the clock is low, or the host lets go.
    pub fn drive(&mut self, level: Option<bool>) {
        assert!(level.is_none() || self.out.is_none(), "both sides drive SWDIO");
        self.host = level;
    }

    /// A pull-up holds the wire when nobody drives it.
    pub fn sample(&self) -> bool {
        assert!(self.host.is_none(), "the host samples its own level");
        self.out.unwrap_or(true)
    }

    pub fn clock(&mut self, level: bool) {
        self.now += HALF_CLOCK;
        let rises = level && !self.clock;
        self.clock = level;
        if rises && self.xres && self.now >= self.ready {
            let bit = self.host.unwrap_or(self.out.unwrap_or(true));
            self.rise(bit);
        }
    }

    fn rise(&mut self, bit: bool) {
        // Fifty ones, then a zero: in step again, wherever the port stood. Data never has so many.
        let reset = self.host == Some(false) && self.ones >= LINE_RESET;
        self.ones = if self.host == Some(true) { self.ones + 1 } else { 0 };
        self.state = match self.state {
            _ if reset => State::Idle,
            State::Lost => State::Lost,
            State::Idle if bit => State::Request(1, 1),
            State::Idle => State::Idle,
            State::Request(7, bits) => Self::request(bits | u8::from(bit) << 7),
            State::Request(count, bits) => State::Request(count + 1, bits | u8::from(bit) << count),
            State::Packet { clocks, byte, ack, word, parity } => {
                self.packet(bit, clocks + 1, byte, ack, word, parity)
            }
        };
    }

    /// Start 1, parity of the four bits, stop 0, park 1; else the port is lost.
    fn request(byte: u8) -> State {
        let right = byte & 0xC1 == 0x81 && (byte >> 1 & 0x1F).count_ones().is_multiple_of(2);
        match right {
            true => State::Packet { clocks: 0, byte, ack: 0, word: 0, parity: false },
            false => State::Lost,
        }
    }

    /// What the board says to the request, before a write's word has come.
    fn acknowledge(&mut self, byte: u8) -> (u32, u32, bool) {
        let read = byte >> 2 & 1 == 1;
        let answer = match read {
            true => self.board.answer(Packet::Read { byte }, &mut self.lists),
            // A write's acknowledgement doesn't hang on its word: ask a copy, and the board itself later.
            false => {
                let (mut board, mut lists) = (self.board.clone(), self.lists.clone());
                let answer = board.answer(Packet::Write { byte, word: 0, parity: false }, &mut lists);
                if !matches!(answer, Answer::Wire { ack: 1, .. }) {
                    self.lists = lists;
                }
                answer
            }
        };
        match answer {
            Answer::Wire { ack, word, parity } if read => (ack, word, parity),
            Answer::Wire { ack, .. } => (ack, 0, false),
            Answer::ResetDone => unreachable!("a transfer"),
        }
    }

    fn packet(
        &mut self,
        bit: bool,
        clocks: u32,
        byte: u8,
        mut ack: u32,
        mut word: u32,
        mut even: bool,
    ) -> State {
        let read = byte >> 2 & 1 == 1;
        if clocks == 1 {
            assert!(self.host.is_none(), "the host drives SWDIO in the turnaround");
            (ack, word, even) = self.acknowledge(byte);
            if ack == SILENCE {
                return State::Lost;
            }
        }
        self.out = match clocks {
            1..=3 => Some(ack >> (clocks - 1) & 1 == 1),
            4..=35 if ack == 1 && read => Some(word >> (clocks - 4) & 1 == 1),
            36 if ack == 1 && read => Some(even),
            _ => None,
        };
        match (ack == 1, read, clocks) {
            // Noise has no more than an acknowledgement.
            (false, _, 4) if ![2, 4].contains(&ack) => return State::Lost,
            (false, _, 5) | (true, true, 38) => {
                assert!(self.host.is_none(), "the host drives SWDIO in the turnaround");
                return State::Idle;
            }
            (true, false, 6..=37) => {
                assert!(self.host.is_some(), "a write's bit isn't driven");
                word |= u32::from(bit) << (clocks - 6);
            }
            (true, false, 38) => return self.written(byte, word, bit),
            _ => {}
        }
        State::Packet { clocks, byte, ack, word, parity: even }
    }

    /// A write's word and parity have come.
    fn written(&mut self, byte: u8, word: u32, bit: bool) -> State {
        assert_eq!(bit, parity(word), "wrong parity of a write");
        if byte == 0xBB && self.board.tar == TEST_MODE {
            assert!(self.in_test_mode || self.now <= self.ready + WINDOW, "the window of 400 us was missed");
            self.in_test_mode = true;
        }
        self.board.answer(Packet::Write { byte, word, parity: bit }, &mut self.lists);
        assert_eq!(self.board.malformed, 0);
        State::Idle
    }
}
