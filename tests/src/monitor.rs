//! The mishaps, "told by the requests and the board's answers" alone, and what they delay.

use crate::flow::{BIT_31, BUSY};
use crate::parts::{Sizes, TEST_MODE};
use crate::wire::{acknowledgement, parity, Ack, Answer, Packet, Register};

/// What the session waits for, as the wire shows it.
#[derive(Clone, Copy, PartialEq, Eq, Debug)]
enum Loop {
    None,
    /// Reads of SYSREQ after a call's write of SYSREQ, or after the Read of TEST_MODE.
    Polling {
        call: bool,
        busy: u32,
    },
    /// The first Read of SYSARG after a call.
    StatusDue,
}

#[derive(Clone, Debug)]
pub struct Monitor {
    sysreq: u32,
    /// The first mishap.
    pub mishap: Option<u8>,
    pub transfers: u64,
    pub xres: u64,
    pub line_resets: u64,
    /// WAITs outside the IDCODE attempts.
    pub waits: u64,
    pub busy_polls: u64,
    pub failed_attempts: u64,
    /// The transfer that waits, and its WAITs so far.
    waiting: Option<(Packet, u32)>,
    attempts_running: u32,
    address: Option<u32>,
    reads: u32,
    state: Loop,
}

impl Monitor {
    pub fn new(sizes: &Sizes) -> Monitor {
        Monitor {
            sysreq: sizes.part.sysreq,
            mishap: None,
            transfers: 0,
            xres: 0,
            line_resets: 0,
            waits: 0,
            busy_polls: 0,
            failed_attempts: 0,
            waiting: None,
            attempts_running: 0,
            address: None,
            reads: 0,
            state: Loop::None,
        }
    }

    /// Transfers beyond the plan: one for each WAIT and failed attempt, three for each busy poll.
    pub fn delays(&self) -> u64 {
        self.waits + 3 * self.busy_polls + self.failed_attempts
    }

    fn occurs(&mut self, number: u8) {
        self.mishap.get_or_insert(number);
    }

    /// A request as handed out, before its answer.
    pub fn hand_out(&mut self, packet: Packet) {
        match packet {
            Packet::Xres => self.xres += 1,
            Packet::LineReset => self.line_resets += 1,
            Packet::Read { .. } | Packet::Write { .. } => self.transfers += 1,
        }
    }

    pub fn observe(&mut self, packet: Packet, answer: Answer) {
        let Answer::Wire { ack, word, parity: bit } = answer else {
            // A reset ends what waited; the next acquisition has its own thirty attempts.
            self.waiting = None;
            if packet == Packet::Xres {
                self.attempts_running = 0;
            }
            return;
        };
        let reads = matches!(packet, Packet::Read { .. });
        let right = !reads || bit == parity(word);
        let ack = acknowledgement(ack);
        if packet == Packet::read(Register::IdCode) {
            return self.attempt(ack == Ack::Ok && right);
        }
        match ack {
            Ack::Wait => {
                self.waits += 1;
                let before = self.waiting.filter(|w| w.0 == packet).map_or(0, |w| w.1);
                self.waiting = Some((packet, before + 1));
                if before + 1 == 17 {
                    self.occurs(27);
                }
            }
            Ack::Fault => self.occurs(28),
            Ack::Silence => self.occurs(29),
            Ack::Noise => self.occurs(33),
            Ack::Ok if !right => self.occurs(30),
            Ack::Ok => {
                self.waiting = None;
                self.accepted(packet, word);
            }
        }
    }

    /// "Inside the IDCODE attempts only 26 counts."
    fn attempt(&mut self, good: bool) {
        if good {
            self.attempts_running = 0;
            return;
        }
        self.failed_attempts += 1;
        self.attempts_running += 1;
        if self.attempts_running == 30 {
            self.occurs(26);
        }
    }

    fn accepted(&mut self, packet: Packet, answered: u32) {
        const TAR: u8 = Register::Tar.write_byte();
        const DRW: u8 = Register::Drw.write_byte();
        match packet {
            Packet::Write { byte: TAR, word, .. } => (self.address, self.reads) = (Some(word), 0),
            Packet::Write { byte: DRW, word, .. }
                if self.address == Some(self.sysreq) && word & BIT_31 != 0 =>
            {
                self.state = Loop::Polling { call: true, busy: 0 };
            }
            Packet::Read { .. } => {
                self.reads += 1;
                // The first word is stale, the second makes the Read.
                if let (Some(address), 2) = (self.address, self.reads) {
                    self.read(address, answered);
                }
            }
            _ => {}
        }
    }

    fn read(&mut self, address: u32, word: u32) {
        match self.state {
            Loop::Polling { call, busy } if address == self.sysreq => {
                if word & BUSY == 0 {
                    self.state = if call { Loop::StatusDue } else { Loop::None };
                    return;
                }
                self.busy_polls += 1;
                self.state = Loop::Polling { call, busy: busy + 1 };
                if busy + 1 == 10_000 {
                    self.occurs(18);
                }
            }
            Loop::StatusDue if address == self.sysreq + 4 => {
                self.state = Loop::None;
                if word >> 28 != 0xA {
                    self.occurs(19);
                }
            }
            _ if address == TEST_MODE => {
                self.state = Loop::Polling { call: false, busy: 0 };
                if word & BIT_31 == 0 {
                    self.occurs(17);
                }
            }
            _ => {}
        }
    }
}

#[cfg(test)]
mod tests {
    use super::*;

    fn ok(word: u32) -> Answer {
        Answer::Wire { ack: 1, word, parity: parity(word) }
    }

    /// A Read of an address that gives this word.
    fn read(monitor: &mut Monitor, address: u32, word: u32) {
        monitor.observe(Packet::write(Register::Tar, address), ok(0));
        monitor.observe(Packet::read(Register::Drw), ok(!word));
        monitor.observe(Packet::read(Register::Drw), ok(word));
    }

    fn monitor() -> Monitor {
        Monitor::new(&Sizes::of(2, 1).unwrap())
    }

    const SYSREQ: u32 = 0x4000_0004;
    const SYSARG: u32 = 0x4000_0008;

    /// 19 is about the first Read of SYSARG after a call, and only after one.
    #[test]
    fn status() {
        let mut m = monitor();
        read(&mut m, TEST_MODE, BIT_31);
        read(&mut m, SYSREQ, 0);
        read(&mut m, SYSARG, 0);
        assert_eq!(m.mishap, None);
        monitor_call(&mut m);
        read(&mut m, SYSREQ, BIT_31);
        read(&mut m, SYSREQ, 0);
        read(&mut m, SYSARG, 0xA000_0000);
        read(&mut m, SYSARG, 0);
        read(&mut m, SYSREQ, BIT_31);
        assert_eq!((m.mishap, m.busy_polls), (None, 1));
        monitor_call(&mut m);
        read(&mut m, SYSREQ, 0);
        read(&mut m, SYSARG, 0xB000_0000);
        assert_eq!(m.mishap, Some(19));
    }

    fn monitor_call(monitor: &mut Monitor) {
        monitor.observe(Packet::write(Register::Tar, SYSREQ), ok(0));
        monitor.observe(Packet::write(Register::Drw, BIT_31), ok(0));
    }

    /// A loop's count starts afresh; bit 28 alone is busy too.
    #[test]
    fn poll_loops() {
        let mut m = monitor();
        for _ in 0..2 {
            monitor_call(&mut m);
            (0..9_999).for_each(|_| read(&mut m, SYSREQ, 0x1000_0000));
            read(&mut m, SYSREQ, 0);
            assert_eq!(m.mishap, None);
        }
        monitor_call(&mut m);
        (0..10_000).for_each(|_| read(&mut m, SYSREQ, 0x1000_0000));
        assert_eq!(m.mishap, Some(18));
    }

    /// "one transfer's seventeenth WAIT running": an OK, another request or a reset starts afresh.
    #[test]
    fn waits_of_one_transfer() {
        let wait = Answer::Wire { ack: 2, word: 0, parity: false };
        let drw = |word| Packet::write(Register::Drw, word);
        let between = [(drw(6), wait), (drw(5), ok(0)), (Packet::LineReset, Answer::ResetDone)];
        for (packet, answer) in between {
            let mut m = monitor();
            (0..16).for_each(|_| m.observe(drw(5), wait));
            m.observe(packet, answer);
            (0..16).for_each(|_| m.observe(drw(5), wait));
            assert_eq!(m.mishap, None, "{packet:?}");
            m.observe(drw(5), wait);
            assert_eq!(m.mishap, Some(27), "{packet:?}");
        }
    }

    #[test]
    fn test_bit() {
        let mut m = monitor();
        read(&mut m, TEST_MODE, !BIT_31);
        assert_eq!(m.mishap, Some(17));
    }

    /// "Inside the IDCODE attempts only 26 counts."
    #[test]
    fn attempts() {
        let mut m = monitor();
        let wrong = [(2, true), (4, true), (0, true), (1, true), (7, true), (255, true)];
        for &(ack, parity) in wrong.iter().cycle().take(29) {
            m.observe(Packet::read(Register::IdCode), Answer::Wire { ack, word: 0, parity });
        }
        assert_eq!((m.mishap, m.failed_attempts, m.waits), (None, 29, 0));
        m.observe(Packet::read(Register::IdCode), Answer::Wire { ack: 7, word: 0, parity: false });
        assert_eq!(m.mishap, Some(26));
    }

    /// "29 is left with 7"; 33 is "an acknowledgement other than 1, 2, 4 and 7"; inside an attempt neither counts.
    #[test]
    fn silence_and_noise() {
        let packets = [Packet::write(Register::Tar, 4), Packet::read(Register::Drw)];
        for (ack, number) in [(7, 29), (0, 33), (3, 33), (5, 33), (6, 33), (8, 33), (255, 33), (256, 33)] {
            let answer = Answer::Wire { ack, word: 0, parity: false };
            for packet in packets {
                let mut m = monitor();
                m.observe(packet, answer);
                assert_eq!(m.mishap, Some(number), "{ack}, {packet:?}");
            }
            let mut m = monitor();
            (0..29).for_each(|_| m.observe(Packet::read(Register::IdCode), answer));
            assert_eq!((m.mishap, m.failed_attempts), (None, 29));
            m.observe(Packet::read(Register::IdCode), answer);
            assert_eq!(m.mishap, Some(26));
        }
    }
}
