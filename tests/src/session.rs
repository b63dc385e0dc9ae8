//! Starting and stepping: the flow as a state machine that takes one answer at a time.
//! Constant work per step; the image is only looked at where a word of it is sent or compared.

mod advance;
mod place;
mod possible;

use crate::flow::{key, Report, ATTEMPTS, BIT_31, REPEATS};
use crate::image::{lent_refusal, Header};
use crate::parts::{Sizes, IDCODE, KILL, LOCKS, LOCKS_STEP, PARAMS, TEST_MODE};
use crate::wire::{acknowledgement, parity, Ack, Answer, Packet, Register};
use place::{command, latch_word, Call, Operation, Phase, Place, Shape};
use possible::most_transfers;

/// "each call ends with a request, a report" or a refusal.
#[derive(Clone, Copy, PartialEq, Eq, Debug)]
pub enum Outcome {
    Refused(u8),
    Ask(Packet),
    Report(Report),
}

#[derive(Clone, Copy, PartialEq, Eq, Debug)]
pub struct Session {
    header: Header,
    place: Place,
    /// Which transfer of the place's Write or Read stands.
    transfer: u8,
    waits: u8,
    attempts: u8,
    polls: u16,
    reopened: bool,
    /// SYSARG of step 2, later the privileged sum.
    kept: u32,
    transfers: u32,
}

/// "Writing and starting check 11, 12, 6 to 10; starting then 15." Refused, the session is all 0.
pub fn start(header: &Header, image: &[u8], leave_to_kill: bool) -> (Session, Outcome) {
    let refusal = match lent_refusal(header, image, |_| true) {
        Err(number) => Some(number),
        // "15 KILL without leave"
        Ok(_) => (header.level == KILL && !leave_to_kill).then_some(15),
    };
    match refusal {
        Some(number) => (Session::ZERO, Outcome::Refused(number)),
        // "Starting gives the session and its first request, XRES."
        None => (Session { header: *header, ..Session::ZERO }, Outcome::Ask(Packet::Xres)),
    }
}

impl Session {
    pub const ZERO: Session = Session {
        header: Header::ZERO,
        place: Place::Xres,
        transfer: 0,
        waits: 0,
        attempts: 0,
        polls: 0,
        reopened: false,
        kept: 0,
        transfers: 0,
    };

    /// "A step checks 13, 12, 14 and, refused, gives back the session it got and no request."
    pub fn step(&mut self, image: &[u8], answer: Answer) -> Outcome {
        let Some(sizes) = self.possible() else {
            return Outcome::Refused(13);
        };
        if image.len() != sizes.image() {
            return Outcome::Refused(12);
        }
        // "a finished session that passes 13 and 12 repeats its report for any answer, without 14"
        if let Place::Reported(report) = self.place {
            return Outcome::Report(report);
        }
        // "14 reset answered by an acknowledgement or the reverse"
        match (self.place.shape(), answer) {
            (Shape::Reset, Answer::ResetDone) => self.after_reset(),
            (Shape::Attempt, Answer::Wire { ack, word, parity }) => self.attempt(ack, word, parity),
            (Shape::Transfers { count, reads }, Answer::Wire { ack, word, parity: bit }) => {
                let wrong = self.transfer >= reads && bit != parity(word);
                self.take(&sizes, image, count, ack, word, wrong)
            }
            _ => return Outcome::Refused(14),
        }
        self.hand_out(&sizes, image)
    }

    fn hand_out(&mut self, sizes: &Sizes, image: &[u8]) -> Outcome {
        if let Place::Reported(report) = self.place {
            return Outcome::Report(report);
        }
        let packet = self.operation(sizes, image).packet(self.transfer);
        if packet.is_transfer() && self.transfers < most_transfers(sizes) {
            self.transfers += 1;
        }
        Outcome::Ask(packet)
    }

    fn finish(&mut self, number: u8) {
        let step = self.flow_step();
        self.place = Place::Reported(Report { number, step, transfers: self.transfers });
        (self.transfer, self.waits, self.attempts, self.polls) = (0, 0, 0, 0);
    }

    /// "the flow step then running (9 when done; steps 1 and 2 run again give 1 and 2; 21 gives 2)"
    fn flow_step(&self) -> u8 {
        match self.place {
            Place::Xres | Place::LineReset | Place::IdCode => 1,
            Place::CtrlStat | Place::Select | Place::Csw => 1,
            Place::EnterTestMode | Place::ReadTestMode | Place::PollTestMode => 1,
            Place::SiliconSysArg | Place::SiliconSysReq => 2,
            Place::ReadFirstSum => 4,
            Place::VerifyFlash(_) => 6,
            Place::VerifyLocks(..) | Place::VerifyLevel => 8,
            Place::ReadLastSum => 9,
            Place::Call(call, _) => match call {
                Call::Imo => 1,
                Call::SiliconId => 2,
                Call::Erase | Call::Reopen => 3,
                Call::FirstSum => 4,
                Call::LoadRow(_) | Call::ProgramRow(_) => 5,
                Call::LoadLocks(_) | Call::Protect(_) => 7,
                Call::LastSum => 9,
            },
            Place::Reported(report) => report.step,
        }
    }

    fn operation(&self, sizes: &Sizes, image: &[u8]) -> Operation {
        let part = sizes.part;
        match self.place {
            Place::Xres | Place::Reported(_) => Operation::Reset(Packet::Xres),
            Place::LineReset => Operation::Reset(Packet::LineReset),
            Place::IdCode => Operation::IdCode,
            Place::CtrlStat => Operation::Port(Register::CtrlStat, 0x5400_0000),
            Place::Select => Operation::Port(Register::Select, 0),
            Place::Csw => Operation::Port(Register::Csw, 2),
            Place::EnterTestMode => Operation::Write(TEST_MODE, BIT_31),
            Place::ReadTestMode => Operation::Read(TEST_MODE),
            Place::PollTestMode | Place::SiliconSysReq => Operation::Read(part.sysreq),
            Place::SiliconSysArg | Place::ReadFirstSum | Place::ReadLastSum => Operation::Read(part.sysarg()),
            Place::VerifyFlash(index) => Operation::Read(4 * index),
            Place::VerifyLocks(number, index) => {
                Operation::Read(LOCKS + u32::from(number) * LOCKS_STEP + 4 * u32::from(index))
            }
            Place::VerifyLevel => Operation::Read(part.level_word),
            Place::Call(call, phase) => match phase {
                Phase::List(index) => {
                    Operation::Write(PARAMS + 4 * u32::from(index), self.list_word(sizes, image, call, index))
                }
                Phase::Argument => Operation::Write(part.sysarg(), self.argument(call)),
                Phase::Command => Operation::Write(part.sysreq, BIT_31 + command(call)),
                Phase::Poll => Operation::Read(part.sysreq),
                Phase::Status => Operation::Read(part.sysarg()),
            },
        }
    }

    /// "A listed call ... gives PARAMS as SYSARG; otherwise SYSARG is the word."
    fn argument(&self, call: Call) -> u32 {
        let k = key(command(call));
        match call {
            Call::Imo | Call::SiliconId => k,
            Call::Reopen => k + 0x10000,
            Call::FirstSum | Call::LastSum => k + BIT_31,
            Call::Protect(number) => k + (u32::from(self.header.level) << 16) + (u32::from(number) << 24),
            Call::Erase | Call::LoadRow(_) | Call::ProgramRow(_) | Call::LoadLocks(_) => PARAMS,
        }
    }

    fn list_word(&self, sizes: &Sizes, image: &[u8], call: Call, index: u8) -> u32 {
        let k = key(command(call));
        match call {
            Call::ProgramRow(row) => k + (u32::from(row) << 16),
            Call::LoadRow(row) => {
                let number = usize::from(row) / sizes.part.rows_per_macro;
                let start = usize::from(row) * sizes.row_bytes();
                latch_word(k, number as u32, &image[start..start + sizes.row_bytes()], index)
            }
            Call::LoadLocks(number) => {
                let start = sizes.flash() + usize::from(number) * sizes.lock_bytes();
                latch_word(k, u32::from(number), &image[start..start + sizes.lock_bytes()], index)
            }
            _ => k,
        }
    }

    fn after_reset(&mut self) {
        self.place = match self.place {
            Place::Xres => Place::LineReset,
            _ => Place::IdCode,
        };
    }

    /// "Attempts in step 1 aren't repeated for WAIT; any mishap ends the attempt only."
    fn attempt(&mut self, ack: u32, word: u32, bit: bool) {
        if acknowledgement(ack) == Ack::Ok && bit == parity(word) {
            self.attempts = 0;
            match word {
                IDCODE => self.place = Place::CtrlStat,
                _ => self.finish(16),
            }
            return;
        }
        self.attempts += 1;
        match self.attempts {
            ATTEMPTS => self.finish(26),
            _ => self.place = Place::LineReset,
        }
    }

    /// The answer to a transfer outside the attempts.
    fn take(&mut self, sizes: &Sizes, image: &[u8], count: u8, ack: u32, word: u32, wrong_parity: bool) {
        match acknowledgement(ack) {
            Ack::Wait if self.waits == REPEATS => self.finish(27),
            Ack::Wait => self.waits += 1,
            Ack::Fault => self.finish(28),
            Ack::Silence => self.finish(29),
            Ack::Noise => self.finish(33),
            Ack::Ok if wrong_parity => self.finish(30),
            Ack::Ok => {
                self.waits = 0;
                self.transfer += 1;
                if self.transfer == count {
                    self.transfer = 0;
                    match self.next(sizes, image, word) {
                        Ok(place) => self.place = place,
                        Err(number) => self.finish(number),
                    }
                }
            }
        }
    }
}

#[cfg(test)]
mod tests;
