//! What follows each place, and what its word is judged by.

use super::place::{begin, list_length, Call, Phase, Place};
use super::Session;
use crate::flow::{exchanged, silicon_level, BIT_31, BUSY, LOW_28, POLLS};
use crate::image::word;
use crate::parts::{Sizes, OPEN, PROTECTED};

impl Session {
    /// The place after this one, whose last word is given; or the report's number, 0 when done.
    pub(super) fn next(&mut self, sizes: &Sizes, image: &[u8], given: u32) -> Result<Place, u8> {
        Ok(match self.place {
            Place::CtrlStat => Place::Select,
            Place::Select => Place::Csw,
            Place::Csw => Place::EnterTestMode,
            Place::EnterTestMode => Place::ReadTestMode,
            Place::ReadTestMode if given & BIT_31 == 0 => return Err(17),
            Place::ReadTestMode => Place::PollTestMode,
            Place::PollTestMode => {
                let first = if sizes.part.imo { Call::Imo } else { Call::SiliconId };
                self.polled(given)?.unwrap_or(begin(first))
            }
            Place::Call(call, phase) => return self.next_in_call(sizes, call, phase, given),
            Place::SiliconSysArg => {
                self.kept = given;
                Place::SiliconSysReq
            }
            Place::SiliconSysReq => return self.after_identity(sizes, given),
            Place::ReadFirstSum => {
                self.kept = given & LOW_28;
                begin(Call::LoadRow(0))
            }
            Place::VerifyFlash(index) => return next_word(sizes, image, index, given),
            Place::VerifyLocks(number, index) => return next_lock(sizes, image, number, index, given),
            Place::VerifyLevel if exchanged((given >> 24) as u8 & 0xF) != self.header.level => {
                return Err(24)
            }
            Place::VerifyLevel => begin(Call::LastSum),
            Place::ReadLastSum => {
                let sum = (given & LOW_28).wrapping_sub(self.kept) as u16;
                return Err(if sum == self.header.sum { 0 } else { 25 });
            }
            Place::Xres | Place::LineReset | Place::IdCode | Place::Reported(_) => self.place,
        })
    }

    /// "20 is judged before 21"; OPEN and PROTECTED go their ways, OPEN alone after reopening.
    fn after_identity(&self, sizes: &Sizes, sysreq: u32) -> Result<Place, u8> {
        match (silicon_level(&self.header, sizes, self.kept, sysreq)?, self.reopened) {
            (OPEN, false) => Ok(begin(Call::Erase)),
            (OPEN, true) => Ok(begin(Call::FirstSum)),
            (PROTECTED, false) => Ok(begin(Call::Reopen)),
            _ => Err(21),
        }
    }

    fn next_in_call(&mut self, sizes: &Sizes, call: Call, phase: Phase, given: u32) -> Result<Place, u8> {
        let phase = match phase {
            Phase::List(index) if index + 1 < list_length(sizes, call) => Phase::List(index + 1),
            Phase::List(_) => Phase::Argument,
            Phase::Argument => Phase::Command,
            Phase::Command => Phase::Poll,
            Phase::Poll => return Ok(self.polled(given)?.unwrap_or(Place::Call(call, Phase::Status))),
            Phase::Status if given >> 28 != 0xA => return Err(19),
            Phase::Status => return Ok(self.after(sizes, call)),
        };
        Ok(Place::Call(call, phase))
    }

    /// "A poll loop has at most 10,000 polls": this place again, or None where it ends, or 18.
    fn polled(&mut self, sysreq: u32) -> Result<Option<Place>, u8> {
        if sysreq & BUSY == 0 {
            self.polls = 0;
            return Ok(None);
        }
        self.polls += 1;
        if self.polls == POLLS {
            Err(18)
        } else {
            Ok(Some(self.place))
        }
    }

    fn after(&mut self, sizes: &Sizes, call: Call) -> Place {
        match call {
            Call::Imo => begin(Call::SiliconId),
            Call::SiliconId => Place::SiliconSysArg,
            Call::Erase => begin(Call::FirstSum),
            Call::Reopen => {
                self.reopened = true;
                Place::Xres
            }
            Call::FirstSum => Place::ReadFirstSum,
            Call::LoadRow(row) => begin(Call::ProgramRow(row)),
            Call::ProgramRow(row) if usize::from(row) + 1 < sizes.rows() => begin(Call::LoadRow(row + 1)),
            Call::ProgramRow(_) => Place::VerifyFlash(0),
            Call::LoadLocks(number) => begin(Call::Protect(number)),
            // "step 8 for each higher macro is done straight after its lock call"
            Call::Protect(number) => Place::VerifyLocks(number, 0),
            Call::LastSum => Place::ReadLastSum,
        }
    }
}

/// Step 6: the next word to compare, or step 7.
fn next_word(sizes: &Sizes, image: &[u8], index: u32, given: u32) -> Result<Place, u8> {
    let at = 4 * index as usize;
    if given != word(&image[at..at + 4]) {
        return Err(22);
    }
    let last = at + 4 == sizes.flash();
    // "Step 7 now goes from the highest macro down to 0"
    let highest = sizes.macros as u8 - 1;
    Ok(if last { begin(Call::LoadLocks(highest)) } else { Place::VerifyFlash(index + 1) })
}

/// Step 8's locks: the next word to compare, step 7 for the macro below, or the level after macro 0.
fn next_lock(sizes: &Sizes, image: &[u8], number: u8, index: u8, given: u32) -> Result<Place, u8> {
    let offset = 4 * usize::from(index);
    let at = sizes.flash() + usize::from(number) * sizes.lock_bytes() + offset;
    if given != word(&image[at..at + 4]) {
        return Err(23);
    }
    Ok(if offset + 4 < sizes.lock_bytes() {
        Place::VerifyLocks(number, index + 1)
    } else if number > 0 {
        begin(Call::LoadLocks(number - 1))
    } else {
        Place::VerifyLevel
    })
}
