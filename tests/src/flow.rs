//! 'Flow', as a programme that talks to the board and waits for each answer: the plainest reading
//! of steps 1 to 9. `session` is the same flow, one answer at a time.

mod words;

pub use words::*;

use crate::image::{word, Header};
use crate::parts::{Sizes, IDCODE, LOCKS, LOCKS_STEP, OPEN, PARAMS, PROTECTED, TEST_MODE};
use crate::wire::{acknowledgement, parity, Ack, Answer, Packet, Register};

struct Flow<'a, T> {
    transport: T,
    header: &'a Header,
    sizes: Sizes,
    image: &'a [u8],
    step: u8,
    transfers: u32,
}

/// Runs the flow on an image that `start` lets pass; `transport` carries each request out.
pub fn run(header: &Header, image: &[u8], transport: impl FnMut(Packet) -> Answer) -> Report {
    let sizes = header.sizes().expect("a part of the table");
    let mut flow = Flow { transport, header, sizes, image, step: 0, transfers: 0 };
    let number = flow.steps().err().unwrap_or(0);
    Report { number, step: flow.step, transfers: flow.transfers }
}

impl<T: FnMut(Packet) -> Answer> Flow<'_, T> {
    fn reset(&mut self, packet: Packet) {
        assert_eq!((self.transport)(packet), Answer::ResetDone);
    }

    /// Hands a read or write out once.
    fn exchange(&mut self, packet: Packet) -> (Ack, u32, bool) {
        self.transfers += 1;
        match (self.transport)(packet) {
            Answer::Wire { ack, word, parity } => (acknowledgement(ack), word, parity),
            Answer::ResetDone => panic!("a transfer answered by a reset"),
        }
    }

    /// A transfer with its repeats; a read gives its word.
    fn transfer(&mut self, packet: Packet) -> Result<u32, u8> {
        for _ in 0..=REPEATS {
            let (ack, word, bit) = self.exchange(packet);
            match ack {
                Ack::Wait => continue,
                Ack::Fault => return Err(28),
                Ack::Silence => return Err(29),
                Ack::Noise => return Err(33),
                // "Word and parity matter only on a read answered OK, the stale one included."
                Ack::Ok if matches!(packet, Packet::Read { .. }) && bit != parity(word) => return Err(30),
                Ack::Ok => return Ok(word),
            }
        }
        Err(27)
    }

    /// "Write = TAR, DRW (2 transfers)."
    fn write(&mut self, address: u32, word: u32) -> Result<(), u8> {
        self.transfer(Packet::write(Register::Tar, address))?;
        self.transfer(Packet::write(Register::Drw, word))?;
        Ok(())
    }

    /// "Read = TAR, DRW, DRW (3; the last word counts ...)."
    fn read(&mut self, address: u32) -> Result<u32, u8> {
        self.transfer(Packet::write(Register::Tar, address))?;
        self.transfer(Packet::read(Register::Drw))?;
        self.transfer(Packet::read(Register::Drw))
    }

    fn poll(&mut self) -> Result<(), u8> {
        for _ in 0..POLLS {
            if self.read(self.sizes.part.sysreq)? & BUSY == 0 {
                return Ok(());
            }
        }
        Err(18)
    }

    /// "Call c = Write SYSARG, Write SYSREQ with 0x80000000 + c, Poll, Read SYSARG; success is top
    /// digit 0xA."
    fn call(&mut self, command: u32, argument: u32) -> Result<(), u8> {
        self.write(self.sizes.part.sysarg(), argument)?;
        self.write(self.sizes.part.sysreq, BIT_31 + command)?;
        self.poll()?;
        match self.read(self.sizes.part.sysarg())? >> 28 {
            0xA => Ok(()),
            _ => Err(19),
        }
    }

    /// "A listed call writes its words from PARAMS on and gives PARAMS as SYSARG".
    fn listed(&mut self, command: u32, list: &[u32]) -> Result<(), u8> {
        for (address, &word) in (PARAMS..).step_by(4).zip(list) {
            self.write(address, word)?;
        }
        self.call(command, PARAMS)
    }

    /// "up to 30 attempts of line reset and read IDCODE, until OK with right parity"
    fn connect(&mut self) -> Result<u32, u8> {
        for _ in 0..ATTEMPTS {
            self.reset(Packet::LineReset);
            let (ack, word, bit) = self.exchange(Packet::read(Register::IdCode));
            if ack == Ack::Ok && bit == parity(word) {
                return Ok(word);
            }
        }
        Err(26)
    }

    /// Step 1.
    fn acquire(&mut self) -> Result<(), u8> {
        self.step = 1;
        self.reset(Packet::Xres);
        if self.connect()? != IDCODE {
            return Err(16);
        }
        self.transfer(Packet::write(Register::CtrlStat, 0x5400_0000))?;
        self.transfer(Packet::write(Register::Select, 0))?;
        self.transfer(Packet::write(Register::Csw, 2))?;
        self.write(TEST_MODE, BIT_31)?;
        if self.read(TEST_MODE)? & BIT_31 == 0 {
            return Err(17);
        }
        self.poll()?;
        if self.sizes.part.imo {
            self.call(SET_IMO, key(SET_IMO))?;
        }
        Ok(())
    }

    /// Step 2, giving the level in effect.
    fn silicon_id(&mut self) -> Result<u8, u8> {
        self.step = 2;
        self.call(SILICON_ID, key(SILICON_ID))?;
        let sysarg = self.read(self.sizes.part.sysarg())?;
        let sysreq = self.read(self.sizes.part.sysreq)?;
        silicon_level(self.header, &self.sizes, sysarg, sysreq)
    }

    /// Step 3.
    fn erase(&mut self, level: u8) -> Result<(), u8> {
        match level {
            OPEN => {
                self.step = 3;
                self.listed(ERASE_ALL, &[key(ERASE_ALL)])
            }
            PROTECTED => {
                self.step = 3;
                self.call(WRITE_PROTECTION, key(WRITE_PROTECTION) + 0x10000)?;
                self.acquire()?;
                match self.silicon_id()? {
                    OPEN => Ok(()),
                    _ => Err(21),
                }
            }
            _ => Err(21),
        }
    }

    /// Steps 4 and 9.
    fn checksum(&mut self) -> Result<u32, u8> {
        self.call(CHECKSUM, key(CHECKSUM) + BIT_31)?;
        Ok(self.read(self.sizes.part.sysarg())? & LOW_28)
    }

    /// "comparing each as read"
    fn compare(&mut self, address: u32, bytes: &[u8], number: u8) -> Result<(), u8> {
        for (address, expected) in (address..).step_by(4).zip(bytes.chunks_exact(4)) {
            if self.read(address)? != word(expected) {
                return Err(number);
            }
        }
        Ok(())
    }

    /// Step 5.
    fn program(&mut self, flash: &[u8]) -> Result<(), u8> {
        self.step = 5;
        let part = self.sizes.part;
        for (row, bytes) in flash.chunks_exact(part.row_bytes).enumerate() {
            self.listed(LOAD_LATCH, &latch_list(row / part.rows_per_macro, bytes))?;
            self.listed(PROGRAM_ROW, &[key(PROGRAM_ROW) + ((row as u32) << 16)])?;
        }
        Ok(())
    }

    /// Step 7 for one macro.
    fn protect(&mut self, number: usize, bytes: &[u8]) -> Result<(), u8> {
        self.step = 7;
        self.listed(LOAD_LATCH, &latch_list(number, bytes))?;
        let argument = (u32::from(self.header.level) << 16) + ((number as u32) << 24);
        self.call(WRITE_PROTECTION, key(WRITE_PROTECTION) + argument)
    }

    /// Step 8 for one macro.
    fn verify_locks(&mut self, number: usize, bytes: &[u8]) -> Result<(), u8> {
        self.step = 8;
        self.compare(LOCKS + number as u32 * LOCKS_STEP, bytes, 23)
    }

    /// Document 02, One: "Step 7 now goes from the highest macro down to 0, and step 8 for each higher
    /// macro is done straight after its lock call."
    fn lock(&mut self, protection: &[u8]) -> Result<(), u8> {
        for (number, bytes) in protection.chunks_exact(self.sizes.lock_bytes()).enumerate().rev() {
            self.protect(number, bytes)?;
            self.verify_locks(number, bytes)?;
        }
        self.verify_level()
    }

    /// Step 8's level.
    fn verify_level(&mut self) -> Result<(), u8> {
        let stored = (self.read(self.sizes.part.level_word)? >> 24) as u8 & 0xF;
        if exchanged(stored) != self.header.level {
            return Err(24);
        }
        Ok(())
    }

    fn steps(&mut self) -> Result<(), u8> {
        let (flash, protection) = self.image.split_at(self.sizes.flash());
        self.acquire()?;
        let level = self.silicon_id()?;
        self.erase(level)?;

        self.step = 4;
        let privileged = self.checksum()?;

        self.program(flash)?;

        self.step = 6;
        self.compare(0, flash, 22)?;

        self.lock(protection)?;

        self.step = 9;
        let sum = self.checksum()?;
        // "(this sum - that sum) mod 65536 equals the image's sum"
        if sum.wrapping_sub(privileged) as u16 != self.header.sum {
            return Err(25);
        }
        Ok(())
    }
}
