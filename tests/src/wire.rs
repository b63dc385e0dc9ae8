//! 'Wire': SWD request bytes, data parity, acknowledgements.

/// The registers of 004, Table 3-2 that the flow uses.
#[derive(Clone, Copy, PartialEq, Eq, Debug)]
pub enum Register {
    IdCode,
    CtrlStat,
    Select,
    Csw,
    Tar,
    Drw,
}

impl Register {
    /// APnDP: 0 is the debug port, 1 the access port.
    pub const fn access_port(self) -> bool {
        matches!(self, Register::Csw | Register::Tar | Register::Drw)
    }

    /// The two address bits.
    pub const fn address(self) -> u8 {
        match self {
            Register::IdCode | Register::Csw => 0b00,
            Register::CtrlStat | Register::Tar => 0b01,
            Register::Select => 0b10,
            Register::Drw => 0b11,
        }
    }

    pub const fn read_byte(self) -> u8 {
        request_byte(self.access_port(), true, self.address())
    }

    pub const fn write_byte(self) -> u8 {
        request_byte(self.access_port(), false, self.address())
    }
}

/// "Request byte, bit 0 first: 1, APnDP, RnW, two address bits (low first), even parity of those
/// four, 0, 1."
pub const fn request_byte(access_port: bool, read: bool, address: u8) -> u8 {
    let four = (access_port as u8) | (read as u8) << 1 | (address & 3) << 2;
    let parity = (four ^ four >> 1 ^ four >> 2 ^ four >> 3) & 1;
    1 | four << 1 | parity << 5 | 1 << 7
}

/// "The parity bit is 1 when the word has an odd number of ones."
pub const fn parity(word: u32) -> bool {
    word.count_ones() % 2 == 1
}

/// "Acknowledgement 1 is OK, 2 WAIT, 4 FAULT, all others silence."; of these (Five) "7 means that nobody drives the
/// wire, and the others that we call silence mean noise".
#[derive(Clone, Copy, PartialEq, Eq, Debug)]
pub enum Ack {
    Ok,
    Wait,
    Fault,
    Silence,
    Noise,
}

/// "Acknowledgement 7 means that nobody drives the wire".
pub const SILENCE: u32 = 7;

pub const fn acknowledgement(bits: u32) -> Ack {
    match bits {
        1 => Ack::Ok,
        2 => Ack::Wait,
        4 => Ack::Fault,
        SILENCE => Ack::Silence,
        _ => Ack::Noise,
    }
}

/// What the core hands out.
#[derive(Clone, Copy, PartialEq, Eq, Debug)]
pub enum Packet {
    Xres,
    LineReset,
    Read { byte: u8 },
    Write { byte: u8, word: u32, parity: bool },
}

impl Packet {
    pub const fn read(register: Register) -> Packet {
        Packet::Read { byte: register.read_byte() }
    }

    pub const fn write(register: Register, word: u32) -> Packet {
        Packet::Write { byte: register.write_byte(), word, parity: parity(word) }
    }

    /// "transfers: the reads and writes handed out, repeats included, resets not."
    pub const fn is_transfer(self) -> bool {
        matches!(self, Packet::Read { .. } | Packet::Write { .. })
    }
}

/// What the host gives back: a reset was done, or what stood on the wire.
#[derive(Clone, Copy, PartialEq, Eq, Debug)]
pub enum Answer {
    ResetDone,
    Wire { ack: u32, word: u32, parity: bool },
}

#[cfg(test)]
mod tests {
    use super::*;

    #[test]
    fn p1_read_idcode() {
        assert_eq!(Register::IdCode.read_byte(), 0xA5);
    }

    #[test]
    fn p2_write_tar() {
        assert_eq!(Register::Tar.write_byte(), 0x8B);
    }

    #[test]
    fn p3_read_drw() {
        assert_eq!(Register::Drw.read_byte(), 0x9F);
    }

    #[test]
    fn p4_parity_of_ctrl_stat() {
        assert!(parity(0x5400_0000));
    }

    /// The user's own column: "0xBB, write the word".
    #[test]
    fn write_drw() {
        assert_eq!(Register::Drw.write_byte(), 0xBB);
    }

    #[test]
    fn seven_is_silence_and_the_others_noise() {
        let known = [(1, Ack::Ok), (2, Ack::Wait), (4, Ack::Fault), (7, Ack::Silence)];
        for bits in 0..512 {
            let expected =
                known.iter().find(|(number, _)| *number == bits).map_or(Ack::Noise, |(_, ack)| *ack);
            assert_eq!(acknowledgement(bits), expected);
        }
    }
}
