//! The words of the flow: commands, keys, limits, and how answers are judged.

use crate::image::{word, Header};
use crate::parts::Sizes;

pub const BIT_31: u32 = 0x8000_0000;
pub const BIT_28: u32 = 0x1000_0000;
/// "Poll = Read SYSREQ until bits 31 and 28 are 0."
pub const BUSY: u32 = BIT_31 | BIT_28;
/// "its low 28 bits are the privileged sum".
pub const LOW_28: u32 = 0x0FFF_FFFF;

pub const SILICON_ID: u32 = 0x00;
pub const LOAD_LATCH: u32 = 0x04;
pub const PROGRAM_ROW: u32 = 0x06;
pub const ERASE_ALL: u32 = 0x0A;
pub const CHECKSUM: u32 = 0x0B;
pub const WRITE_PROTECTION: u32 = 0x0D;
pub const SET_IMO: u32 = 0x15;

/// "up to 30 attempts"
pub const ATTEMPTS: u8 = 30;
/// "WAIT repeats the transfer, 16 times running at most."
pub const REPEATS: u8 = 16;
/// "A poll loop has at most 10,000 polls"
pub const POLLS: u16 = 10_000;

/// "Key word k for command c: 0xB6 + (0xD3 + c) × 256."
pub const fn key(command: u32) -> u32 {
    0xB6 + (0xD3 + command) * 256
}

/// "A report carries number (0 done), the flow step then running ..., and transfers".
#[derive(Clone, Copy, PartialEq, Eq, Debug)]
pub struct Report {
    pub number: u8,
    pub step: u8,
    pub transfers: u32,
}

impl Report {
    /// The numbers of reports that are not done: document 01's, then those of document 02.
    pub fn failures() -> impl Iterator<Item = u8> {
        (16..=30).chain([33])
    }

    /// Whether a report may have this number and this step.
    pub fn fits(number: u8, step: u8) -> bool {
        (number, step) == (0, 9)
            || Report::failures().any(|failure| failure == number) && (1..=9).contains(&step)
    }
}

/// "with 0 and 1 exchanged"
pub const fn exchanged(level: u8) -> u8 {
    match level {
        0 => 1,
        1 => 0,
        other => other,
    }
}

/// What step 2 reads: "Bits 0 to 7 of SYSARG are low, 8 to 15 high, 16 to 23 revision; SYSREQ bits
/// 0 to 7 family, 12 to 15 level in effect". Gives the level, or 20.
pub fn silicon_level(header: &Header, sizes: &Sizes, sysarg: u32, sysreq: u32) -> Result<u8, u8> {
    let (low, high, family) = (sysarg as u8, (sysarg >> 8) as u8, sysreq as u8);
    // "High and family equal the image's; low must fit the part; 20 is judged before 21."
    if high != header.id_high() || family != header.id_family() || !sizes.part.low_fits(low) {
        return Err(20);
    }
    Ok((sysreq >> 12) as u8 & 0xF)
}

/// Where 4 lists a row or a macro's protection bytes: its words, after k + macro × 2^24 and the
/// number of bytes less 1.
pub fn latch_list(macro_number: usize, bytes: &[u8]) -> Vec<u32> {
    let mut list = vec![key(LOAD_LATCH) + ((macro_number as u32) << 24), bytes.len() as u32 - 1];
    list.extend(bytes.chunks_exact(4).map(word));
    list
}

#[cfg(test)]
mod tests {
    use super::*;

    #[test]
    fn p5_sum_word() {
        assert_eq!(key(CHECKSUM) + BIT_31, 0x8000_DEB6);
    }

    #[test]
    fn p6_program_row() {
        assert_eq!(key(PROGRAM_ROW) + (0x0123 << 16), 0x0123_D9B6);
    }

    #[test]
    fn p7_latch_of_macro_1() {
        assert_eq!(latch_list(1, &[0; 64])[0], 0x0100_D7B6);
    }
}
