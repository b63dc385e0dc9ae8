//! The image: its header, document 01's 'record' (here those are a text's lines), its bytes, checks 6 to 10.

use crate::parts::{Sizes, KILL, OPEN, PROTECTED};

/// "The record holds part, M, 16-bit sum, 12 metadata bytes, level."
#[derive(Clone, Copy, PartialEq, Eq, Debug, Default)]
pub struct Header {
    pub part: u32,
    pub macros: u32,
    pub sum: u16,
    pub metadata: [u8; 12],
    pub level: u8,
}

impl Header {
    /// "A record, session or length given with a refusal is all 0."
    pub const ZERO: Header = Header { part: 0, macros: 0, sum: 0, metadata: [0; 12], level: 0 };

    pub fn sizes(&self) -> Option<Sizes> {
        Sizes::of(self.part, self.macros)
    }

    /// "Metadata: version 2 (high byte first), ID hi, lo, revision, family, six bytes kept unread."
    pub fn version(&self) -> u16 {
        u16::from_be_bytes([self.metadata[0], self.metadata[1]])
    }

    pub fn id_high(&self) -> u8 {
        self.metadata[2]
    }

    pub fn id_low(&self) -> u8 {
        self.metadata[3]
    }

    pub fn id_family(&self) -> u8 {
        self.metadata[5]
    }
}

/// The 16-bit sum of the flash bytes.
pub fn flash_sum(flash: &[u8]) -> u16 {
    flash.iter().map(|&b| u32::from(b)).fold(0u32, u32::wrapping_add) as u16
}

/// "Words have the low byte first."
pub fn word(bytes: &[u8]) -> u32 {
    u32::from_le_bytes([bytes[0], bytes[1], bytes[2], bytes[3]])
}

/// Document 02, Three, the test whether a row is all zero: "it stops at the first byte that isn't zero, and says
/// how many bytes it read: that byte's place in the row plus one, or L where all are zero".
pub fn zero_row(row: &[u8]) -> (bool, usize) {
    match row.iter().position(|&byte| byte != 0) {
        Some(place) => (false, place + 1),
        None => (true, row.len()),
    }
}

/// "a row whose 32-bit words add to 0 mod 2^32 without all being 0"; "An all-zero row is taken."
pub fn row_is_lost(row: &[u8]) -> bool {
    let words = row.chunks_exact(4);
    let (all, _) = zero_row(&row[..row.len() - words.remainder().len()]);
    !all && words.map(word).fold(0, u32::wrapping_add) == 0
}

/// 6 to 8, of the header alone.
pub fn header_refusal(header: &Header, sizes: &Sizes) -> Option<u8> {
    // "6 version"
    if header.version() != 2 {
        return Some(6);
    }
    // "7 image ID not the part's"
    let part = sizes.part;
    if header.id_high() != part.id_high
        || header.id_family() != part.id_family
        || !part.low_fits(header.id_low())
    {
        return Some(7);
    }
    // "8 level not 1, 2, 4"
    if ![OPEN, PROTECTED, KILL].contains(&header.level) {
        return Some(8);
    }
    None
}

/// "then 6 to 10", on a header whose part and M are in the table and an image of exact size.
pub fn refusal(header: &Header, sizes: &Sizes, image: &[u8]) -> Option<u8> {
    let flash = &image[..sizes.flash()];
    header_refusal(header, sizes)
        // "9 flash sum"
        .or_else(|| (flash_sum(flash) != header.sum).then_some(9))
        // "10 a row ..."
        .or_else(|| flash.chunks_exact(sizes.row_bytes()).any(row_is_lost).then_some(10))
}

/// Writing and starting: "check 11, 12, 6 to 10", 12 for "an image lent for reading not of exact
/// size". `room` is a further 12 (the text buffer), judged in 12's place.
pub fn lent_refusal(header: &Header, image: &[u8], room: impl Fn(&Sizes) -> bool) -> Result<Sizes, u8> {
    let sizes = header.sizes().ok_or(11)?;
    if image.len() != sizes.image() || !room(&sizes) {
        return Err(12);
    }
    match refusal(header, &sizes, image) {
        Some(number) => Err(number),
        None => Ok(sizes),
    }
}

/// A header for these bytes that every check lets pass, unless a row is lost (10).
pub fn header_for(part: u32, macros: u32, low: u8, revision: u8, level: u8, image: &[u8]) -> Header {
    let sizes = Sizes::of(part, macros).expect("a part of the table");
    let ids = [sizes.part.id_high, low, revision, sizes.part.id_family];
    let mut metadata = [0; 12];
    metadata[1] = 2;
    metadata[2..6].copy_from_slice(&ids);
    Header { part, macros, sum: flash_sum(&image[..sizes.flash()]), metadata, level }
}

#[cfg(test)]
mod tests {
    use super::*;

    #[test]
    fn p10_sum_of_ff() {
        assert_eq!(flash_sum(&[0xFF; 16384]), 0xC000);
    }

    #[test]
    fn lost_rows() {
        let mut row = [0u8; 64];
        assert!(!row_is_lost(&row));
        row[3] = 0x80;
        assert!(!row_is_lost(&row));
        row[63] = 0x80;
        assert!(row_is_lost(&row));
        // Bytes add to 0 mod 256, words don't.
        let mut row = [0u8; 64];
        (row[0], row[5]) = (1, 0xFF);
        assert!(!row_is_lost(&row));
        // The carry out of a word's low bytes counts: 0xFFFFFFFF + 1.
        let mut row = [0u8; 64];
        row[..4].fill(0xFF);
        row[4] = 1;
        assert!(row_is_lost(&row));
    }

    /// Every place of the first byte that isn't zero, whatever follows it.
    #[test]
    fn zero_rows() {
        assert_eq!(zero_row(&[]), (true, 0));
        assert_eq!(zero_row(&[0; 64]), (true, 64));
        for length in [1, 5, 64, 128] {
            for place in 0..length {
                let mut row = vec![0; length];
                row[place] = 1;
                assert_eq!(zero_row(&row), (false, place + 1));
                row[place..].fill(0xFF);
                assert_eq!(zero_row(&row), (false, place + 1));
            }
        }
        // A byte past the whole words is read, but is none of the words that 10 is about.
        assert_eq!(zero_row(&[0, 0, 0, 0, 1]), (false, 5));
        assert!(!row_is_lost(&[0, 0, 0, 0, 1]));
        assert!(row_is_lost(&[1, 0, 0, 0, 0xFF, 0xFF, 0xFF, 0xFF, 1]));
    }

    #[test]
    fn order_of_6_to_10() {
        let mut image = vec![0u8; 16384 + 32];
        image[..4].fill(0xFF);
        image[4] = 1;
        let good = header_for(1, 1, 0, 0, OPEN, &image);
        let sizes = good.sizes().unwrap();
        let mut bad = good;
        assert_eq!(refusal(&bad, &sizes, &image), Some(10));
        bad.sum ^= 1;
        assert_eq!(refusal(&bad, &sizes, &image), Some(9));
        bad.level = 0;
        assert_eq!(refusal(&bad, &sizes, &image), Some(8));
        bad.metadata[5] = 0;
        assert_eq!(refusal(&bad, &sizes, &image), Some(7));
        bad.metadata[0] = 2;
        assert_eq!(refusal(&bad, &sizes, &image), Some(6));
    }

    #[test]
    fn low_byte_of_part_2() {
        let image = vec![0u8; 32768 + 32];
        for low in 0..=255u8 {
            let header = header_for(2, 1, low, 0, OPEN, &image);
            let number = refusal(&header, &header.sizes().unwrap(), &image);
            assert_eq!(number, ((0x80..=0x9F).contains(&low)).then_some(7));
        }
    }
}
