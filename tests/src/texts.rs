//! Makes images that pass and hex texts of every shape the rules allow, for tests and vectors.

use crate::hex::{DATA, END_TYPE, SECTIONS, UPPER};
use crate::image::{header_for, row_is_lost, Header};
use crate::parts::Sizes;
use crate::rng::Rng;

/// An image that every check lets pass: rows random, empty, full, thin, or nearly lost (10).
pub fn sample_image(rng: &mut Rng, part: u32, macros: u32) -> (Header, Vec<u8>) {
    let sizes = Sizes::of(part, macros).expect("a part of the table");
    let mut image = rng.bytes(sizes.image());
    for row in image[..sizes.flash()].chunks_exact_mut(sizes.row_bytes()) {
        sample_row(rng, row);
    }
    let low = loop {
        let low = rng.byte();
        if sizes.part.low_fits(low) {
            break low;
        }
    };
    let level = *rng.pick(&[1, 2, 4]);
    let mut header = header_for(part, macros, low, rng.byte(), level, &image);
    rng.fill(&mut header.metadata[6..]);
    (header, image)
}

fn sample_row(rng: &mut Rng, row: &mut [u8]) {
    match rng.below(8) {
        0 => row.fill(0),
        1 => row.fill(0xFF),
        2 => {
            row.fill(0);
            row[rng.below(64)] = rng.byte();
        }
        3 => {
            // Words 1 and 0xFFFFFFFE or 0xFFFFFFFF, or bytes that alone add to 0 mod 256.
            row.fill(0);
            row[0] = 1;
            row[4..8].fill(0xFF);
            row[4] = *rng.pick(&[0xFE, 0x7F, 0x00]);
        }
        _ => {}
    }
    while row_is_lost(row) {
        row[0] = row[0].wrapping_add(1);
    }
}

/// A record of a text: address, type, data.
#[derive(Clone, PartialEq, Eq, Debug)]
pub struct Line {
    pub address: u16,
    pub kind: u8,
    pub data: Vec<u8>,
}

impl Line {
    pub fn new(address: u16, kind: u8, data: &[u8]) -> Line {
        Line { address, kind, data: data.to_vec() }
    }

    pub fn upper(half: u16) -> Line {
        Line::new(0, UPPER, &half.to_be_bytes())
    }

    pub fn end() -> Line {
        Line::new(0, END_TYPE, &[])
    }

    /// Colon and digits, without a line end.
    pub fn text(&self) -> String {
        let [high, low] = self.address.to_be_bytes();
        let mut bytes = vec![self.data.len() as u8, high, low, self.kind];
        bytes.extend(&self.data);
        with_sum(&bytes)
    }
}

/// The line of these bytes with the sum that is right for them.
pub fn with_sum(bytes: &[u8]) -> String {
    let sum = bytes.iter().fold(0u8, |sum, &b| sum.wrapping_sub(b));
    let pairs: String = bytes.iter().chain([&sum]).map(|b| format!("{b:02X}")).collect();
    format!(":{pairs}")
}

/// The five sections' bytes in order.
pub fn sections(header: &Header, image: &[u8]) -> [Vec<u8>; 5] {
    let (flash, protection) = image.split_at(header.sizes().expect("a part of the table").flash());
    [
        flash.to_vec(),
        header.sum.to_be_bytes().to_vec(),
        protection.to_vec(),
        header.metadata.to_vec(),
        vec![header.level],
    ]
}

/// The records of a text, end record included: `length` chooses how many bytes the next record
/// would like to have, `needless` how many type 4 records to put before it beside a needed one.
pub fn lines(
    sections: &[Vec<u8>; 5],
    mut length: impl FnMut() -> usize,
    mut needless: impl FnMut() -> usize,
) -> Vec<Line> {
    let mut lines = Vec::new();
    let mut upper = 0;
    for (start, bytes) in SECTIONS.into_iter().zip(sections) {
        let mut filled = 0;
        while filled < bytes.len() {
            let at = start + filled as u32;
            let (half, low) = ((at >> 16) as u16, at as u16);
            for _ in 0..needless() {
                lines.push(Line::upper(half));
                upper = half;
            }
            if half != upper {
                lines.push(Line::upper(half));
                upper = half;
            }
            let most = (bytes.len() - filled).min(0x1_0000 - usize::from(low)).min(255);
            let count = length().clamp(1, most);
            lines.push(Line::new(low, DATA, &bytes[filled..filled + count]));
            filled += count;
        }
    }
    lines.push(Line::end());
    lines
}

/// Letters and line ends of a text.
#[derive(Clone, Copy, PartialEq, Eq, Debug)]
pub enum Choice {
    First,
    Second,
    Either,
}

impl Choice {
    fn second(self, rng: &mut Rng) -> bool {
        match self {
            Choice::First => false,
            Choice::Second => true,
            Choice::Either => rng.bit(),
        }
    }
}

/// The text of these records: capitals or small letters, CR LF or LF.
pub fn text(rng: &mut Rng, lines: &[Line], small: Choice, lf: Choice) -> Vec<u8> {
    let mut text = Vec::new();
    for line in lines {
        for digit in line.text().bytes() {
            text.push(if small.second(rng) { digit.to_ascii_lowercase() } else { digit });
        }
        text.extend_from_slice(if lf.second(rng) { b"\n" } else { b"\r\n" });
    }
    text
}

/// A short common form: 255 bytes a record, LF.
pub fn short(sections: &[Vec<u8>; 5]) -> Vec<Line> {
    lines(sections, || 255, || 0)
}

pub fn plain(lines: &[Line]) -> Vec<u8> {
    text(&mut Rng(0), lines, Choice::First, Choice::Second)
}

#[cfg(test)]
mod tests {
    use super::*;
    use crate::hex;
    use crate::parts::SIZES;

    #[test]
    fn every_shape_is_taken() {
        let mut rng = Rng(5);
        for round in 0..40 {
            let (part, macros) = SIZES[round % 4];
            let (header, image) = sample_image(&mut rng, part, macros);
            let (mut a, mut b) = (rng.clone(), Rng(rng.draw()));
            let most = [1, 16, 64, 255][rng.below(4)];
            let made = lines(&sections(&header, &image), || 1 + a.below(most), || b.below(3) / 2);
            let made = text(&mut rng, &made, Choice::Either, Choice::Either);
            let mut buffer = vec![0; image.len()];
            assert_eq!(hex::read(part, macros, &made, &mut buffer), (0, header));
            assert_eq!(buffer, image);
        }
    }

    #[test]
    fn the_writer_is_one_shape() {
        let mut rng = Rng(6);
        for (part, macros) in SIZES {
            let (header, image) = sample_image(&mut rng, part, macros);
            let mut first = true;
            let made = lines(&sections(&header, &image), || 64, || std::mem::take(&mut first) as usize);
            let made = text(&mut rng, &made, Choice::First, Choice::First);
            let mut written = vec![0; made.len()];
            assert_eq!(hex::write(&header, &image, &mut written), (0, made.len()));
            assert_eq!(written, made);
        }
    }
}
