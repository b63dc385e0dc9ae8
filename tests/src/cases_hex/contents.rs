//! 6 to 12, and random damage.

use super::{Case, Maker, BUFFER};
use crate::image::{flash_sum, word};
use crate::parts::{Sizes, SIZES};
use crate::rng::Rng;
use crate::texts::{self, lines, plain, short, Choice};

impl Maker<'_> {
    /// 6 to 10, alone and in their order; 5 comes before all of them.
    pub(super) fn contents(&mut self) {
        type Change = fn(&mut [Vec<u8>; 5]);
        let changes: [(&str, u8, Change); 15] = [
            ("version 1", 6, |s| s[3][1] = 1),
            ("version 0x0200", 6, |s| s[3][..2].copy_from_slice(&[2, 0])),
            ("ID high", 7, |s| s[3][2] = 0x0B),
            ("ID family", 7, |s| s[3][5] = 0x93),
            ("level 0", 8, |s| s[4][0] = 0),
            ("level 3", 8, |s| s[4][0] = 3),
            ("level 0x81", 8, |s| s[4][0] = 0x81),
            ("sum one more", 9, |s| s[1][1] = s[1][1].wrapping_add(1)),
            ("sum low byte first", 9, |s| s[1].swap(0, 1)),
            ("a flash byte", 9, |s| s[0][16_383] ^= 0x10),
            ("row 0 adds to 0", 10, |s| lose_row(s, 0)),
            ("row 255 adds to 0", 10, |s| lose_row(s, 255)),
            ("6 before 7 to 10", 6, |s| {
                lose_row(s, 7);
                (s[3][1], s[3][2], s[4][0], s[1][0]) = (3, 0, 0, !s[1][0]);
            }),
            ("7 before 8 to 10", 7, |s| {
                lose_row(s, 7);
                (s[3][2], s[4][0], s[1][0]) = (0, 0, !s[1][0]);
            }),
            ("8 before 9, 10", 8, |s| {
                lose_row(s, 7);
                (s[4][0], s[1][0]) = (0xFF, !s[1][0]);
            }),
        ];
        for (name, number, change) in changes {
            let mut sections = self.sections();
            // Unequal bytes in the sum, so that exchanging them shows.
            while sections[1][0] == sections[1][1] {
                sections = self.sections();
            }
            change(&mut sections);
            self.one(name, number, plain(&short(&sections)));
        }
        self.contents_in_order();
    }

    fn contents_in_order(&mut self) {
        let mut sections = self.sections();
        lose_row(&mut sections, 9);
        sections[1][0] = !sections[1][0];
        self.one("9 before 10", 9, plain(&short(&sections)));
        let mut sections = self.sections();
        sections[3][1] = 1;
        let mut text = plain(&short(&sections));
        text.push(b'\n');
        self.one("5 before 6", 5, text);
        // All flash 0 and all 0xFF are taken: words of 0xFF add to -16.
        for (name, byte) in [("flash all 0", 0), ("flash all 0xFF", 0xFF)] {
            let mut sections = self.sections();
            sections[0].fill(byte);
            sections[1] = flash_sum(&sections[0]).to_be_bytes().to_vec();
            self.one(name, 0, plain(&short(&sections)));
        }
    }

    /// 11, then 12, before anything of the text.
    pub(super) fn host(&mut self) {
        let text = plain(&self.head());
        for (part, macros) in
            [(0, 0), (0, 1), (1, 0), (1, 2), (2, 0), (2, 2), (3, 0), (3, 3), (4, 1), (255, 255)]
        {
            self.add(&format!("part {part}, M {macros}"), part, macros, 11, text.clone());
        }
        for (part, macros) in SIZES {
            let size = Sizes::of(part, macros).unwrap().image();
            for room in [0, 1, size - 33, size - 1] {
                let name = format!("part {part}, M {macros}, room {room}");
                let number = Some(12);
                self.cases.push(Case { name, part, macros, room, text: b":".to_vec(), number });
            }
            let name = format!("part {part}, M {macros}, exact room");
            self.cases.push(Case { name, part, macros, room: size, text: b":".to_vec(), number: Some(1) });
        }
        let name = "11 before 12".to_string();
        self.cases.push(Case { name, part: 1, macros: 2, room: 0, text, number: Some(11) });
        let text = plain(&short(&self.sections()));
        let name = "taken into exact room".to_string();
        self.cases.push(Case { name, part: 1, macros: 1, room: 16_416, text, number: Some(0) });
    }

    /// One or two bytes changed, put in or taken out of a short piece of text.
    pub(super) fn damage(&mut self) {
        for round in 0..220 {
            let sections = self.sections();
            let (mut a, mut b) = (Rng(self.rng.draw()), Rng(self.rng.draw()));
            let made = lines(&sections, || 1 + a.below(24), || b.below(5) / 4);
            let mut text = texts::text(&mut self.rng, &made[..12], Choice::Either, Choice::Either);
            for _ in 0..1 + self.rng.below(2) {
                let at = self.rng.below(text.len());
                let byte = match self.rng.below(3) {
                    0 => self.rng.byte(),
                    _ => *self.rng.pick(b"0123456789ABCDEFabcdef:\r\n"),
                };
                match self.rng.below(4) {
                    0 => text.insert(at, byte),
                    1 => drop(text.remove(at)),
                    _ => text[at] = byte,
                }
            }
            let name = format!("damage {round}");
            self.cases.push(Case { name, part: 1, macros: 1, room: BUFFER, text, number: None });
        }
    }

    /// The version's both bytes count, the revision's none. Last, so that the texts before stay.
    pub(super) fn whole_fields(&mut self) {
        for (name, number, at, byte) in [("version 0x0102", 6, 0, 1), ("revision 0xFF", 0, 4, 0xFF)] {
            let mut sections = self.sections();
            sections[3][at] = byte;
            self.one(name, number, plain(&short(&sections)));
        }
    }
}

/// Makes a row of part 1's flash one that 10 refuses, and the sum right again.
fn lose_row(sections: &mut [Vec<u8>; 5], row: usize) {
    let (flash, rest) = sections.split_first_mut().unwrap();
    let row = &mut flash[row * 64..][..64];
    row[0] |= 1;
    let sum = row[..60].chunks_exact(4).map(word).fold(0, u32::wrapping_add);
    row[60..].copy_from_slice(&sum.wrapping_neg().to_le_bytes());
    rest[0] = flash_sum(flash).to_be_bytes().to_vec();
}
