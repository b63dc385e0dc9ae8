//! The cases: calm sessions and every refusal of a start; `reports` has the rest.

use super::{image_bytes, Case, Override};
use crate::image::{flash_sum, Header};
use crate::parts::{Sizes, KILL, OPEN, PROTECTED, SIZES};

pub(super) struct Maker {
    cases: Vec<Case>,
    seed: u32,
}

pub fn cases() -> Vec<Case> {
    let mut maker = Maker { cases: Vec::new(), seed: 1 };
    maker.calm();
    maker.starts();
    for (part, macros) in SIZES {
        maker.early(part, macros, OPEN);
        maker.early(part, macros, PROTECTED);
        maker.late(part, macros);
    }
    maker.limits();
    maker.line(1, 1, OPEN);
    maker.line(2, 1, PROTECTED);
    maker.locking();
    maker.cases
}

impl Maker {
    /// A calm case with a fresh image that passes.
    pub(super) fn base(&mut self, part: u32, macros: u32, stored: u8) -> Case {
        self.seed += 1;
        let sizes = Sizes::of(part, macros).expect("a part of the table");
        let image = image_bytes(self.seed, sizes.image());
        let level = [OPEN, PROTECTED, KILL][self.seed as usize % 3];
        let mut metadata = [0; 12];
        let (low, revision) = (self.seed as u8 % 0x80, (self.seed * 7) as u8);
        metadata[..6].copy_from_slice(&[0, 2, sizes.part.id_high, low, revision, sizes.part.id_family]);
        let header = Header { part, macros, sum: flash_sum(&image[..sizes.flash()]), metadata, level };
        assert!(crate::image::refusal(&header, &sizes, &image).is_none());
        let privileged = self.seed.wrapping_mul(0x9E37_79B9) >> 4;
        let (length, seed, overrides, expected) = (image.len(), self.seed, vec![], (0, 9));
        Case {
            name: String::new(),
            header,
            length,
            seed,
            leave: true,
            stored,
            privileged,
            overrides,
            expected,
        }
    }

    pub(super) fn add(&mut self, name: &str, expected: (u8, u8), case: &Case, overrides: &[Override]) {
        let Header { part, macros, .. } = case.header;
        let level = if case.stored == OPEN { "OPEN" } else { "PROTECTED" };
        let name = format!("part {part}, M {macros}, {level}: {name}");
        self.cases.push(Case { name, expected, overrides: overrides.to_vec(), ..case.clone() });
    }

    fn calm(&mut self) {
        for (part, macros) in SIZES {
            for stored in [OPEN, PROTECTED] {
                let case = self.base(part, macros, stored);
                self.add("calm", (0, 9), &case, &[]);
            }
        }
        let mut blank = self.base(1, 1, OPEN);
        (blank.seed, blank.header.sum, blank.header.level, blank.privileged) = (0, 0, OPEN, 0);
        blank.header.metadata[2..6].copy_from_slice(&[0x0A, 0x0A, 0x0A, 0x9A]);
        self.add("the dry run's image", (0, 9), &blank, &[]);
        let mut wrap = self.base(1, 1, OPEN);
        wrap.privileged = 0x0FFF_FFFF;
        self.add("the sum passes 2^28", (0, 9), &wrap, &[]);
    }

    /// "11, 12, 6 to 10; starting then 15".
    fn starts(&mut self) {
        type Change = fn(&mut Case);
        let changes: [(&str, u8, Change); 23] = [
            ("part 0", 11, |c| c.header.part = 0),
            ("part 4", 11, |c| c.header.part = 4),
            ("M 0", 11, |c| c.header.macros = 0),
            ("M 2", 11, |c| c.header.macros = 2),
            ("another part's size", 12, |c| c.header.part = 2),
            ("image one short", 12, |c| c.length -= 1),
            ("image one long", 12, |c| c.length += 1),
            ("11 before 12", 11, |c| (c.header.macros, c.length) = (2, 5)),
            ("12 before 6", 12, |c| (c.header.metadata[1], c.length) = (0, 5)),
            ("version 3", 6, |c| c.header.metadata[1] = 3),
            ("version 0x0200", 6, |c| (c.header.metadata[0], c.header.metadata[1]) = (2, 0)),
            ("ID high", 7, |c| c.header.metadata[2] = 4),
            ("ID family", 7, |c| c.header.metadata[5] = 0x93),
            ("level 0", 8, |c| c.header.level = 0),
            ("level 3", 8, |c| c.header.level = 3),
            ("level 5", 8, |c| c.header.level = 5),
            ("level 255", 8, |c| c.header.level = 255),
            ("sum", 9, |c| c.header.sum ^= 1),
            ("row 0 adds to 0", 10, |c| (c.seed, c.header.sum) = (1, 256)),
            ("9 before 10", 9, |c| c.seed = 1),
            ("KILL without leave", 15, |c| (c.header.level, c.leave) = (KILL, false)),
            ("8 before 15", 8, |c| (c.header.level, c.leave) = (8, false)),
            ("10 before 15", 10, |c| (c.seed, c.header.sum, c.header.level, c.leave) = (1, 256, KILL, false)),
        ];
        for (name, number, change) in changes {
            let mut case = self.base(1, 1, OPEN);
            change(&mut case);
            self.add(name, (number, 0), &case, &[]);
        }
        self.other_starts();
    }

    fn other_starts(&mut self) {
        for (low, number) in [(0x80, 7), (0x9F, 7)] {
            let mut case = self.base(2, 1, OPEN);
            case.header.metadata[3] = low;
            self.add(&format!("low byte {low:#04X}"), (number, 0), &case, &[]);
        }
        let mut case = self.base(1, 1, PROTECTED);
        (case.header.level, case.leave) = (PROTECTED, false);
        self.add("PROTECTED without leave", (0, 9), &case, &[]);
    }
}
