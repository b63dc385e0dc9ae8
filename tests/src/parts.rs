//! 'Parts': the table (004, Table 1-1) and the sizes that follow from it.

pub const PARAMS: u32 = 0x2000_0100;
pub const TEST_MODE: u32 = 0x4003_0014;
pub const IDCODE: u32 = 0x0BB1_1477;
/// "Macro m's locks start at 0x0FFFF000 + m × 0x400."
pub const LOCKS: u32 = 0x0FFF_F000;
pub const LOCKS_STEP: u32 = 0x400;

pub const VIRGIN: u8 = 0;
pub const OPEN: u8 = 1;
pub const PROTECTED: u8 = 2;
pub const KILL: u8 = 4;

/// A line of the table.
#[derive(Clone, Copy, PartialEq, Eq, Debug)]
pub struct Part {
    pub number: u32,
    /// L.
    pub row_bytes: usize,
    pub rows_per_macro: usize,
    pub most_macros: u32,
    pub sysreq: u32,
    pub imo: bool,
    pub id_high: u8,
    pub id_family: u8,
    /// The word whose top byte holds the level: "0x0FFFF000 + 2L - 4 for part 1, + L - 4 otherwise".
    pub level_word: u32,
    /// Low ID bytes that don't fit: first and last ("0x00 to 0x7F or 0xA0 to 0xFF" fit part 2).
    pub low_gap: Option<(u8, u8)>,
}

pub static TABLE: [Part; 3] = [
    Part {
        number: 1,
        row_bytes: 64,
        rows_per_macro: 256,
        most_macros: 1,
        sysreq: 0x4010_0004,
        imo: true,
        id_high: 0x0A,
        id_family: 0x9A,
        level_word: LOCKS + 2 * 64 - 4,
        low_gap: None,
    },
    Part {
        number: 2,
        row_bytes: 128,
        rows_per_macro: 256,
        most_macros: 1,
        sysreq: 0x4000_0004,
        imo: false,
        id_high: 0x04,
        id_family: 0x93,
        level_word: LOCKS + 128 - 4,
        low_gap: Some((0x80, 0x9F)),
    },
    Part {
        number: 3,
        row_bytes: 128,
        rows_per_macro: 512,
        most_macros: 2,
        sysreq: 0x4010_0004,
        imo: false,
        id_high: 0x11,
        id_family: 0xA1,
        level_word: LOCKS + 128 - 4,
        low_gap: None,
    },
];

impl Part {
    pub fn low_fits(&self, low: u8) -> bool {
        match self.low_gap {
            Some((first, last)) => low < first || low > last,
            None => true,
        }
    }

    /// "SYSARG is SYSREQ + 4."
    pub fn sysarg(&self) -> u32 {
        self.sysreq + 4
    }
}

/// A part with its macros: every size of document 01.
#[derive(Clone, Copy, PartialEq, Eq, Debug)]
pub struct Sizes {
    pub part: &'static Part,
    /// M.
    pub macros: usize,
}

impl Sizes {
    /// None is refusal 11, "part or M".
    pub fn of(part: u32, macros: u32) -> Option<Sizes> {
        let part = TABLE.iter().find(|p| p.number == part)?;
        let fits = (1..=part.most_macros).contains(&macros);
        fits.then_some(Sizes { part, macros: macros as usize })
    }

    /// N = M × rows per macro.
    pub const fn rows(&self) -> usize {
        self.macros * self.part.rows_per_macro
    }

    /// L.
    pub const fn row_bytes(&self) -> usize {
        self.part.row_bytes
    }

    /// PB = rows per macro / 8.
    pub const fn lock_bytes(&self) -> usize {
        self.part.rows_per_macro / 8
    }

    /// N × L.
    pub const fn flash(&self) -> usize {
        self.rows() * self.row_bytes()
    }

    /// N / 8.
    pub const fn protection(&self) -> usize {
        self.rows() / 8
    }

    /// "The protection bytes (N / 8) follow the flash bytes (N × L) in it."
    pub const fn image(&self) -> usize {
        self.flash() + self.protection()
    }
}

/// The four sizes that exist: part 1, part 2, part 3 with one macro and with two.
pub const SIZES: [(u32, u32); 4] = [(1, 1), (2, 1), (3, 1), (3, 2)];

#[cfg(test)]
mod tests {
    use super::*;

    #[test]
    fn only_the_tables_parts() {
        for part in 0..10 {
            for macros in 0..10 {
                assert_eq!(Sizes::of(part, macros).is_some(), SIZES.contains(&(part, macros)));
            }
        }
        assert!(Sizes::of(1 << 8 | 1, 1).is_none() && Sizes::of(1, 1 << 8 | 1).is_none());
    }

    #[test]
    fn sizes() {
        let images: Vec<usize> = SIZES.iter().map(|&(p, m)| Sizes::of(p, m).unwrap().image()).collect();
        assert_eq!(images, [16384 + 32, 32768 + 32, 65536 + 64, 131072 + 128]);
    }

    /// Flash, locks, level word, registers and PARAMS never overlap.
    #[test]
    fn regions_do_not_overlap() {
        for (p, m) in SIZES {
            let s = Sizes::of(p, m).unwrap();
            let mut regions = vec![
                (0, s.flash() as u32),
                (s.part.level_word, 4),
                (s.part.sysreq, 4),
                (s.part.sysarg(), 4),
                (TEST_MODE, 4),
                (PARAMS, 8 + s.row_bytes() as u32),
            ];
            for m in 0..s.macros as u32 {
                regions.push((LOCKS + m * LOCKS_STEP, s.lock_bytes() as u32));
            }
            regions.sort();
            for pair in regions.windows(2) {
                assert!(pair[0].0 + pair[0].1 <= pair[1].0);
            }
        }
    }
}
