//! What tells one part from another.

use crate::image::Header;
use crate::parts::IDCODE;

/// "the IDs (IDCODE, high, low, revision, family) are free"
#[derive(Clone, Copy, PartialEq, Eq, Debug)]
pub struct Ids {
    pub idcode: u32,
    pub high: u8,
    pub low: u8,
    pub revision: u8,
    pub family: u8,
}

impl Ids {
    /// Those of the image.
    pub fn of(header: &Header) -> Ids {
        let m = &header.metadata;
        Ids { idcode: IDCODE, high: m[2], low: m[3], revision: m[4], family: m[5] }
    }

    /// "the right part is one that 16 and 20 let pass"
    pub fn right_for(&self, header: &Header) -> bool {
        let part = header.sizes().expect("a part of the table").part;
        self.idcode == IDCODE
            && self.high == header.id_high()
            && self.family == header.id_family()
            && part.low_fits(self.low)
    }
}
