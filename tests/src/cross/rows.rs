//! Images of one filled row: its first byte that isn't zero at every place of the row, and its words made to
//! add to 0 or not. What is due is known from how the row was made.

use super::{Core, Counts};
use crate::image::header_for;
use crate::parts::{Sizes, OPEN, SIZES};
use crate::session::{self, Outcome};

/// Starts on the image with both cores, which must give the same; counts by the number, which must be this one.
fn due<C: Core>(core: &C, sizes: &Sizes, image: &[u8], expected: u8, counts: &mut Counts) {
    let header = header_for(sizes.part.number, sizes.macros as u32, 0, 0, OPEN, image);
    let outcome = session::start(&header, image, false).1;
    assert_eq!(core.start(&header, image, false).1, outcome);
    let number = if let Outcome::Refused(number) = outcome { number } else { 0 };
    assert_eq!(number, expected);
    *counts.entry(number).or_default() += 1;
}

/// Gives how often 0 (the row is taken) and 10 came.
pub fn rows<C: Core>(core: &C) -> Counts {
    let mut counts = Counts::new();
    for (part, macros) in SIZES {
        let sizes = Sizes::of(part, macros).expect("a part of the table");
        let length = sizes.row_bytes();
        let mut image = vec![0; sizes.image()];
        due(core, &sizes, &image, 0, &mut counts);
        for start in [0, sizes.flash() - length] {
            for place in 0..length {
                let byte = 1 + place as u8;
                let last = start + length - 4;
                let opposite = (u32::from(byte) << (8 * (place % 4))).wrapping_neg();
                image[start + place] = byte;
                due(core, &sizes, &image, 0, &mut counts);
                // A word alone never adds to 0, so a place in the last word has no such row.
                if place < length - 4 {
                    image[last..last + 4].copy_from_slice(&opposite.to_le_bytes());
                    due(core, &sizes, &image, 10, &mut counts);
                    image[last..last + 4].copy_from_slice(&opposite.wrapping_sub(1).to_le_bytes());
                    due(core, &sizes, &image, 0, &mut counts);
                }
                image[start..start + length].fill(0);
            }
        }
    }
    counts
}
