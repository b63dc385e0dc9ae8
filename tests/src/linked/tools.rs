//! The texts of vectors/tools, by tools that nobody here wrote, through the C ABI.

use super::Linked;
use crate::cross::Core;
use crate::parts::{Sizes, SIZES};
use crate::{hex, image};
use std::fs;
use std::path::Path;

fn text(file: &str) -> Vec<u8> {
    let tools = Path::new(env!("CARGO_MANIFEST_DIR")).join("vectors/tools");
    fs::read(tools.join(file)).expect(file)
}

/// Reads a text with both cores, and gives what both gave.
fn read(part: u32, macros: u32, text: &[u8]) -> (u8, image::Header, Vec<u8>) {
    let bytes = Sizes::of(part, macros).expect("a part of the table").image();
    let (mut ours, mut theirs) = (vec![0xA5; bytes], vec![0xA5; bytes]);
    let expected = hex::read(part, macros, text, &mut ours);
    assert_eq!(Linked.read(part, macros, text, &mut theirs), expected);
    assert!(ours == theirs);
    (expected.0, expected.1, theirs)
}

/// Gives the number of texts read, and of those that the writer's text equals.
pub fn tools() -> (u64, u64) {
    let (mut texts, mut equal) = (0, 0);
    for (part, macros) in SIZES {
        for tool in ["srec_cat", "intelhex"] {
            let text = text(&format!("part{part}-m{macros}/{tool}-64-crlf.hex"));
            let (number, header, image) = read(part, macros, &text);
            assert_eq!(number, 0);
            let mut written = vec![0; text.len()];
            assert_eq!(Linked.write(&header, &image, &mut written), (0, text.len()));
            assert!(written == text);
            (texts, equal) = (texts + 1, equal + 1);
        }
    }
    let (_, header, image) = read(1, 1, &text("part1-m1/srec_cat-64-crlf.hex"));
    for tool in ["srec_cat", "intelhex", "objcopy"] {
        assert!(read(1, 1, &text(&format!("part1-m1/{tool}-default.hex"))) == (0, header, image.clone()));
        // A start address is a record of type 3 or 5.
        assert_eq!(read(1, 1, &text(&format!("part1-m1/{tool}-start.hex"))).0, 3);
        texts += 2;
    }
    // Past 64 KiB objcopy writes records of type 2.
    assert_eq!(read(3, 2, &text("part3-m2/objcopy-default.hex")).0, 3);
    (texts + 1, equal)
}
