//! Texts that are taken, and texts by other tools.

use super::Maker;
use crate::hex::UPPER;
use crate::rng::Rng;
use crate::texts::{self, lines, plain, short, Choice, Line};

impl Maker<'_> {
    pub(super) fn shapes(&mut self) {
        use Choice::{Either, First, Second};
        let forms = [
            ("as written", 64, First, First, 0),
            ("64 bytes, small letters, LF", 64, Second, Second, 0),
            ("mixed letters and line ends", 32, Either, Either, 0),
            ("16 bytes, LF", 16, First, Second, 0),
            ("255 bytes, small letters", 255, Second, First, 0),
            ("127 bytes, needless type 4 records", 127, Either, Either, 3),
        ];
        for (name, count, small, lf, needless) in forms {
            let sections = self.sections();
            let mut rng = Rng(self.rng.draw());
            let mut first = name == "as written";
            let made = lines(
                &sections,
                || count,
                || {
                    usize::from(std::mem::take(&mut first))
                        + usize::from(needless > 0 && rng.chance(needless))
                },
            );
            let text = texts::text(&mut self.rng, &made, small, lf);
            self.one(name, 0, text);
        }
        self.uneven_shapes();
        self.many_lengths();
        self.end_shapes();
        self.large_shapes();
    }

    fn uneven_shapes(&mut self) {
        // 900 single bytes, then 255 a record.
        let sections = self.sections();
        let mut placed = 0;
        let made = lines(
            &sections,
            || {
                if {
                    placed += 1;
                    placed
                } <= 900
                {
                    1
                } else {
                    255
                }
            },
            || 0,
        );
        self.one("single bytes", 0, plain(&made));
        // The small sections byte by byte.
        let sections = self.sections();
        let mut made = lines(&sections, || 255, || 0);
        let at = made.iter().position(|line| line.kind == UPPER).unwrap();
        let singles = lines(&sections, || 1, || 1);
        let from = singles.iter().position(|line| line.data == [0x90, 0x30]).unwrap();
        made.splice(at.., singles[from..].to_vec());
        self.one("small sections byte by byte", 0, plain(&made));
    }

    fn many_lengths(&mut self) {
        // Random lengths from 1 to 255, with any number of type 4 records between.
        let sections = self.sections();
        let (mut a, mut b) = (Rng(self.rng.draw()), Rng(self.rng.draw()));
        let made = lines(&sections, || 1 + a.below(255), || b.below(9) / 7);
        let text = texts::text(&mut self.rng, &made, Choice::Either, Choice::Either);
        self.one("random lengths", 0, text);
        // Every length from 1 to 255 in turn.
        let (header, image) = self.image(2, 1);
        let mut count = 0;
        let made = lines(
            &texts::sections(&header, &image),
            || {
                count += 1;
                count
            },
            || 0,
        );
        self.add("lengths 1 to 255 in turn", 2, 1, 0, plain(&made));
    }

    /// Type 4 records are free, also of halves that nobody uses and after the last section.
    fn end_shapes(&mut self) {
        let sections = self.sections();
        let mut made = short(&sections);
        made.insert(0, Line::upper(0x0001));
        made.insert(1, Line::upper(0xFFFF));
        made.insert(2, Line::upper(0));
        let end = made.pop().unwrap();
        made.extend([Line::upper(0x9060), Line::upper(0), Line::upper(0x1234), end]);
        self.one("type 4 of unused halves and after the last section", 0, plain(&made));
        let sections = self.sections();
        let text = plain(&short(&sections));
        let mut text = text[..text.len() - 12].to_vec();
        text.extend_from_slice(b":00000001ff\r\n");
        self.one("end record in small letters", 0, text);
    }

    fn large_shapes(&mut self) {
        for (low, number) in [(0x7F, 0), (0xA0, 0), (0x80, 7), (0x9F, 7)] {
            let (mut header, image) = self.image(2, 1);
            header.metadata[3] = low;
            let text = plain(&short(&texts::sections(&header, &image)));
            self.add(&format!("part 2, low byte {low:#04X}"), 2, 1, number, text);
        }
        let (header, image) = self.image(3, 1);
        self.add("part 3, M 1", 3, 1, 0, plain(&short(&texts::sections(&header, &image))));
        let (header, image) = self.image(3, 2);
        self.add("part 3, M 2", 3, 2, 0, plain(&short(&texts::sections(&header, &image))));
    }

    pub(super) fn tools(&mut self) {
        let files = [
            ("srec_cat-64-crlf", 0),
            ("srec_cat-default", 0),
            ("intelhex-default", 0),
            ("objcopy-default", 0),
            ("srec_cat-start", 3),
            ("objcopy-start", 3),
        ];
        for (file, number) in files {
            let text = (self.tool)(&format!("part1-m1/{file}.hex"));
            self.one(&format!("tool {file}"), number, text);
        }
    }
}
