//! 3 to 5: types, what is due, the end.

use super::Maker;
use crate::hex::{DATA, END_TYPE, UPPER};
use crate::texts::{self, lines, plain, short, with_sum, Line};

impl Maker<'_> {
    /// 3: "type, or its length or address", before 4 and 5.
    pub(super) fn types(&mut self) {
        for kind in [2, 3, 5, 6, 7, 8, 9, 0x10, 0x11, 0x14, 0x40, 0x80, 0x81, 0x84, 0xFF] {
            self.one(&format!("type {kind}"), 3, with_sum(&[0, 0, 0, kind]) + "\n");
            self.one(&format!("type {kind}, two bytes"), 3, with_sum(&[2, 0, 0, kind, 0, 0]) + "\n");
        }
        self.one("type 2 as objcopy writes it", 3, ":020000021000EC\n");
        self.one("type 3, start address", 3, ":0400000300000101F7\n");
        self.one("type 5, start address", 3, ":0400000500000101F5\n");
        self.one("data without bytes", 3, with_sum(&[0, 0, 0, DATA]) + "\n");
        self.after_head("data without bytes where due", 3, &with_sum(&[0, 0, 32, DATA]));
        self.after_head("data without bytes elsewhere", 3, &with_sum(&[0, 0x12, 0x34, DATA]));
        for count in [0u8, 1, 3, 4, 255] {
            let mut bytes = vec![count, 0, 0, UPPER];
            bytes.resize(4 + usize::from(count), 0);
            self.one(&format!("type 4 with {count} bytes"), 3, with_sum(&bytes) + "\n");
        }
        for (high, low) in [(0, 1), (1, 0), (0xFF, 0xFF)] {
            self.one(&format!("type 4 at {high} {low}"), 3, with_sum(&[2, high, low, UPPER, 0, 0]) + "\n");
            self.one(&format!("type 1 at {high} {low}"), 3, with_sum(&[0, high, low, END_TYPE]) + "\n");
        }
        self.one("type 1 with a byte", 3, with_sum(&[1, 0, 0, END_TYPE, 0]) + "\n");
    }

    /// 4: "data not the next due, or crossing".
    pub(super) fn not_due(&mut self) {
        let head = self.head();
        let data = |address: u16, count: usize| Line::new(address, DATA, &vec![0x5A; count]);
        let wrong = [
            ("first byte left out", vec![data(1, 16)]),
            ("first data in half 1", vec![Line::upper(1), data(0, 16)]),
            ("first data in half 0x9030", vec![Line::upper(0x9030), data(0, 2)]),
            ("a gap of one", vec![head[1].clone(), data(17, 15)]),
            ("one byte twice", vec![head[1].clone(), data(15, 16)]),
            ("a record twice", vec![head[1].clone(), head[1].clone()]),
            ("backwards", vec![head[2].clone(), head[1].clone()]),
            ("the right place in half 1", vec![head[1].clone(), Line::upper(1), data(16, 16)]),
            ("the sum before flash is full", vec![head[1].clone(), Line::upper(0x9030), data(0, 2)]),
            ("across the line at the first record", vec![data(0xFFFF, 2)]),
        ];
        for (name, made) in wrong {
            self.one(name, 4, plain(&made));
        }
        let name = "back in half 0 after needless halves";
        let (first, second) = (head[1].clone(), head[2].clone());
        self.one(name, 5, plain(&[first, Line::upper(1), Line::upper(0), second]));
        self.crossing();
        self.wrong_sections();
    }

    fn crossing(&mut self) {
        // Flash of part 1 ends at 16,384: 64 records of 255 end at 16,320.
        let sections = self.sections();
        let made = short(&sections);
        let mut over = made[..64].to_vec();
        over.push(Line::new(16_320, DATA, &[0x5A; 65]));
        self.one("across the end of flash", 4, plain(&over));
        let mut past = made[..65].to_vec();
        past.push(Line::new(16_384, DATA, &[0x5A; 1]));
        self.one("past the end of flash", 4, plain(&past));
        let mut over = made[..66].to_vec();
        over.push(Line::new(0, DATA, &[0x5A; 3]));
        self.one("across the end of the sum", 4, plain(&over));
        let mut over = made[..68].to_vec();
        over.push(Line::new(0, DATA, &[0x5A; 33]));
        self.one("across the end of protection", 4, plain(&over));
        let mut over = made[..70].to_vec();
        over.push(Line::new(0, DATA, &[0x5A; 13]));
        self.one("across the end of metadata", 4, plain(&over));
        let mut over = made[..72].to_vec();
        over.push(Line::new(0, DATA, &[1, 1]));
        self.one("across the end of the level", 4, plain(&over));
        // A 64 KiB line inside a section: only part 3 with two macros has one.
        let (header, image) = self.image(3, 2);
        let made = lines(&texts::sections(&header, &image), || 240, || 0);
        let at = made.iter().position(|line| usize::from(line.address) + 240 > 0x1_0000).unwrap();
        let mut over = made[..at].to_vec();
        let past = 0x1_0001 - usize::from(made[at].address);
        over.push(Line::new(made[at].address, DATA, &vec![0x5A; past]));
        self.add("across the 64 KiB line by a byte", 3, 2, 4, plain(&over));
    }

    fn wrong_sections(&mut self) {
        let made = short(&self.sections());
        let mut late = made[..made.len() - 1].to_vec();
        late.push(Line::new(1, DATA, &[1]));
        late.push(Line::end());
        self.one("data after the last section", 4, plain(&late));
        let mut twice = made[..made.len() - 1].to_vec();
        twice.push(Line::new(0, DATA, &[1]));
        twice.push(Line::end());
        self.one("the level twice", 4, plain(&twice));
        let mut left_out = made.clone();
        left_out.drain(67..69);
        self.one("protection left out", 4, plain(&left_out));
        let mut swapped = made.clone();
        swapped[69..73].rotate_left(2);
        self.one("level before metadata", 4, plain(&swapped));
        let text = plain(&made);
        self.add("part 1's text as part 2", 2, 1, 4, text);
        let (header, image) = self.image(2, 1);
        let text = plain(&short(&texts::sections(&header, &image))[..70]);
        self.one("part 2's text as part 1", 4, text);
        let (header, image) = self.image(3, 1);
        let text = plain(&short(&texts::sections(&header, &image)));
        self.add("M 1's text as M 2", 3, 2, 4, text);
    }

    /// 5: "end record missing, early or followed".
    pub(super) fn ends(&mut self) {
        self.one("empty text", 5, "");
        self.one("end record first", 5, ":00000001FF\n");
        self.one("end record first, CR LF", 5, ":00000001FF\r\n");
        self.one("type 4 alone", 5, ":020000040000FA\n");
        let mut early = self.head();
        early.push(Line::end());
        self.one("end in flash", 5, plain(&early));
        let mut made = short(&self.sections());
        let text = plain(&made);
        made.truncate(made.len() - 2);
        let mut early = made.clone();
        early.push(Line::end());
        self.one("end before the level", 5, plain(&early));
        self.one("end missing before the level", 5, plain(&made));
        self.one("end missing", 5, &text[..text.len() - 12]);
        let tails = [
            ("LF", "\n"),
            ("CR", "\r"),
            ("a space", " "),
            ("an end record", ":00000001FF\n"),
            ("a type 4 record", ":020000040000FA\n"),
        ];
        for (name, tail) in tails {
            let mut followed = text.clone();
            followed.extend_from_slice(tail.as_bytes());
            self.one(&format!("end followed by {name}"), 5, followed);
        }
        self.one("early end followed by a wrong line", 5, ":00000001FF\n:0\n");
    }
}
