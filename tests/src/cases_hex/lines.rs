//! 1 and 2: lines and their sums.

use super::Maker;
use crate::hex::{DATA, UPPER};
use crate::texts::{plain, short, with_sum, Line};

/// Texts whose first line has no right form.
const NO_LINES: [&str; 32] = [
    "\n",
    "\r\n",
    "\r",
    " ",
    " \n",
    ":\n",
    ":",
    ":0",
    ":00\n",
    ":0000\n",
    ":000000\n",
    ":00000001\n",
    ":00000000\n",
    ":0000000\n",
    ":00000001F\n",
    ":00000001FFF\n",
    ":00000001FF00\n",
    ":00000001FF",
    ":00000001FF\r",
    ":00000001FF\r\r\n",
    ":00000001FF \n",
    " :00000001FF\n",
    ":00 000001FF\n",
    ":00000001F\nF\n",
    "::00000001FF\n",
    ";00000001FF\n",
    "00000001FF\n",
    ":00000001FF\0\n",
    "\0",
    "S9030000FC\n",
    "\u{FEFF}:020000040000FA\n",
    ":01000000\n",
];

impl Maker<'_> {
    /// 1: "line form, or a byte count that isn't the line's".
    pub(super) fn line_forms(&mut self) {
        let upper = Line::upper(0).text();
        for text in NO_LINES {
            self.one(&format!("form {text:?}"), 1, text);
        }
        // Every byte that isn't a digit but stands beside one, or is one with the top bit set.
        for place in [1, 2, 8, 13, 14] {
            for byte in [b'/', b':', b'@', b'G', b'`', b'g', b'-', b'x', b'\t', 0, 0x7F, 0xB0, 0xC1, 0xFF] {
                let mut text = upper.clone().into_bytes();
                text[place] = byte;
                text.push(b'\n');
                self.one(&format!("byte {byte:#04X} at {place}"), 1, text);
            }
        }
        self.cut_lines();
        self.counts();
    }

    fn cut_lines(&mut self) {
        let head = self.head();
        let text = plain(&head);
        // Every cut of the last line; where a line is whole the end record is missing.
        let start = text.len() - head[2].text().len() - 1;
        for cut in start..=text.len() {
            let number = if cut == start || cut == text.len() { 5 } else { 1 };
            self.one(&format!("cut at {cut}"), number, &text[..cut]);
        }
        for (name, between) in
            [("LF", "\n"), ("CR LF", "\r\n"), ("CR", "\r"), ("space", " "), ("comment", "# a\n")]
        {
            let mut text = plain(&head);
            text.extend_from_slice(between.as_bytes());
            text.extend_from_slice(plain(&[Line::upper(0), Line::end()]).as_slice());
            self.one(&format!("{name} between lines"), 1, text);
        }
        let sections = self.sections();
        let text = plain(&short(&sections));
        self.one("whole text, no line end after the end record", 1, &text[..text.len() - 1]);
        let mut long = b":".to_vec();
        long.resize(3_000, b'0');
        self.one("3,000 digits without a line end", 1, &long);
        long.truncate(601);
        long.push(b'\n');
        self.one("a line of 300 pairs", 1, &long);
    }

    /// Counts that aren't the line's, with sums right and wrong: 1 comes before 2.
    fn counts(&mut self) {
        for count in [0u8, 1, 3, 0x12, 0x82, 0xFF] {
            self.one(&format!("count {count} of 2"), 1, with_sum(&[count, 0, 0, UPPER, 0, 0]) + "\n");
        }
        self.one("count and sum wrong", 1, ":030000040000FA\n");
        self.one("odd digits and sum wrong", 1, ":020000040000F\n");
        let mut bytes = vec![255, 0, 0, DATA];
        bytes.resize(259, 0x33);
        self.one("255 data bytes", 5, with_sum(&bytes) + "\n");
        bytes.push(0);
        self.one("255 said, 256 given", 1, with_sum(&bytes) + "\n");
        bytes.truncate(258);
        self.one("255 said, 254 given", 1, with_sum(&bytes) + "\n");
        bytes[0] = 0;
        bytes.resize(260, 0);
        self.one("256 given, 0 said", 1, with_sum(&bytes) + "\n");
        self.after_head("form before sum, type and due", 1, ":0100010702");
    }

    /// 2, before 3, 4 and 5.
    pub(super) fn sums(&mut self) {
        self.one("sum of type 4", 2, ":020000040000FB\n");
        self.one("sum of the end record", 2, ":00000001FE\n");
        self.one("sum 0 of the end record", 2, ":0000000100\n");
        self.one("sum before type", 2, ":00000002FF\n");
        self.after_head("sum before due", 2, ":0100010000FF");
        self.after_head("sum before an early end", 2, ":0000000100");
        let head = self.head();
        for bit in 0..8 {
            let mut text = plain(&head[..2]);
            let mut line = head[2].clone();
            line.data[bit] ^= 1 << bit;
            let wrong = line.text();
            text.extend_from_slice(&wrong.as_bytes()[..wrong.len() - 2]);
            let right = head[2].text();
            text.extend_from_slice(&right.as_bytes()[right.len() - 2..]);
            text.extend_from_slice(b"\n");
            self.one(&format!("data bit {bit} turned, sum kept"), 2, text);
        }
        let mut made = short(&self.sections());
        made.pop();
        let mut text = plain(&made);
        text.extend_from_slice(b":00000001FE\n");
        self.one("sum of the last line", 2, text);
    }
}
