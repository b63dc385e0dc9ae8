//! The cases of hex text for the program crate `cases_hex`: every shape that is taken, every way
//! to earn a number. vectors/README.md says how they are framed.

mod contents;
mod lines;
mod records;
mod shapes;

use crate::fnv::fnv;
use crate::hex;
use crate::image::Header;
use crate::rng::Rng;
use crate::texts::{self, lines, plain, Line};

/// The buffer of every case, filled with `FILL` before the call.
pub const BUFFER: usize = 139_264;
pub const FILL: u8 = 0xA5;

pub struct Case {
    pub name: String,
    pub part: u32,
    pub macros: u32,
    /// Bytes of the buffer that are lent.
    pub room: usize,
    pub text: Vec<u8>,
    /// The number that the case was made for; None where the reader alone says.
    pub number: Option<u8>,
}

/// "part macros room length", LF, the text, LF, for each case.
pub fn stdin(cases: &[Case]) -> Vec<u8> {
    let mut bytes = Vec::new();
    for case in cases {
        let head = format!("{} {} {} {}\n", case.part, case.macros, case.room, case.text.len());
        bytes.extend_from_slice(head.as_bytes());
        bytes.extend_from_slice(&case.text);
        bytes.push(b'\n');
    }
    bytes
}

/// The line that the case's reading gives.
pub fn outcome(case: &Case) -> String {
    let mut buffer = vec![FILL; BUFFER];
    let (number, header) = hex::read(case.part, case.macros, &case.text, &mut buffer[..case.room]);
    if let Some(expected) = case.number {
        assert_eq!(number, expected, "{}", case.name);
    }
    let line = format!("{number} {:016x}", fnv(&buffer));
    if number != 0 {
        assert_eq!(header, Header::ZERO);
        return line;
    }
    let metadata: String = header.metadata.iter().map(|b| format!("{b:02x}")).collect();
    let Header { part, macros, sum, level, .. } = header;
    format!("{line} {part} {macros} {sum} {metadata} {level}")
}

struct Maker<'a> {
    cases: Vec<Case>,
    rng: Rng,
    tool: &'a dyn Fn(&str) -> Vec<u8>,
}

/// All cases; `tool` gives a text of vectors/tools by its path there.
pub fn cases(tool: &dyn Fn(&str) -> Vec<u8>) -> Vec<Case> {
    let mut maker = Maker { cases: Vec::new(), rng: Rng(2026), tool };
    maker.shapes();
    maker.tools();
    maker.line_forms();
    maker.sums();
    maker.types();
    maker.not_due();
    maker.ends();
    maker.contents();
    maker.host();
    maker.damage();
    maker.whole_fields();
    maker.cases
}

impl Maker<'_> {
    fn add(&mut self, name: &str, part: u32, macros: u32, number: u8, text: Vec<u8>) {
        let (name, number) = (name.to_string(), Some(number));
        self.cases.push(Case { name, part, macros, room: BUFFER, text, number });
    }

    /// A text for part 1.
    fn one(&mut self, name: &str, number: u8, text: impl AsRef<[u8]>) {
        self.add(name, 1, 1, number, text.as_ref().to_vec());
    }

    fn image(&mut self, part: u32, macros: u32) -> (Header, Vec<u8>) {
        texts::sample_image(&mut self.rng, part, macros)
    }

    /// The sections of a fresh image of part 1.
    fn sections(&mut self) -> [Vec<u8>; 5] {
        let (header, image) = self.image(1, 1);
        texts::sections(&header, &image)
    }

    /// The first records of a text for part 1, without an end: 1 type 4 record and 2 of data.
    fn head(&mut self) -> Vec<Line> {
        let sections = self.sections();
        let mut first = true;
        lines(&sections, || 16, || std::mem::take(&mut first) as usize)[..3].to_vec()
    }

    /// The head's text followed by this line and LF, then an early end.
    fn after_head(&mut self, name: &str, number: u8, line: &str) {
        let mut text = plain(&self.head());
        text.extend_from_slice(line.as_bytes());
        text.extend_from_slice(b"\n:00000001FF\n");
        self.one(name, number, text);
    }
}
