//! The cases of the dry run for the program crate `cases_dry`: texts that are done, refused or cut
//! at 64 KiB. vectors/README.md says how they are framed.

use crate::board::Board;
use crate::hex;
use crate::image::{header_for, Header};
use crate::parts::OPEN;
use crate::play::{play, RandomLists};
use crate::rng::Rng;
use crate::texts::{self, Choice, Line};

/// "up to 64 KiB (a longer one is cut there)"
pub const MOST: usize = 65_536;
const IMAGE: usize = 16_416;

pub struct Case {
    pub name: String,
    pub text: Vec<u8>,
    /// The line that the case was made for.
    pub line: &'static str,
}

/// "length", LF, the text, LF, for each case.
pub fn stdin(cases: &[Case]) -> Vec<u8> {
    let mut bytes = Vec::new();
    for case in cases {
        bytes.extend_from_slice(format!("{}\n", case.text.len()).as_bytes());
        bytes.extend_from_slice(&case.text);
        bytes.push(b'\n');
    }
    bytes
}

/// "prints one line: done, a space, transfers, LF (or refused, a space, the number, LF)"
pub fn outcome(case: &Case) -> String {
    let mut image = vec![0; IMAGE];
    let text = &case.text[..case.text.len().min(MOST)];
    let (number, header) = hex::read(1, 1, text, &mut image);
    let line = match number {
        0 => {
            let board = Board::blank(&header, OPEN);
            let report = play(&header, &image, &board, &RandomLists::calm(1)).report;
            assert_eq!(report.number, 0, "{}", case.name);
            format!("done {}", report.transfers)
        }
        number => format!("refused {number}"),
    };
    assert_eq!(line, case.line, "{}", case.name);
    line
}

/// All-zero flash, sum 0, no locks, ID 0A 0A 0A 9A, level 1.
pub fn blank() -> Vec<u8> {
    let image = vec![0; IMAGE];
    written(&header_for(1, 1, 0x0A, 0x0A, OPEN, &image), &image)
}

fn written(header: &Header, image: &[u8]) -> Vec<u8> {
    let mut text = vec![0; hex::text_length(&header.sizes().unwrap())];
    assert_eq!(hex::write(header, image, &mut text), (0, text.len()));
    text
}

fn sectioned(header: &Header, image: &[u8], bytes: usize) -> Vec<Line> {
    texts::lines(&texts::sections(header, image), || bytes, || 0)
}

fn with_level(level: u8, image: &[u8]) -> Header {
    header_for(1, 1, 0x37, 0x11, level, image)
}

const DONE: &str = "done 27279";

fn done(cases: &mut Vec<Case>, full: &[u8]) {
    let mut add = |name: &str, text: Vec<u8>| cases.push(Case { name: name.to_string(), text, line: DONE });
    add("the blank image", blank());
    for level in [1, 2, 4] {
        add(&format!("a full image, level {level}"), written(&with_level(level, full), full));
    }
    let ones = vec![0xFF; IMAGE];
    add("all bytes 0xFF", written(&with_level(1, &ones), &ones));
    let lines = sectioned(&with_level(2, full), full, 255);
    add("small letters, LF", texts::text(&mut Rng(1), &lines, Choice::Second, Choice::Second));
}

/// A text of so many bytes: a record less, or more, is 12 characters; a CR tunes the rest.
fn tuned(header: &Header, image: &[u8], length: usize) -> Vec<u8> {
    let bytes = |lines: &[Line]| texts::plain(lines).len();
    let mut singles = 0;
    let of = |singles: usize| {
        let mut made = 0;
        let length = || {
            made += 1;
            if made <= singles {
                1
            } else {
                8
            }
        };
        texts::lines(&texts::sections(header, image), length, || 0)
    };
    while bytes(&of(singles + 1)) <= length {
        singles += 1;
    }
    let lines = of(singles);
    let spare = length - bytes(&lines);
    let mut text = texts::text(&mut Rng(0), &lines[..spare], Choice::First, Choice::First);
    text.extend(texts::plain(&lines[spare..]));
    assert_eq!(text.len(), length);
    text
}

fn cut(cases: &mut Vec<Case>, full: &[u8]) {
    let header = with_level(1, full);
    let singles = sectioned(&header, full, 1);
    let mut add = |name: &str, text: Vec<u8>, line| cases.push(Case { name: name.to_string(), text, line });
    add("cut inside a line", texts::text(&mut Rng(0), &singles, Choice::First, Choice::First), "refused 1");
    let mut lines = vec![Line::upper(0)];
    lines.extend(singles);
    let text = texts::plain(&lines);
    assert_eq!(text[MOST - 1], b'\n');
    add("cut behind a line", text, "refused 5");
    let text = tuned(&header, full, MOST);
    add("64 KiB", text.clone(), DONE);
    let longer = [&text[..], b"."].concat();
    add("64 KiB and a byte that is not read", longer, DONE);
    add("a line feed past 64 KiB", tuned(&header, full, MOST + 1), "refused 1");
}

fn refused(cases: &mut Vec<Case>, full: &[u8]) {
    let header = with_level(1, full);
    let mut add = |name: &str, text: Vec<u8>, line| cases.push(Case { name: name.to_string(), text, line });
    add("an empty text", Vec::new(), "refused 5");
    let text = written(&header, full);
    let spoilt = |at: usize, byte: u8| {
        let mut text = text.clone();
        text[at] = byte;
        text
    };
    add("no colon", spoilt(0, b';'), "refused 1");
    add("a record's sum", spoilt(14, b'B'), "refused 2");
    add("a record of type 5", texts::plain(&[Line::new(0, 5, &[0; 4])]), "refused 3");
    add("data ahead", texts::plain(&[Line::new(1, 0, &[0])]), "refused 4");
    add("no end record", text[..text.len() - 13].to_vec(), "refused 5");
    add("a byte after the end", [&text[..], b"\n"].concat(), "refused 5");
    let mut other = |name: &str, line, alter: &dyn Fn(&mut Header, &mut [u8])| {
        let (mut header, mut image) = (header.clone(), full.to_vec());
        alter(&mut header, &mut image);
        add(name, texts::plain(&sectioned(&header, &image, 255)), line);
    };
    other("version 3", "refused 6", &|header, _| header.metadata[1] = 3);
    other("another part's ID", "refused 7", &|header, _| header.metadata[2] = 4);
    other("level VIRGIN", "refused 8", &|header, _| header.level = 0);
    other("another sum", "refused 9", &|header, _| header.sum ^= 1);
    other("a row that adds to 0", "refused 10", &|header, image| {
        image[..64].fill(0);
        (image[3], image[63]) = (128, 128);
        header.sum = crate::image::flash_sum(&image[..16_384]);
    });
}

pub fn cases() -> Vec<Case> {
    let (_, full) = texts::sample_image(&mut Rng(11), 1, 1);
    let mut cases = Vec::new();
    done(&mut cases, &full);
    cut(&mut cases, &full);
    refused(&mut cases, &full);
    cases
}
