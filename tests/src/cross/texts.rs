//! Damaged and random texts, read and written by both cores.

use super::{Core, Counts};
use crate::hex;
use crate::image::{flash_sum, Header};
use crate::parts::{Sizes, SIZES};
use crate::rng::Rng;
use crate::session::{self, Outcome};
use crate::texts::{self, sample_image, Choice};

/// Bytes lent beyond the image, to see that they stay.
const SPARE: usize = 40;

/// How often each number came.
#[derive(Clone, Default, Debug)]
pub struct TextTally {
    pub read: Counts,
    pub written: Counts,
    pub started: Counts,
}

impl TextTally {
    pub fn add(&mut self, other: &TextTally) {
        let pairs = [
            (&mut self.read, &other.read),
            (&mut self.written, &other.written),
            (&mut self.started, &other.started),
        ];
        for (to, from) in pairs {
            from.iter().for_each(|(&number, count)| *to.entry(number).or_default() += count);
        }
    }
}

/// Reads `rounds` texts with both cores: numbers, headers and every byte of the buffer must agree.
/// Some images, taken or not, are written and started by both.
pub fn texts(core: &impl Core, seed: u64, rounds: usize) -> TextTally {
    let mut rng = Rng(seed);
    let mut tally = TextTally::default();
    let mut base = (0, 0, Vec::new());
    let (mut ours, mut theirs) = (Vec::new(), Vec::new());
    for round in 0..rounds {
        if round % 50 == 0 {
            base = base_text(&mut rng);
        }
        let (mut part, mut macros, text) = (base.0, base.1, damaged(&mut rng, &base.2));
        let mut room = Sizes::of(part, macros).unwrap().image() + SPARE;
        if rng.chance(50) {
            (part, macros) = (rng.below(5) as u32, rng.below(4) as u32);
        }
        if rng.chance(50) {
            room = rng.below(room);
        }
        let fill = rng.byte();
        for buffer in [&mut ours, &mut theirs] {
            buffer.clear();
            buffer.resize(room, fill);
        }
        let expected = hex::read(part, macros, &text, &mut ours);
        let got = core.read(part, macros, &text, &mut theirs);
        assert_eq!(got, expected, "round {round}");
        assert!(ours == theirs, "buffers differ, round {round}, number {}", expected.0);
        *tally.read.entry(expected.0).or_default() += 1;
        if round % 50 == 0 || expected.0 == 0 && rng.chance(5) {
            let sizes = Sizes::of(base.0, base.1).unwrap();
            let image = &ours[..room.min(sizes.image())];
            written(core, &mut rng, &sizes, &expected.1, image, &mut tally);
        }
    }
    tally
}

/// The text, or a random one, with some damage.
fn damaged(rng: &mut Rng, text: &[u8]) -> Vec<u8> {
    let mut text = if rng.chance(5) { random_text(rng, text) } else { text.to_vec() };
    for _ in 0..rng.below(3) {
        damage(rng, &mut text);
    }
    text
}

/// Both writers on this header and image, at times with a field changed or too little room, and starting.
fn written(
    core: &impl Core,
    rng: &mut Rng,
    sizes: &Sizes,
    header: &Header,
    image: &[u8],
    tally: &mut TextTally,
) {
    let (mut header, mut image) = (*header, image.to_vec());
    match rng.below(12) {
        0 => header.part = rng.below(5) as u32,
        1 => header.macros = rng.below(4) as u32,
        2 => header.sum ^= 1 << rng.below(16),
        3 => header.level = rng.byte(),
        4 => header.metadata[rng.below(6)] ^= 1 << rng.below(8),
        5 => drop(image.pop()),
        6 if !image.is_empty() => {
            let at = rng.below(image.len());
            image[at] = rng.byte();
        }
        7 if image.len() == sizes.image() => {
            lose_row(&mut image[..sizes.row_bytes()]);
            header.sum = flash_sum(&image[..sizes.flash()]);
        }
        _ => {}
    }
    let room = hex::text_length(sizes) + rng.below(4) - usize::from(rng.chance(8));
    let (mut ours, mut theirs) = (vec![7; room], vec![7; room]);
    let expected = hex::write(&header, &image, &mut ours);
    assert_eq!(core.write(&header, &image, &mut theirs), expected);
    assert!(ours == theirs, "texts differ, number {}", expected.0);
    *tally.written.entry(expected.0).or_default() += 1;
    // Starting checks the same, then 15.
    let leave = rng.bit();
    let expected = session::start(&header, &image, leave).1;
    assert_eq!(core.start(&header, &image, leave).1, expected);
    let number = if let Outcome::Refused(number) = expected { number } else { 0 };
    *tally.started.entry(number).or_default() += 1;
}

/// Makes the row one that 10 refuses.
fn lose_row(row: &mut [u8]) {
    row.fill(0);
    (row[3], row[row.len() - 1]) = (128, 128);
}

/// A text that is taken, or one with a fault in its contents that 6 to 10 see.
fn base_text(rng: &mut Rng) -> (u32, u32, Vec<u8>) {
    let (part, macros) = SIZES[[0, 0, 0, 0, 0, 1, 2, 3][rng.below(8)]];
    let (header, image) = sample_image(rng, part, macros);
    let mut sections = texts::sections(&header, &image);
    match rng.below(8) {
        0 => sections[3][rng.below(6)] ^= 1 << rng.below(8),
        1 => sections[4][0] = rng.byte(),
        2 => sections[1][rng.below(2)] ^= 1 << rng.below(8),
        3 => {
            let (row, length) =
                (rng.below(header.sizes().unwrap().rows()), header.sizes().unwrap().row_bytes());
            lose_row(&mut sections[0][row * length..][..length]);
            sections[1] = flash_sum(&sections[0]).to_be_bytes().to_vec();
        }
        _ => {}
    }
    let (mut a, mut b) = (Rng(rng.draw()), Rng(rng.draw()));
    let (most, fixed) = (*rng.pick(&[16, 32, 64, 255]), rng.bit());
    let needless = if rng.bit() { 0 } else { 3 };
    let lines = texts::lines(
        &sections,
        || if fixed { most } else { 1 + a.below(most) },
        || b.below(40) / 38 * needless,
    );
    let choices = [Choice::First, Choice::Second, Choice::Either];
    let (small, lf) = (*rng.pick(&choices), *rng.pick(&choices));
    let text = texts::text(rng, &lines, small, lf);
    (part, macros, text)
}

/// A text that nobody meant: any bytes, the alphabet's characters, or whole records of any kind, at
/// times after the first lines of a good text.
fn random_text(rng: &mut Rng, good: &[u8]) -> Vec<u8> {
    let lines = good.split_inclusive(|&b| b == b'\n').take(rng.below(4));
    let mut text: Vec<u8> = if rng.bit() { lines.flatten().copied().collect() } else { vec![] };
    match rng.below(3) {
        0 => text.extend(rng.bytes(rng.clone().below(600))),
        1 => (0..rng.below(600)).for_each(|_| text.push(*rng.pick(b"0123456789ABCDEFabcdef:\r\n"))),
        _ => {
            for _ in 0..rng.below(8) {
                let (kind, count) = (rng.below(7) as u8, rng.below(20));
                let address = if rng.bit() { 0 } else { rng.word() as u16 };
                let line = texts::Line::new(address, kind, &rng.bytes(count)).text();
                text.extend(line.as_bytes());
                text.extend_from_slice(if rng.bit() { b"\n" } else { b"\r\n" });
            }
            text.extend(texts::Line::end().text().bytes().chain(*b"\r\n"));
        }
    }
    text
}

/// One damage: bytes changed, put in or taken out, lines repeated, lost or exchanged, or a record
/// changed with its sum made right again.
pub fn damage(rng: &mut Rng, text: &mut Vec<u8>) {
    if text.is_empty() {
        return text.push(rng.byte());
    }
    let at = match rng.bit() {
        true => rng.below(text.len()),
        // The small sections stand in the last lines.
        false => text.len() - 1 - rng.below(text.len().min(220)),
    };
    let byte = if rng.bit() { *rng.pick(b"0123456789ABCDEFabcdef:\r\n ") } else { rng.byte() };
    let start = text[..at].iter().rposition(|&b| b == b'\n').map_or(0, |before| before + 1);
    let end = text[at..].iter().position(|&b| b == b'\n').map_or(text.len(), |after| at + after + 1);
    match rng.below(12) {
        0 => text[at] = byte,
        1 => text.insert(at, byte),
        2 => drop(text.remove(at)),
        3 => text.truncate(at),
        4 => text.push(byte),
        5 => drop(text.drain(start..end)),
        6 => {
            let line = text[start..end].to_vec();
            drop(text.splice(start..start, line));
        }
        7 => text.truncate(end),
        8 => {
            let line: Vec<u8> = text.drain(start..end).collect();
            let next =
                text[start..].iter().position(|&b| b == b'\n').map_or(text.len(), |after| start + after + 1);
            drop(text.splice(next..next, line));
        }
        _ => mend(rng, &mut text[start..end]),
    }
}

/// Changes a byte of the line's record and makes its sum right, where it is a line at all.
fn mend(rng: &mut Rng, line: &mut [u8]) {
    let digit = |b: u8| char::from(b).to_digit(16).map(|d| d as u8);
    let pairs = line.get(1..).unwrap_or(&[]).chunks_exact(2);
    let mut bytes: Vec<u8> = pairs.map_while(|p| Some(digit(p[0])? << 4 | digit(p[1])?)).collect();
    if bytes.len() < 5 {
        return;
    }
    let at = if rng.bit() { rng.below(4) } else { rng.below(bytes.len() - 1) };
    bytes[at] = match rng.below(3) {
        0 => rng.byte(),
        1 => bytes[at] ^ 1 << rng.below(8),
        _ => rng.below(6) as u8,
    };
    bytes.pop();
    let made = texts::with_sum(&bytes);
    line[..made.len()].copy_from_slice(made.as_bytes());
}
