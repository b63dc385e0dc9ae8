//! 'Hex text': the reader with numbers 1 to 12 and its effect on the buffer, and the writer.

use crate::image::{lent_refusal, refusal, Header};
use crate::parts::Sizes;

/// "Sections in rising order, each byte once: flash at 0, sum (2 bytes, high first) at 0x90300000,
/// protection at 0x90400000, metadata (12) at 0x90500000, level (1) at 0x90600000."
pub const SECTIONS: [u32; 5] = [0, 0x9030_0000, 0x9040_0000, 0x9050_0000, 0x9060_0000];

/// "the last record is :00000001FF exactly", with its line end.
pub const END: &[u8] = b":00000001FF\r\n";

pub const DATA: u8 = 0;
pub const END_TYPE: u8 = 1;
pub const UPPER: u8 = 4;

/// Most data bytes that the writer puts into a record.
const WRITTEN: usize = 64;

/// The value of each byte as a digit of either case; `NONE` for the others.
const NONE: u8 = 0xFF;
static DIGITS: [u8; 256] = digits();

const fn digits() -> [u8; 256] {
    let mut table = [NONE; 256];
    let mut value = 0;
    while value < 16 {
        table[b"0123456789ABCDEF"[value] as usize] = value as u8;
        table[b"0123456789abcdef"[value] as usize] = value as u8;
        value += 1;
    }
    table
}

/// A line's bytes: count, address (2), type, data, sum.
struct Record {
    bytes: [u8; 260],
}

impl Record {
    fn count(&self) -> usize {
        usize::from(self.bytes[0])
    }

    fn address(&self) -> u16 {
        u16::from_be_bytes([self.bytes[1], self.bytes[2]])
    }

    fn kind(&self) -> u8 {
        self.bytes[3]
    }

    fn data(&self) -> &[u8] {
        &self.bytes[4..4 + self.count()]
    }

    /// All bytes of a record, its sum included, add to 0 mod 256 (the Intel hex specification).
    fn sum_is_right(&self) -> bool {
        self.bytes[..self.count() + 5].iter().fold(0u8, |sum, &b| sum.wrapping_add(b)) == 0
    }

    /// "Types: 0 with 1 to 255 bytes; 4 with 2 bytes at address 0; 1 with none at address 0."
    fn kind_is_right(&self) -> bool {
        match self.kind() {
            DATA => self.count() >= 1,
            UPPER => self.count() == 2 && self.address() == 0,
            END_TYPE => self.count() == 0 && self.address() == 0,
            _ => false,
        }
    }
}

/// "Lines are a colon, digit pairs of either case, then LF or CR LF, also after the last." Gives
/// the record of the text's first line and the rest of the text; None is 1, "line form, or a byte
/// count that isn't the line's".
fn first_line(text: &[u8]) -> Option<(Record, &[u8])> {
    let end = text.iter().position(|&b| b == b'\n')?;
    let (line, rest) = (&text[..end], &text[end + 1..]);
    let line = line.strip_suffix(b"\r").unwrap_or(line);
    let digits = line.strip_prefix(b":")?;
    let pairs = digits.len() / 2;
    if digits.len() % 2 != 0 || !(5..=260).contains(&pairs) {
        return None;
    }
    let mut record = Record { bytes: [0; 260] };
    // A digit is below 16, so the high half of `seen` tells whether anything else was met.
    let mut seen = 0;
    for (byte, pair) in record.bytes.iter_mut().zip(digits.chunks_exact(2)) {
        let (high, low) = (DIGITS[usize::from(pair[0])], DIGITS[usize::from(pair[1])]);
        seen |= high | low;
        *byte = high << 4 | low;
    }
    (seen < 16 && record.count() + 5 == pairs).then_some((record, rest))
}

/// Where the next byte is due: the sections with their bytes, and how far they are filled.
struct Due<'a> {
    sections: [(u32, &'a mut [u8]); 5],
    section: usize,
    filled: usize,
}

impl Due<'_> {
    /// None is 4, "data not the next due, or crossing": "a record crosses neither its section's
    /// end nor a 64 KiB line".
    fn place(&mut self, upper: u16, address: u16, data: &[u8]) -> Option<()> {
        let (start, bytes) = self.sections.get_mut(self.section)?;
        let at = u32::from(upper) << 16 | u32::from(address);
        if at != *start + self.filled as u32 || usize::from(address) + data.len() > 0x1_0000 {
            return None;
        }
        let filled = self.filled + data.len();
        bytes.get_mut(self.filled..filled)?.copy_from_slice(data);
        self.filled = filled;
        if filled == bytes.len() {
            (self.section, self.filled) = (self.section + 1, 0);
        }
        Some(())
    }

    fn complete(&self) -> bool {
        self.section == self.sections.len()
    }
}

/// The records of a text, "1 to 5 per record in that order".
fn read_records(mut text: &[u8], due: &mut Due) -> Result<(), u8> {
    // "The upper address half starts at 0"
    let mut upper = 0;
    loop {
        // "5 end record missing"
        if text.is_empty() {
            return Err(5);
        }
        let (record, rest) = first_line(text).ok_or(1)?;
        if !record.sum_is_right() {
            return Err(2);
        }
        if !record.kind_is_right() {
            return Err(3);
        }
        match record.kind() {
            DATA => due.place(upper, record.address(), record.data()).ok_or(4)?,
            UPPER => upper = u16::from_be_bytes([record.data()[0], record.data()[1]]),
            // "5 end record missing, early or followed"; "anything after the end record is 5, unread"
            _ if due.complete() && rest.is_empty() => return Ok(()),
            _ => return Err(5),
        }
        text = rest;
    }
}

fn read_image(sizes: &Sizes, part: u32, macros: u32, text: &[u8], image: &mut [u8]) -> Result<Header, u8> {
    let (mut sum, mut metadata, mut level) = ([0; 2], [0; 12], [0; 1]);
    let (flash, protection) = image.split_at_mut(sizes.flash());
    let bytes = [flash, &mut sum[..], protection, &mut metadata[..], &mut level[..]];
    let mut starts = SECTIONS.into_iter();
    let sections = bytes.map(|bytes| (starts.next().unwrap(), bytes));
    read_records(text, &mut Due { sections, section: 0, filled: 0 })?;
    let header = Header { part, macros, sum: u16::from_be_bytes(sum), metadata, level: level[0] };
    match refusal(&header, sizes, image) {
        Some(number) => Err(number),
        None => Ok(header),
    }
}

/// "Reading checks 11, 12, then 1 to 5 per record in that order, then 6 to 10"; "Reading with 1 to
/// 10 zeroes the image's bytes; bytes past them ... never alter. Other refusals write nothing."
pub fn read(part: u32, macros: u32, text: &[u8], buffer: &mut [u8]) -> (u8, Header) {
    let Some(sizes) = Sizes::of(part, macros) else {
        return (11, Header::ZERO);
    };
    // "12 the buffer to be written under size"
    let Some(image) = buffer.get_mut(..sizes.image()) else {
        return (12, Header::ZERO);
    };
    match read_image(&sizes, part, macros, text, image) {
        Ok(header) => (0, header),
        Err(number) => {
            image.fill(0);
            (number, Header::ZERO)
        }
    }
}

/// Appends one written line to `text` at `at`, giving the place after it: "capitals, CR LF".
fn put_line(text: &mut [u8], at: usize, address: u16, kind: u8, data: &[u8]) -> usize {
    const CAPITALS: &[u8; 16] = b"0123456789ABCDEF";
    let [high, low] = address.to_be_bytes();
    let head = [data.len() as u8, high, low, kind];
    let sum = head.iter().chain(data).fold(0u8, |sum, &b| sum.wrapping_sub(b));
    let length = 2 * data.len() + 13;
    let line = &mut text[at..at + length];
    line[0] = b':';
    let pairs = line[1..].chunks_exact_mut(2);
    for (pair, &byte) in pairs.zip(head.iter().chain(data).chain([&sum])) {
        pair[0] = CAPITALS[usize::from(byte >> 4)];
        pair[1] = CAPITALS[usize::from(byte & 15)];
    }
    line[length - 2..].copy_from_slice(b"\r\n");
    at + length
}

/// The length of the written text: 15 + 2 for each upper half, 13 and twice its data for each data
/// record, 13 for the end.
pub fn text_length(sizes: &Sizes) -> usize {
    [sizes.flash(), 2, sizes.protection(), 12, 1]
        .into_iter()
        .map(|bytes| 17 * bytes.div_ceil(0x1_0000) + 13 * bytes.div_ceil(WRITTEN) + 2 * bytes)
        .sum::<usize>()
        + END.len()
}

/// "Written: capitals, CR LF, 64 data bytes or what remains, a type 4 record first and at each new
/// upper half; the last record is :00000001FF exactly." Gives number and length.
pub fn write(header: &Header, image: &[u8], text: &mut [u8]) -> (u8, usize) {
    let room = text.len();
    let sizes = match lent_refusal(header, image, |sizes| room >= text_length(sizes)) {
        Ok(sizes) => sizes,
        Err(number) => return (number, 0),
    };
    let (flash, protection) = image.split_at(sizes.flash());
    let (sum, level) = (header.sum.to_be_bytes(), [header.level]);
    let sections = [flash, &sum[..], protection, &header.metadata[..], &level[..]];
    let mut at = 0;
    let mut upper = None;
    for (start, bytes) in SECTIONS.into_iter().zip(sections) {
        for (index, data) in bytes.chunks(WRITTEN).enumerate() {
            let address = start + (index * WRITTEN) as u32;
            let (half, low) = ((address >> 16) as u16, address as u16);
            if upper != Some(half) {
                upper = Some(half);
                at = put_line(text, at, 0, UPPER, &half.to_be_bytes());
            }
            at = put_line(text, at, low, DATA, data);
        }
    }
    text[at..at + END.len()].copy_from_slice(END);
    (0, at + END.len())
}

#[cfg(test)]
mod tests;
