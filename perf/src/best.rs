//! The best Rust we could write for the same jobs: pairs of digits through two tables, each record decoded
//! straight into its place, all checks. What it refuses it leaves to `reference` to number.

use reference::hex::{self, END, SECTIONS};
use reference::image::{refusal, Header};
use reference::parts::Sizes;

/// Set in a table's entry for a byte that is no digit.
const NONE: u16 = 0x100;
static HIGH: [u16; 256] = digits(4);
static LOW: [u16; 256] = digits(0);
static PAIRS: [[u8; 2]; 256] = pairs();

const fn digits(shift: u32) -> [u16; 256] {
    let mut table = [NONE; 256];
    let mut value = 0;
    while value < 16 {
        table[b"0123456789ABCDEF"[value] as usize] = (value as u16) << shift;
        table[b"0123456789abcdef"[value] as usize] = (value as u16) << shift;
        value += 1;
    }
    table
}

const fn pairs() -> [[u8; 2]; 256] {
    let capitals = b"0123456789ABCDEF";
    let mut table = [[0; 2]; 256];
    let mut byte = 0;
    while byte < 256 {
        table[byte] = [capitals[byte >> 4], capitals[byte & 15]];
        byte += 1;
    }
    table
}

fn pair(digits: &[u8]) -> u16 {
    HIGH[usize::from(digits[0])] | LOW[usize::from(digits[1])]
}

/// Decodes pairs into bytes; gives their sum and whether all were digits.
fn decode(digits: &[u8], bytes: &mut [u8]) -> (u8, bool) {
    let (mut sum, mut seen) = (0u16, 0);
    for (byte, digits) in bytes.iter_mut().zip(digits.chunks_exact(2)) {
        let value = pair(digits);
        seen |= value;
        sum = sum.wrapping_add(value);
        *byte = value as u8;
    }
    (sum as u8, seen < NONE)
}

/// The text's first line: the digits after its colon, and the rest of the text.
fn first_line(text: &[u8]) -> Option<(&[u8], &[u8])> {
    let count = pair(text.get(1..3)?);
    let end = 2 * usize::from(count) + 11;
    let after = match (text.get(end)?, text.get(end + 1)) {
        (b'\n', _) => end + 1,
        (b'\r', Some(b'\n')) => end + 2,
        _ => return None,
    };
    (count < NONE && text[0] == b':').then_some((&text[1..end], &text[after..]))
}

/// A record but for its data; `head_sum` has the record's sum byte in it.
struct Head<'a> {
    kind: u8,
    count: usize,
    address: u32,
    digits: &'a [u8],
    head_sum: u8,
}

#[inline(always)]
fn head(line: &[u8]) -> Option<Head<'_>> {
    let mut bytes = [0; 4];
    let (sum, fits) = decode(line, &mut bytes);
    let (digits, last) = line[8..].split_at(line.len() - 10);
    let sum_byte = pair(last);
    (fits && sum_byte < NONE).then(|| Head {
        kind: bytes[3],
        count: bytes[0].into(),
        address: u32::from(bytes[1]) << 8 | u32::from(bytes[2]),
        digits,
        head_sum: sum.wrapping_add(sum_byte as u8),
    })
}

fn taken(sizes: &Sizes, mut text: &[u8], image: &mut [u8], header: &mut Header) -> Option<()> {
    let (flash, protection) = image.split_at_mut(sizes.flash());
    let (mut sum, mut level) = ([0; 2], [0; 1]);
    let sections = [flash, &mut sum[..], protection, &mut header.metadata[..], &mut level[..]];
    let (mut section, mut filled, mut upper) = (0, 0, 0u32);
    loop {
        let (line, rest) = first_line(text)?;
        let Head { kind, count, address, digits, head_sum } = head(line)?;
        let closes = |sum: u8| head_sum.wrapping_add(sum) == 0;
        match kind {
            0 if count > 0 && section < 5 => {
                let due = upper << 16 | address;
                let bytes = sections[section].get_mut(filled..filled + count)?;
                let (data_sum, fits) = decode(digits, bytes);
                let placed = due == SECTIONS[section] + filled as u32 && address as usize + count <= 0x1_0000;
                if !(fits && placed && closes(data_sum)) {
                    return None;
                }
                let whole = filled + count == sections[section].len();
                (section, filled) = if whole { (section + 1, 0) } else { (section, filled + count) };
            }
            4 if count == 2 && address == 0 => {
                let mut half = [0; 2];
                let (half_sum, fits) = decode(digits, &mut half);
                upper = u16::from_be_bytes(half).into();
                if !(fits && closes(half_sum)) {
                    return None;
                }
            }
            1 if count == 0 && address == 0 && section == 5 && rest.is_empty() && closes(0) => break,
            _ => return None,
        }
        text = rest;
    }
    (header.sum, header.level) = (u16::from_be_bytes(sum), level[0]);
    Some(())
}

pub fn read(part: u32, macros: u32, text: &[u8], buffer: &mut [u8]) -> (u8, Header) {
    let mut header = Header { part, macros, ..Header::ZERO };
    if let Some(sizes) = Sizes::of(part, macros) {
        if let Some(image) = buffer.get_mut(..sizes.image()) {
            if taken(&sizes, text, image, &mut header).is_some() && refusal(&header, &sizes, image).is_none()
            {
                return (0, header);
            }
        }
    }
    hex::read(part, macros, text, buffer)
}

/// Writes one line and gives what is left of the text.
fn put<'a>(text: &'a mut [u8], address: u16, kind: u8, data: &[u8]) -> &'a mut [u8] {
    let (line, rest) = text.split_at_mut(2 * data.len() + 13);
    let [high, low] = address.to_be_bytes();
    let head = [data.len() as u8, high, low, kind];
    line[0] = b':';
    let mut sum = head.iter().fold(0u8, |sum, &byte| sum.wrapping_sub(byte));
    for (to, &byte) in line[1..9].chunks_exact_mut(2).zip(&head) {
        to.copy_from_slice(&PAIRS[usize::from(byte)]);
    }
    let end = line.len() - 4;
    for (to, &byte) in line[9..end].chunks_exact_mut(2).zip(data) {
        sum = sum.wrapping_sub(byte);
        to.copy_from_slice(&PAIRS[usize::from(byte)]);
    }
    line[end..end + 2].copy_from_slice(&PAIRS[usize::from(sum)]);
    line[end + 2..].copy_from_slice(b"\r\n");
    rest
}

pub fn write(header: &Header, image: &[u8], text: &mut [u8]) -> (u8, usize) {
    let sizes = match header.sizes() {
        Some(sizes) if image.len() == sizes.image() && text.len() >= hex::text_length(&sizes) => sizes,
        _ => return hex::write(header, image, text),
    };
    if let Some(number) = refusal(header, &sizes, image) {
        return (number, 0);
    }
    let length = hex::text_length(&sizes);
    let (flash, protection) = image.split_at(sizes.flash());
    let (sum, level) = (header.sum.to_be_bytes(), [header.level]);
    let sections = [flash, &sum[..], protection, &header.metadata[..], &level[..]];
    let mut rest = &mut text[..length];
    for (start, bytes) in SECTIONS.into_iter().zip(sections) {
        for (half, bytes) in bytes.chunks(0x1_0000).enumerate() {
            let upper = (start >> 16) as u16 + half as u16;
            rest = put(rest, 0, 4, &upper.to_be_bytes());
            for (line, data) in bytes.chunks(64).enumerate() {
                rest = put(rest, 64 * line as u16, 0, data);
            }
        }
    }
    rest.copy_from_slice(END);
    (0, length)
}
