use super::*;
use crate::image::header_for;
use crate::parts::{OPEN, SIZES};
use crate::rng::Rng;

fn random_image(rng: &mut Rng, part: u32, macros: u32) -> (Header, Vec<u8>) {
    let sizes = Sizes::of(part, macros).unwrap();
    let image = rng.bytes(sizes.image());
    let level = *rng.pick(&[1, 2, 4]);
    let low = rng.byte() & 0x7F;
    let mut header = header_for(part, macros, low, rng.byte(), level, &image);
    rng.fill(&mut header.metadata[6..]);
    (header, image)
}

fn written(header: &Header, image: &[u8]) -> Vec<u8> {
    let mut text = vec![0; text_length(&header.sizes().unwrap())];
    let length = text.len();
    assert_eq!(write(header, image, &mut text), (0, length));
    text
}

#[test]
fn lengths() {
    let lengths = SIZES.map(|(p, m)| text_length(&Sizes::of(p, m).unwrap()));
    assert_eq!(lengths, [36_340, 72_436, 144_692, 289_234]);
}

#[test]
fn p8_sets_the_upper_half() {
    let (record, rest) = first_line(b":0200000490303A\r\n").unwrap();
    assert!(record.sum_is_right() && record.kind_is_right() && rest.is_empty());
    assert_eq!((record.kind(), record.data()), (UPPER, &[0x90, 0x30][..]));
}

#[test]
fn p9_is_open() {
    let (record, _) = first_line(b":0100000001FE\n").unwrap();
    assert!(record.sum_is_right() && record.kind_is_right());
    assert_eq!((record.kind(), record.address(), record.data()), (DATA, 0, &[OPEN][..]));
}

#[test]
fn end_record_is_what_the_writer_makes() {
    let mut text = [0; 13];
    assert_eq!(put_line(&mut text, 0, 0, END_TYPE, &[]), 13);
    assert_eq!(&text, END);
}

#[test]
fn written_texts_read_back() {
    let mut rng = Rng(1);
    for (part, macros) in SIZES {
        for _ in 0..4 {
            let (header, image) = random_image(&mut rng, part, macros);
            let text = written(&header, &image);
            assert!(text.starts_with(b":020000040000FA\r\n:40000000"));
            assert!(text.ends_with(b"\r\n:00000001FF\r\n"));
            let mut buffer = vec![0xA5; image.len() + 9];
            assert_eq!(read(part, macros, &text, &mut buffer), (0, header));
            assert_eq!(buffer[..image.len()], image);
            assert_eq!(buffer[image.len()..], [0xA5; 9]);
        }
    }
}

#[test]
fn writer_refusals_leave_the_text() {
    let (header, image) = random_image(&mut Rng(2), 1, 1);
    let mut text = vec![7; 36_340];
    let wrong_part = Header { part: 4, ..header };
    assert_eq!(write(&wrong_part, &image, &mut text), (11, 0));
    assert_eq!(write(&header, &image[1..], &mut text), (12, 0));
    assert_eq!(write(&header, &image, &mut text[1..]), (12, 0));
    let wrong_sum = Header { sum: !header.sum, ..header };
    assert_eq!(write(&wrong_sum, &image, &mut text), (9, 0));
    assert_eq!(write(&wrong_sum, &image, &mut text[1..]), (12, 0));
    assert_eq!(text, vec![7; 36_340]);
    let mut text = vec![7; 36_341];
    assert_eq!(write(&header, &image, &mut text), (0, 36_340));
    assert_eq!(text[36_340], 7);
}

#[test]
fn refusals_zero_the_image_only() {
    let (header, image) = random_image(&mut Rng(3), 1, 1);
    let text = written(&header, &image);
    let mut buffer = vec![0xA5; 20_000];
    assert_eq!(read(1, 1, &text[..text.len() - 13], &mut buffer), (5, Header::ZERO));
    assert_eq!(buffer[..16_416], [0; 16_416]);
    assert_eq!(buffer[16_416..], [0xA5; 3_584]);
    let mut buffer = vec![0xA5; 20_000];
    assert_eq!(read(2, 1, &text, &mut buffer), (12, Header::ZERO));
    assert_eq!(read(1, 2, &text, &mut buffer), (11, Header::ZERO));
    assert_eq!(buffer, vec![0xA5; 20_000]);
}

fn number(text: &[u8]) -> u8 {
    read(1, 1, text, &mut [0; 16_416]).0
}

#[test]
fn line_forms() {
    let line = ":020000040000FA";
    for (end, expected) in [("\n", 5), ("\r\n", 5), ("", 1), ("\r", 1), ("\r\r\n", 1), (" \n", 1), ("0\n", 1)]
    {
        assert_eq!(number(format!("{line}{end}").as_bytes()), expected, "{end:?}");
    }
    assert_eq!(number(b""), 5);
    for text in ["\n", "\r\n", ":\n", ":00\n", ":00000001\n", "02000004000FA\n", ";020000040000FA\n"] {
        assert_eq!(number(text.as_bytes()), 1, "{text:?}");
    }
    assert_eq!(number(b":020000040000FA\n\n"), 1);
    assert_eq!(number(b":020000040000fa\n"), 5);
    assert_eq!(number(b":020000040000FB\n"), 2);
    assert_eq!(number(b":030000040000FB\n"), 1);
    assert_eq!(number(b":0000000000\n"), 3);
    assert_eq!(number(b":0100000401FA\n"), 3);
    assert_eq!(number(b":020001040000F9\n"), 3);
    assert_eq!(number(b":00000101FE\n"), 3);
    assert_eq!(number(b":00000002FE\n"), 3);
    assert_eq!(number(b":0100010000FE\n"), 4);
    assert_eq!(number(b":00000001FF\n"), 5);
    assert_eq!(number(b":00000001FF"), 1);
}

/// Every single-byte change of a text is refused or reads as another image.
#[test]
fn damaged_texts() {
    let mut rng = Rng(4);
    let (header, image) = random_image(&mut rng, 1, 1);
    let text = written(&header, &image);
    let mut buffer = vec![0; image.len()];
    for _ in 0..3000 {
        let mut damaged = text.clone();
        let at = rng.below(text.len());
        damaged[at] = rng.byte();
        let (number, got) = read(1, 1, &damaged, &mut buffer);
        if number == 0 {
            assert!(got == header && buffer == image && damaged[at].eq_ignore_ascii_case(&text[at]));
        } else {
            assert!(number <= 10 && got == Header::ZERO && buffer.iter().all(|&b| b == 0));
        }
    }
}
