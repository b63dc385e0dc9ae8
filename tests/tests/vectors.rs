//! The committed vectors are those that the generator makes, and the tools agree with the writer.

use reference::{cases_dry, cases_hex, cases_session, hex, parts::SIZES};
use std::fs;
use std::path::Path;

fn here() -> &'static Path {
    Path::new(env!("CARGO_MANIFEST_DIR"))
}

fn read(file: &str) -> Vec<u8> {
    fs::read(here().join("vectors").join(file)).expect(file)
}

/// A file of the program crate that is run on these cases.
fn program(file: &str) -> Vec<u8> {
    fs::read(here().join("../crates").join(file)).expect(file)
}

#[test]
fn hex_cases_are_as_made() {
    let cases = cases_hex::cases(&|file| read(&format!("tools/{file}")));
    assert!(cases_hex::stdin(&cases) == program("cases_hex/stdin"));
    let lines: String = cases.iter().map(|case| cases_hex::outcome(case) + "\n").collect();
    assert!(lines.as_bytes() == program("cases_hex/stdout"));
}

#[test]
fn dry_cases_are_as_made() {
    let cases = cases_dry::cases();
    assert!(cases_dry::stdin(&cases) == program("cases_dry/stdin"));
    let lines: String = cases.iter().map(|case| cases_dry::outcome(case) + "\n").collect();
    assert!(lines.as_bytes() == program("cases_dry/stdout"));
    assert!(cases_dry::blank() == program("dry_run/stdin"));
    assert!(cases_dry::blank() == program("../samples/blank-4000.hex"));
}

#[test]
fn session_cases_are_as_made() {
    let cases = cases_session::cases();
    assert!(cases_session::stdin(&cases).as_bytes() == program("cases_session/stdin"));
    let lines: String = cases.iter().map(|case| cases_session::outcome(case) + "\n").collect();
    assert!(lines.as_bytes() == program("cases_session/stdout"));
    let names: String = cases.iter().map(|case| case.name.clone() + "\n").collect();
    assert!(names.as_bytes() == program("cases_session/names"));
    assert!(cases.iter().all(|case| case.overrides.len() <= 2 && case.length <= 131_200));
}

/// Document 02, One: number, step and transfers of reports in steps 7 and 8 of two macros, macro 1 first.
#[test]
fn macro_0_goes_last() {
    let reports = [
        ("locks' status, macro 1", "19 7", 190_573),
        ("locks 1 at 0", "23 8", 190_576),
        ("silence where macro 0's call ends, carried out", "29 7", 190_673),
        ("noise where macro 0's call ends, carried out", "33 7", 190_673),
        ("locks' status, macro 0", "19 7", 190_677),
        ("locks 0 at 60", "23 8", 190_725),
        ("level", "24 8", 190_728),
    ];
    let [names, lines] = ["names", "stdout"].map(|file| program(&format!("cases_session/{file}")));
    let [names, lines] = [names, lines].map(|text| String::from_utf8(text).unwrap());
    // "from PROTECTED 26 + 10 × IMO more", and part 3 has no IMO.
    for (entry, more) in [("OPEN", 0), ("PROTECTED", 26)] {
        for (name, number_and_step, transfers) in reports {
            let name = format!("part 3, M 2, {entry}: {name}");
            let found: Vec<_> = names.lines().zip(lines.lines()).filter(|(n, _)| *n == name).collect();
            let report = format!("report {number_and_step} {} ", transfers + more);
            assert!(found.len() == 1 && found[0].1.starts_with(&report), "{report}: {found:?}");
        }
    }
}

#[test]
fn tools_write_what_we_write() {
    for (part, macros) in SIZES {
        for tool in ["srec_cat", "intelhex"] {
            let text = read(&format!("tools/part{part}-m{macros}/{tool}-64-crlf.hex"));
            let mut image = vec![0; reference::parts::Sizes::of(part, macros).unwrap().image()];
            let (number, header) = hex::read(part, macros, &text, &mut image);
            assert_eq!(number, 0);
            let mut written = vec![0; text.len()];
            assert_eq!(hex::write(&header, &image, &mut written), (0, text.len()));
            assert!(written == text);
        }
    }
}

/// What the tools write unasked reads as the same image; types 2, 3 and 5 are refused.
#[test]
fn tools_defaults() {
    let mut expected = vec![0; 16_416];
    let (_, header) = hex::read(1, 1, &read("tools/part1-m1/srec_cat-64-crlf.hex"), &mut expected);
    for tool in ["srec_cat", "intelhex", "objcopy"] {
        let mut image = vec![0; 16_416];
        let text = read(&format!("tools/part1-m1/{tool}-default.hex"));
        assert_eq!(hex::read(1, 1, &text, &mut image), (0, header));
        assert!(image == expected);
        let text = read(&format!("tools/part1-m1/{tool}-start.hex"));
        assert_eq!(hex::read(1, 1, &text, &mut image).0, 3);
    }
    let text = read("tools/part3-m2/objcopy-default.hex");
    assert_eq!(hex::read(3, 2, &text, &mut vec![0; 131_200]).0, 3);
}
