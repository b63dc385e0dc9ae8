//! Writes the committed vectors, the same at every run. `vectors images DIR`: the images that the
//! tools are given. `vectors hex TOOLS OUT`: cases of hex text. `vectors dry CRATES`: the dry run's.
//! `vectors session OUT`: sessions.

use reference::parts::SIZES;
use reference::rng::Rng;
use reference::{cases_dry, cases_hex, cases_session, hex, texts};
use std::path::Path;
use std::{env, fs, io};

/// The sections of one image of each size, a file each, and the text that our writer makes.
fn images(dir: &Path) -> io::Result<()> {
    for (part, macros) in SIZES {
        let (header, image) = tool_image(part, macros);
        let dir = dir.join(format!("part{part}-m{macros}"));
        fs::create_dir_all(&dir)?;
        let names = ["flash", "sum", "protection", "metadata", "level"];
        for (name, bytes) in names.iter().zip(texts::sections(&header, &image)) {
            fs::write(dir.join(format!("{name}.bin")), bytes)?;
        }
        let mut text = vec![0; hex::text_length(&header.sizes().unwrap())];
        assert_eq!(hex::write(&header, &image, &mut text).0, 0);
        fs::write(dir.join("written.hex"), text)?;
    }
    Ok(())
}

fn tool_image(part: u32, macros: u32) -> (reference::image::Header, Vec<u8>) {
    texts::sample_image(&mut Rng(u64::from(part * 10 + macros)), part, macros)
}

/// stdin, stdout and the cases' names, one a line.
fn hex_cases(tools: &Path, out: &Path) -> io::Result<()> {
    let tool = |file: &str| fs::read(tools.join(file)).expect("a text of vectors/tools");
    let cases = cases_hex::cases(&tool);
    let lines = cases.iter().map(cases_hex::outcome).collect();
    let names = cases.iter().map(|case| case.name.clone()).collect();
    put(out, &cases_hex::stdin(&cases), lines, names)
}

fn session_cases(out: &Path) -> io::Result<()> {
    let cases = cases_session::cases();
    let lines = cases.iter().map(cases_session::outcome).collect();
    let names = cases.iter().map(|case| case.name.clone()).collect();
    put(out, cases_session::stdin(&cases).as_bytes(), lines, names)
}

/// The blank image's text for `dry_run`, and the cases of `cases_dry`.
fn dry_cases(out: &Path) -> io::Result<()> {
    fs::write(out.join("dry_run/stdin"), cases_dry::blank())?;
    fs::write(out.join("../samples/blank-4000.hex"), cases_dry::blank())?;
    let cases = cases_dry::cases();
    let lines = cases.iter().map(cases_dry::outcome).collect();
    let names = cases.iter().map(|case| case.name.clone()).collect();
    put(&out.join("cases_dry"), &cases_dry::stdin(&cases), lines, names)
}

fn put(out: &Path, stdin: &[u8], lines: Vec<String>, names: Vec<String>) -> io::Result<()> {
    fs::create_dir_all(out)?;
    fs::write(out.join("stdin"), stdin)?;
    fs::write(out.join("stdout"), lines.join("\n") + "\n")?;
    fs::write(out.join("names"), names.join("\n") + "\n")
}

fn main() -> io::Result<()> {
    let arguments: Vec<String> = env::args().skip(1).collect();
    match arguments.iter().map(String::as_str).collect::<Vec<_>>()[..] {
        ["images", dir] => images(Path::new(dir)),
        ["hex", tools, out] => hex_cases(Path::new(tools), Path::new(out)),
        ["dry", crates] => dry_cases(Path::new(crates)),
        ["session", out] => session_cases(Path::new(out)),
        _ => Err(io::Error::other("vectors images DIR | hex TOOLS OUT | dry CRATES | session OUT")),
    }
}
