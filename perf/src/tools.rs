//! The tools people use, on the same text, where they are installed: reading it and writing it again.

use crate::timing::{line, summary, Time};
use std::process::{Command, Stdio};
use std::time::Instant;
use std::{env, fs, path::Path};

const ROUNDS: usize = 15;
const PYTHON: &str = "import sys\nfrom intelhex import IntelHex\n\
    text = IntelHex(sys.argv[1])\ntext.write_hex_file(sys.argv[2], byte_count=64)";

/// A command's words for a text's path.
type Words<'a> = dyn Fn(&str) -> Vec<String> + 'a;

/// The wall time of a command, or None where it can't run.
fn run(words: &[&str]) -> Option<f64> {
    let start = Instant::now();
    let mut command = Command::new(words[0]);
    let status = command.args(&words[1..]).stdout(Stdio::null()).stderr(Stdio::null()).status();
    let time = start.elapsed().as_nanos() as f64;
    status.ok()?.success().then_some(time)
}

/// The command on this text, less the same command on a text of one record (its start-up).
fn measured(words: &Words, text: &Path, empty: &Path) -> Option<Time> {
    let (mut whole, mut starts) = (Vec::new(), Vec::new());
    for _ in 0..ROUNDS {
        for (path, times) in [(text, &mut whole), (empty, &mut starts)] {
            let words = words(&path.to_string_lossy());
            times.push(run(&words.iter().map(String::as_str).collect::<Vec<_>>())?);
        }
    }
    let (whole, start) = (summary(&mut whole), summary(&mut starts));
    Some(Time { median: whole.median - start.median, least: whole.least - start.least })
}

pub fn tools(text: &[u8]) -> std::io::Result<()> {
    let folder = env::temp_dir().join(format!("halzuqeen-perf-{}", std::process::id()));
    fs::create_dir_all(&folder)?;
    let (path, empty, out) = (folder.join("text.hex"), folder.join("empty.hex"), folder.join("out.hex"));
    fs::write(&path, text)?;
    fs::write(&empty, ":0100000001FE\r\n:00000001FF\r\n")?;
    let out = out.to_string_lossy().into_owned();
    let own = |words: &[&str]| words.iter().map(|word| word.to_string()).collect::<Vec<_>>();
    let srec_cat = |path: &str| own(&["srec_cat", path, "-intel", "-o", &out, "-intel"]);
    let objcopy = |path: &str| own(&["objcopy", "-I", "ihex", "-O", "ihex", path, &out]);
    let intelhex = |path: &str| own(&["/usr/bin/python3", "-c", PYTHON, path, &out]);
    let all: [(&str, &Words); 3] =
        [("objcopy", &objcopy), ("srec_cat", &srec_cat), ("python3-intelhex", &intelhex)];
    for (name, words) in all {
        match measured(words, &path, &empty) {
            Some(time) => line(name, time, text.len(), None),
            None => println!("  {name:<34} not installed here"),
        }
    }
    fs::remove_dir_all(&folder)
}
