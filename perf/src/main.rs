//! Prints, from one run, what reading, writing, stepping and whole sessions cost, side by side with Rust that
//! does the same, as ratios; then the tools people use; then the stack that a call needs.

mod best;
mod stack;
mod timing;
mod tools;

use halzuqeen::{raw, Answer, Outcome, Session};
use reference::board::{Board, Lists};
use reference::image::{header_for, Header};
use reference::parts::{Sizes, OPEN};
use reference::rng::Rng;
use reference::{hex, play, session, texts, wire};
use std::hint::black_box;
use timing::{line, time, Time};

const ROUNDS: usize = 41;

/// An image of part 3 with two macros, its text, and the answers of a calm board to its session.
struct Job {
    header: Header,
    core_header: halzuqeen::Header,
    image: Vec<u8>,
    text: Vec<u8>,
    answers: Vec<wire::Answer>,
}

fn job() -> Job {
    let (mut header, image) = texts::sample_image(&mut Rng(32), 3, 2);
    header.level = OPEN;
    let mut text = vec![0; hex::text_length(&header.sizes().expect("a part of the table"))];
    assert_eq!(hex::write(&header, &image, &mut text), (0, text.len()));
    let (mut board, mut lists, mut answers) = (Board::blank(&header, OPEN), Lists::default(), vec![]);
    let (report, _) = play::step_through(&header, &image, None, |packet| {
        let answer = board.answer(packet, &mut lists);
        answers.push(answer);
        answer
    });
    assert_eq!((report.number, report.transfers), (0, 190_741));
    Job { header, core_header: core_header(&header), image, text, answers }
}

fn core_header(header: &Header) -> halzuqeen::Header {
    halzuqeen::Header {
        part: header.part as u8,
        macros: header.macros as u8,
        sum: header.sum,
        metadata: header.metadata,
        level: header.level,
    }
}

fn heading(what: &str, to: &str) {
    println!("\n{what:<36}   median    least   {to}");
}

fn reading(job: &Job) {
    let mut buffers = [0, 1, 2].map(|_| vec![0; job.image.len()]);
    let [a, b, c] = &mut buffers;
    let times = time(
        ROUNDS,
        &mut [
            &mut || assert_eq!(halzuqeen::read(3, 2, black_box(&job.text), a), Ok(job.core_header)),
            &mut || assert_eq!(best::read(3, 2, black_box(&job.text), b), (0, job.header)),
            &mut || assert_eq!(hex::read(3, 2, black_box(&job.text), c), (0, job.header)),
        ],
    );
    assert!(buffers.iter().all(|buffer| *buffer == job.image));
    heading("reading, ns per text byte", "ratio to the best Rust (median, least)");
    three(&times, job.text.len());
}

fn writing(job: &Job) {
    let mut texts = [0, 1, 2].map(|_| vec![0; job.text.len()]);
    let [a, b, c] = &mut texts;
    let length = job.text.len();
    let times = time(
        ROUNDS,
        &mut [
            &mut || assert_eq!(halzuqeen::write(&job.core_header, black_box(&job.image), a), Ok(length)),
            &mut || assert_eq!(best::write(&job.header, black_box(&job.image), b), (0, length)),
            &mut || assert_eq!(hex::write(&job.header, black_box(&job.image), c), (0, length)),
        ],
    );
    assert!(texts.iter().all(|text| *text == job.text));
    heading("writing, ns per text byte", "ratio to the best Rust (median, least)");
    three(&times, length);
}

/// Images of one kind of rows, on which the test whether a row is all zero (number 10) shows: blank ones, filled from
/// the first byte on, thin ones with the last byte alone. Starting is the checks of the image and little else.
fn rows(what: &str, byte: fn(place: usize, length: usize) -> u8) {
    let sizes = Sizes::of(3, 2).expect("a part of the table");
    let mut image = vec![0; sizes.image()];
    let length = sizes.row_bytes();
    for row in image[..sizes.flash()].chunks_exact_mut(length) {
        row.iter_mut().enumerate().for_each(|(place, to)| *to = byte(place, length));
    }
    let header = header_for(3, 2, 0, 0, OPEN, &image);
    let told = core_header(&header);
    let (mut text, mut a, mut b) = (vec![0; hex::text_length(&sizes)], image.clone(), image.clone());
    assert_eq!(hex::write(&header, &image, &mut text), (0, text.len()));
    let times = time(
        ROUNDS,
        &mut [
            &mut || assert_eq!(halzuqeen::read(3, 2, black_box(&text), &mut a), Ok(told)),
            &mut || assert_eq!(best::read(3, 2, black_box(&text), &mut b), (0, header)),
            &mut || assert!(halzuqeen::start(&told, black_box(&image), false).is_ok()),
            &mut || assert!(started(session::start(&header, black_box(&image), false).1)),
        ],
    );
    heading(&format!("{what} rows, reading, ns/byte"), "ratio to the best Rust");
    line("this core", times[0], text.len(), Some(times[1]));
    line("best Rust, table-driven", times[1], text.len(), None);
    heading(&format!("{what} rows, starting, ns/byte"), "ratio to the independent Rust");
    line("this core", times[2], image.len(), Some(times[3]));
    line("independent Rust", times[3], image.len(), None);
}

fn three(times: &[Time], count: usize) {
    line("this core", times[0], count, Some(times[1]));
    line("best Rust, table-driven", times[1], count, None);
    line("independent Rust", times[2], count, Some(times[1]));
}

/// A whole session on recorded answers, its start included.
fn core_session(job: &Job, answers: &[Answer]) {
    let (mut session, mut outcome) = halzuqeen::start(&job.core_header, &job.image, false).expect("started");
    for &answer in answers {
        outcome = black_box(session.step(&job.image, answer).expect("stepped"));
    }
    assert!(matches!(outcome, Outcome::Report(report) if report.number == 0));
}

fn rust_session(job: &Job) {
    let (mut session, mut outcome) = session::start(&job.header, &job.image, false);
    for &answer in &job.answers {
        outcome = black_box(session.step(&job.image, answer));
    }
    assert!(matches!(outcome, session::Outcome::Report(report) if report.number == 0));
}

fn started(outcome: session::Outcome) -> bool {
    matches!(outcome, session::Outcome::Ask(_))
}

fn stepping(job: &Job) {
    let answers: Vec<Answer> = job.answers.iter().map(abi_answer).collect();
    let times = time(
        ROUNDS,
        &mut [
            &mut || core_session(job, black_box(&answers)),
            &mut || rust_session(black_box(job)),
            &mut || assert!(halzuqeen::start(&job.core_header, black_box(&job.image), false).is_ok()),
            &mut || assert!(started(session::start(&job.header, black_box(&job.image), false).1)),
        ],
    );
    let less = |a: Time, b: Time| Time { median: a.median - b.median, least: a.least - b.least };
    let steps = [less(times[0], times[2]), less(times[1], times[3])];
    heading(&format!("stepping, ns per step of {}", answers.len()), "ratio to the independent Rust");
    line("this core", steps[0], answers.len(), Some(steps[1]));
    line("independent Rust", steps[1], answers.len(), None);
    heading("a whole session, ms", "ratio to the independent Rust");
    line("this core", times[0], 1_000_000, Some(times[1]));
    line("independent Rust", times[1], 1_000_000, None);
}

fn abi_answer(answer: &wire::Answer) -> Answer {
    match *answer {
        wire::Answer::ResetDone => Answer::ResetDone,
        wire::Answer::Wire { ack, word, parity } => Answer::Wire { ack: ack as u8, word, parity },
    }
}

fn stacks(job: &Job) {
    let (mut buffer, mut text) = (vec![0; job.image.len()], vec![0; job.text.len()]);
    let (mut session, mut outcome) = ([0; raw::SESSION], [0; raw::OUTCOME]);
    let told = job.core_header.bytes();
    println!("\nstack of a call, bytes (painted stack; no heap is used)");
    let read = stack::need(&mut || assert!(halzuqeen::read(3, 2, &job.text, &mut buffer).is_ok()));
    let write =
        stack::need(&mut || assert!(halzuqeen::write(&job.core_header, &job.image, &mut text).is_ok()));
    let start =
        stack::need(&mut || assert_eq!(raw::start(&told, &job.image, 0, &mut session, &mut outcome), 0));
    let mut stepped = Session(session);
    let step = stack::need(&mut || {
        for answer in &job.answers {
            stepped.step(&job.image, abi_answer(answer)).expect("stepped");
        }
    });
    println!("  read {read}, write {write}, start {start}, step {step} (the most of a whole session)");
}

fn main() -> std::io::Result<()> {
    let job = job();
    let texts = job.text.len();
    println!(
        "part 3, M 2: a text of {texts} bytes, {} steps; {ROUNDS} rounds, side by side",
        job.answers.len()
    );
    reading(&job);
    writing(&job);
    rows("blank", |_, _| 0);
    rows("filled", |place, _| 1 + place as u8);
    rows("thin", |place, length| (place + 1 == length).into());
    stepping(&job);
    heading("tools, ns per text byte", "(read and written again, start-up taken off)");
    tools::tools(&job.text)?;
    stacks(&job);
    Ok(())
}
