//! The cross-checks: the proved core's static library held to this crate. `cross [--long] [SEED]`.
//! The same seed is the same run; any difference ends it with a panic.

use reference::cross::{add, rows, sessions, texts, Counts, Tally, TextTally};
use reference::cuts::{chains, Cuts};
use reference::flow::Report;
use reference::linked::{boards, edges, forged, tools, Boards, Forged, Linked, Pair, ENDS};
use reference::seal::{self, assert_sealed, places, Places, Sealed, REPORTED};
use std::time::Instant;
use std::{env, thread};

/// How much is checked, in all threads together.
struct Sizes {
    texts: usize,
    sessions: usize,
    bases: usize,
    forged: usize,
    board_sessions: usize,
    packets: usize,
    chains: usize,
}

const SHORT: Sizes = Sizes {
    texts: 120_000,
    sessions: 2_400,
    bases: 16,
    forged: 200_000,
    board_sessions: 480,
    packets: 300_000,
    chains: 400,
};
const LONG: Sizes = Sizes {
    texts: 3_000_000,
    sessions: 60_000,
    bases: 400,
    forged: 10_000_000,
    board_sessions: 12_000,
    packets: 7_500_000,
    chains: 10_000,
};
const THREADS: usize = 2;

/// A share of the work on each thread, with a seed of its own.
fn shared<T: Send>(seed: u64, work: impl Fn(u64) -> T + Sync) -> Vec<T> {
    let work = &work;
    thread::scope(|scope| {
        let workers: Vec<_> =
            (0..THREADS as u64).map(|n| scope.spawn(move || work(seed * 1_000 + n))).collect();
        workers.into_iter().map(|worker| worker.join().expect("the cores agree")).collect()
    })
}

/// Numbers with their counts; each of `wanted` must have come.
fn show(what: &str, counts: &Counts, wanted: impl IntoIterator<Item = u8>) {
    let line: Vec<String> = counts.iter().map(|(number, count)| format!("{number}: {count}")).collect();
    println!("  {what} by number: {}", line.join(", "));
    for number in wanted {
        assert!(counts.contains_key(&number), "{number} was never reached");
    }
}

fn check_texts(seed: u64, sizes: &Sizes) {
    let mut tally = TextTally::default();
    for part in shared(seed, |seed| texts(&Linked, seed, sizes.texts / THREADS)) {
        tally.add(&part);
    }
    println!("texts: {} damaged or random ones read alike", tally.read.values().sum::<u64>());
    show("read", &tally.read, 0..=12);
    show("written", &tally.written, (6..=12).chain([0]));
    show("started", &tally.started, (6..=12).chain([0, 15]));
}

fn check_sessions(seed: u64, sizes: &Sizes) {
    let mut tally = Tally::default();
    for part in shared(seed, |seed| sessions(&Linked, seed, sizes.sessions / THREADS)) {
        tally.add(&part);
    }
    let Tally { plain, requests, refused, .. } = tally;
    println!("sessions: {} alike, request by request: {requests} requests", tally.sessions());
    println!("  {plain} on a plain board, demand 3's claims asserted; {refused} refused steps between");
    show("sessions", &tally.numbers, Report::failures().chain([0, 15]));
    for ((part, macros, protected, level), (all, done)) in &tally.kinds {
        let entry = if *protected { "PROTECTED" } else { "OPEN" };
        println!("  part {part}, M {macros}, from {entry}, level {level}: {all}, done {done}");
        assert!(*done > 0 && done < all);
    }
    assert_eq!(tally.kinds.len(), 4 * 2 * 3);
    show_sealed(&tally.sealed);
    assert_sealed(&tally.sealed, REPORTED[0]);
    assert!(tally.sealed.keys().any(|(.., reported)| *reported != REPORTED[0]));
}

fn show_sealed(sealed: &Sealed) {
    seal::lines(sealed).iter().for_each(|line| println!("  {line}"));
}

fn check_sealed(seed: u64) {
    let mut sum = Places::default();
    shared(seed, |seed| places::<_, Pair>(&Linked, seed)).iter().for_each(|part| sum.add(part));
    let Places { unsealed, cut: [sealed, not], .. } = sum;
    let all = sum.sealed.values().sum::<u64>() + unsealed;
    println!("macro 0 last: {all} sessions on the bench board, one disturbed at each place of steps 7 to 9, {unsealed} not sealed");
    show_sealed(&sum.sealed);
    println!("  cut at each of these places: {sealed} sealed, {not} not");
    sum.assert_all_reached();
}

fn check_forged(seed: u64, sizes: &Sizes) {
    let mut sum = Forged::default();
    for part in shared(seed, |seed| forged(seed, sizes.bases / THREADS, sizes.forged / THREADS)) {
        sum.steps += part.steps;
        sum.impossible += part.impossible;
        sum.refused += part.refused;
        add(&mut sum.reports, &part.reports);
        sum.requests += part.requests;
    }
    let Forged { steps, impossible, refused, reports, requests } = sum;
    println!(
        "forged sessions: {steps} steps alike: 13 {impossible}, 12 or 14 {refused}, requests {requests}"
    );
    show("reports", &reports, Report::failures().chain([0]));
    assert!([impossible, refused, requests].iter().all(|&count| count > 0));
}

fn check_boards(seed: u64, sizes: &Sizes) {
    let (sessions, packets) = (sizes.board_sessions / THREADS, sizes.packets / THREADS);
    let mut sum = Boards::default();
    shared(seed, |seed| boards(seed, sessions, packets)).iter().for_each(|part| sum.add(part));
    let [met, single] = sum.packets;
    println!(
        "boards: the bench board is as ours in {} sessions, {met} packets, and at {single} single packets",
        sum.sessions
    );
    println!("  {} sessions with disturbances in both lists", sum.disturbed);
    show("sessions", &sum.numbers, [0, 16, 18, 19, 20, 21, 26, 27, 28, 29, 30, 33]);
    let line: Vec<String> = sum.reached.iter().map(|(name, count)| format!("{name} {count}")).collect();
    println!("  packets: {}", line.join("; "));
    for end in ENDS {
        let calls = sum.calls.iter().filter(|((_, way), _)| *way == end);
        let line: Vec<String> = calls.map(|((call, _), count)| format!("{call:#04X}: {count}")).collect();
        println!("  calls {end}, 0x100 for other numbers: {}", line.join(", "));
    }
    sum.assert_all_reached();
}

fn check_cuts(seed: u64, sizes: &Sizes) {
    let mut sum = Cuts::default();
    let parts = shared(seed, |seed| chains::<_, Pair>(&Linked, seed, sizes.chains / THREADS));
    parts.iter().for_each(|part| sum.add(part));
    let Cuts { chains, cuts, requests, refused, .. } = sum;
    println!("cuts: {chains} boards, cut {cuts} times, loaded again or closed by KILL: {requests} requests");
    println!("  on the bench board beside ours, demand 3's claims asserted; {refused} refused steps between");
    show("sessions cut after their report", &sum.numbers, [0, 19, 26, 27, 28, 29, 33]);
    println!("  cuts: {}", sum.line());
    let line: Vec<String> =
        sum.sizes.iter().map(|((part, macros), count)| format!("part {part}, M {macros}: {count}")).collect();
    println!("  chains: {}", line.join("; "));
    sum.assert_all_reached();
}

fn main() {
    let arguments: Vec<String> = env::args().skip(1).collect();
    let long = arguments.iter().any(|word| word == "--long");
    let seed = arguments.iter().find_map(|word| word.parse().ok()).unwrap_or(7);
    let sizes = if long { &LONG } else { &SHORT };
    let start = Instant::now();
    println!("edges of the C ABI: {} calls as said", edges());
    let (read, equal) = tools();
    println!("texts by other tools: {read} read as said, {equal} equal to what the writer writes");
    let counts = rows(&Linked);
    println!(
        "rows: {} images, blank or filled from each place on, alike and as made",
        counts.values().sum::<u64>()
    );
    show("rows", &counts, [0, 10]);
    check_forged(seed, sizes);
    check_texts(seed, sizes);
    check_sessions(seed, sizes);
    check_sealed(seed);
    check_boards(seed, sizes);
    check_cuts(seed, sizes);
    println!("cross-checks passed in {:.0} s, seed {seed}", start.elapsed().as_secs_f64());
}
