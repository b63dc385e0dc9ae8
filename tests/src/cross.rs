//! Holds another core to this one: rows filled at every place, damaged and random texts, written texts, whole
//! sessions request by request. Implement `Core` for the core in question and call `rows`, `texts` and `sessions`.

mod rows;
mod runs;
mod steps;
mod texts;

pub use rows::rows;
pub use runs::{random_run, Run, Tampered};
pub use steps::{one_session, sessions, Tally};
pub use texts::{damage, texts, TextTally};

use crate::hex;
use crate::image::Header;
use crate::session::{self, Outcome, Session};
use crate::wire::Answer;
use std::collections::BTreeMap;
use std::fmt::Debug;

/// The calls of a core, as DESIGN's table of calls has them.
pub trait Core {
    type Session: Clone + PartialEq + Debug;
    fn read(&self, part: u32, macros: u32, text: &[u8], buffer: &mut [u8]) -> (u8, Header);
    fn write(&self, header: &Header, image: &[u8], text: &mut [u8]) -> (u8, usize);
    fn start(&self, header: &Header, image: &[u8], leave: bool) -> (Self::Session, Outcome);
    fn step(&self, session: &mut Self::Session, image: &[u8], answer: Answer) -> Outcome;
}

/// This crate's own.
pub struct Reference;

impl Core for Reference {
    type Session = Session;

    fn read(&self, part: u32, macros: u32, text: &[u8], buffer: &mut [u8]) -> (u8, Header) {
        hex::read(part, macros, text, buffer)
    }

    fn write(&self, header: &Header, image: &[u8], text: &mut [u8]) -> (u8, usize) {
        hex::write(header, image, text)
    }

    fn start(&self, header: &Header, image: &[u8], leave: bool) -> (Session, Outcome) {
        session::start(header, image, leave)
    }

    fn step(&self, session: &mut Session, image: &[u8], answer: Answer) -> Outcome {
        session.step(image, answer)
    }
}

/// How often each number came.
pub type Counts = BTreeMap<u8, u64>;

/// Adds counts to others, key by key.
pub fn add<K: Ord + Copy>(sum: &mut BTreeMap<K, u64>, more: &BTreeMap<K, u64>) {
    more.iter().for_each(|(&key, count)| *sum.entry(key).or_default() += count);
}

#[cfg(test)]
mod tests {
    use super::*;
    use crate::flow::Report;

    /// The generators reach every number: the counts that a cross-check will show.
    #[test]
    fn texts_reach_every_number() {
        let tally = texts(&Reference, 1, 8_000);
        println!("{tally:?}");
        assert!((0..=12).all(|number| tally.read.contains_key(&number)), "{tally:?}");
        assert!((6..=12).chain([0]).all(|number| tally.written.contains_key(&number)), "{tally:?}");
        assert!((6..=12).chain([0, 15]).all(|number| tally.started.contains_key(&number)), "{tally:?}");
    }

    #[test]
    fn rows_reach_0_and_10() {
        let counts = rows(&Reference);
        println!("{counts:?}");
        assert!([0, 10].iter().all(|number| counts[number] > 800));
    }

    #[test]
    fn sessions_reach_every_number() {
        let tally = sessions(&Reference, 2, 500);
        println!("{tally:?}");
        assert!(
            Report::failures().chain([0, 15]).all(|number| tally.numbers.contains_key(&number)),
            "{tally:?}"
        );
    }
}
