//! The session by index hands out what the session of places does.

use super::*;
use crate::cross::random_run;
use crate::parts::SIZES;
use crate::rng::Rng;
use crate::session::start;

#[test]
fn same_as_the_session_of_places() {
    let mut rng = Rng(31);
    for round in 0..60 {
        let (part, macros) = SIZES[[0, 1, 0, 2, 0, 3][round % 6]];
        let run = random_run(&mut rng, part, macros);
        let (header, image) = (&run.header, &run.image);
        let lists = [Entry::Open, Entry::Protected].map(|entry| sequence(header, image, entry));
        let (mut board, mut left) = (run.board.clone(), run.lists.clone());
        let ((mut session, mut outcome), mut bytes) = (start(header, image, true), started(header));
        while let Outcome::Ask(packet) = outcome {
            let answer = board.answer(packet, &mut left);
            outcome = session.step(image, answer);
            let got = step(&mut bytes, image.len(), answer, |_, entry| &lists[entry as usize]);
            assert_eq!(got, outcome);
        }
    }
}
