//! Cases for every report, both ways in, and both sides of each limit.

use super::make::Maker;
use super::{image_bytes, Bench, Case, Override};
use crate::flow;
use crate::parts::{Sizes, IDCODE, LOCKS, OPEN, PROTECTED, TEST_MODE};
use crate::wire::{parity, Packet};

/// The transfers of a calm session whose word is that of a Read of `address`.
fn reads_of(case: &Case, address: u32) -> Vec<u32> {
    let image = image_bytes(case.seed, case.length);
    let mut bench = Bench::new(case);
    let (mut places, mut tar, mut reads, mut place) = (vec![], 0, 0, 0);
    flow::run(&case.header, &image, |packet| {
        match packet {
            Packet::Write { byte: 0x8B, word, .. } => (tar, reads) = (word, 0),
            Packet::Read { byte: 0x9F } => {
                reads += 1;
                if (tar, reads) == (address, 2) {
                    places.push(place);
                }
            }
            _ => {}
        }
        place += u32::from(packet.is_transfer());
        bench.answer(packet)
    });
    places
}

/// The flow step of a calm session's transfer: the report's, when a FAULT meets it.
fn step_at(case: &Case, at: u32) -> u8 {
    let case = Case { overrides: vec![lost(at, 1, 4)], ..case.clone() };
    let image = image_bytes(case.seed, case.length);
    let mut bench = Bench::new(&case);
    flow::run(&case.header, &image, |packet| bench.answer(packet)).step
}

/// One transfer answered OK with this word and its parity.
fn word(at: u32, word: u32) -> Override {
    Override { at, stride: 1, count: 1, carried: true, ack: 1, word, parity: parity(word) }
}

/// So many transfers running that the board never sees, with this acknowledgement.
fn lost(at: u32, count: u32, ack: u32) -> Override {
    Override { at, stride: 1, count, carried: false, ack, word: 0, parity: true }
}

/// A transfer that the board meets, answered by this acknowledgement and a word of wrong parity.
fn wrong(at: u32, ack: u32) -> Override {
    Override { at, stride: 1, count: 1, carried: true, ack, word: 1, parity: false }
}

/// A case with the places of its Reads.
struct Reads {
    case: Case,
    sizes: Sizes,
    /// 1 where the part has the IMO call.
    imo: usize,
    args: Vec<u32>,
    sysreqs: Vec<u32>,
    tests: Vec<u32>,
}

impl Reads {
    fn of(case: Case) -> Reads {
        let sizes = case.header.sizes().expect("a part of the table");
        let imo = usize::from(sizes.part.imo);
        let args = reads_of(&case, sizes.part.sysarg());
        let sysreqs = reads_of(&case, sizes.part.sysreq);
        let tests = reads_of(&case, TEST_MODE);
        Reads { case, sizes, imo, args, sysreqs, tests }
    }

    /// Where step 8 reads the level, and the image's as it is stored.
    fn level(&self) -> (u32, u32) {
        let stored = u32::from(flow::exchanged(self.case.header.level)) << 24;
        (reads_of(&self.case, self.sizes.part.level_word)[0], stored)
    }
}

impl Maker {
    /// Steps 1 to 3, both ways in.
    pub(super) fn early(&mut self, part: u32, macros: u32, stored: u8) {
        let reads = Reads::of(self.base(part, macros, stored));
        // PROTECTED has a second acquisition, after one call more.
        for time in 0..reads.tests.len() {
            self.acquisition(&reads, time);
            self.identity(&reads, time);
            self.attempts(&reads, time);
        }
        let name = if stored == OPEN { "erase status" } else { "reopening's status" };
        self.add(name, (19, 3), &reads.case, &[word(reads.args[reads.imo + 2], 0)]);
    }

    fn acquisition(&mut self, reads: &Reads, time: usize) {
        let Reads { case, imo, args, tests, .. } = reads;
        let (test, status) = (tests[time], imo + time * (imo + 3));
        let again = ["", " again"][time];
        let mut add =
            |name: &str, expected, answer| self.add(&format!("{name}{again}"), expected, case, &[answer]);
        add("IDCODE of the newer core", (16, 1), word(test - 8, 0x0BC1_1477));
        add("IDCODE 0", (16, 1), word(test - 8, 0));
        add("test bit", (17, 1), word(test, 0x7FFF_FFFF));
        if *imo == 1 {
            add("IMO status", (19, 1), word(args[status - 1], 0xF000_0001));
        }
        add("call 0 status", (19, 2), word(args[status], 0xB000_0000));
    }

    /// Step 2's own Reads: 20 before 21.
    fn identity(&mut self, reads: &Reads, time: usize) {
        let Reads { case, sizes, imo, args, sysreqs, .. } = reads;
        let (part, again) = (sizes.part, ["", " again"][time]);
        let mut add =
            |name: &str, expected, answer| self.add(&format!("{name}{again}"), expected, case, &[answer]);
        let (arg, sysreq) = (args[imo + 1 + time * (imo + 3)], sysreqs[imo + 2 + time * (imo + 4)]);
        let (ids, family) = (0xA000_0000 | u32::from(part.id_high) << 8, u32::from(part.id_family));
        let level = if time == 0 { u32::from(case.stored) } else { 1 };
        add("high", (20, 2), word(arg, ids ^ 0x100));
        add("family", (20, 2), word(sysreq, family ^ 1 | level << 12));
        add("family and level", (20, 2), word(sysreq, family ^ 1));
        if part.number == 1 {
            add("the IDs' top digit is free", (0, 9), word(arg, ids & 0xFFFF));
        }
        for low in [0x7F, 0x80, 0x9F, 0xA0] {
            let fits = part.low_fits(low);
            if !fits || time == 0 && part.number == 2 {
                let expected = if fits { (0, 9) } else { (20, 2) };
                add(&format!("board's low byte {low:#04X}"), expected, word(arg, ids | u32::from(low)));
            }
        }
        for level in [0, 2, 3, 4, 9, 15].into_iter().filter(|&level| time == 1 || level != 2) {
            add(&format!("level {level}"), (21, 2), word(sysreq, family | level << 12));
        }
    }

    /// Thirty attempts, of four kinds.
    fn attempts(&mut self, reads: &Reads, time: usize) {
        let at = reads.tests[time] - 8;
        for (ack, wrong) in [(2, false), (4, true), (7, false), (1, true)] {
            let (carried, parity) = (ack == 1, parity(IDCODE) != wrong);
            let answer = Override { at, stride: 1, count: 30, carried, ack, word: IDCODE, parity };
            let name = format!("30 attempts, {ack}{}", ["", " again"][time]);
            self.add(&name, (26, 1), &reads.case, &[answer]);
        }
    }

    /// Steps 4 to 9 of one image, from OPEN.
    pub(super) fn late(&mut self, part: u32, macros: u32) {
        let reads = Reads::of(self.base(part, macros, OPEN));
        self.statuses(&reads);
        self.comparisons(&reads);
        if macros == 2 {
            self.unheard(&reads);
        }
    }

    /// Steps 7 and 8 of two macros from PROTECTED.
    pub(super) fn locking(&mut self) {
        let reads = Reads::of(self.base(3, 2, PROTECTED));
        self.lock_statuses(&reads);
        self.lock_comparisons(&reads);
        self.unheard(&reads);
    }

    fn statuses(&mut self, reads: &Reads) {
        let Reads { case, sizes, imo, args, .. } = reads;
        let (sum, last) = (imo + 3, args.len() - 1);
        let mut add =
            |name, step, at: usize, status| self.add(name, (19, step), case, &[word(args[at], status)]);
        add("first sum's status", 4, sum, 0xC000_0000);
        add("latch status, row 0", 5, sum + 2, 0);
        add("row status, row 0", 5, sum + 3, 0x2000_0000);
        add("latch status, locks", 7, sum + 2 + 2 * sizes.rows(), 0);
        self.lock_statuses(reads);
        self.add("last sum's status", (19, 9), case, &[word(args[last - 1], 0xF000_0009)]);
    }

    /// Step 7's 0x0D for each macro. The last Reads of SYSARG: latch and 0x0D for macro 1, for macro 0, step 9's two.
    fn lock_statuses(&mut self, reads: &Reads) {
        let Reads { case, sizes, args, .. } = reads;
        for number in (0..sizes.macros).rev() {
            let status = word(args[args.len() - 3 - 2 * number], 0xF000_0009);
            self.add(&format!("locks' status, macro {number}"), (19, 7), case, &[status]);
        }
    }

    /// Macro 0's 0x0D succeeds on the board, and the session hears nothing, or noise.
    fn unheard(&mut self, reads: &Reads) {
        let Reads { case, sysreqs, .. } = reads;
        // The last poll but one is that call's, and its stale read ends it.
        let ends = sysreqs[sysreqs.len() - 2] - 1;
        self.add("silence where macro 0's call ends, carried out", (29, 7), case, &[wrong(ends, 7)]);
        self.add("noise where macro 0's call ends, carried out", (33, 7), case, &[wrong(ends, 3)]);
    }

    fn comparisons(&mut self, reads: &Reads) {
        let Reads { case, sizes, imo, args, .. } = reads;
        let image = image_bytes(case.seed, case.length);
        let in_image = |at: usize| crate::image::word(&image[at..]);
        let mut add = |name: &str, expected, answer| self.add(name, expected, case, &[answer]);
        for at in [0, sizes.flash() / 2, sizes.flash() - 4] {
            let turned = in_image(at) ^ 1 << (at % 31);
            add(&format!("flash at {at}"), (22, 6), word(reads_of(case, at as u32)[0], turned));
        }
        self.lock_comparisons(reads);
        let mut add = |name: &str, expected, answer| self.add(name, expected, case, &[answer]);
        let (privileged, first, last) = (0xA000_0000 | case.privileged, args[imo + 4], args[args.len() - 1]);
        add("first sum", (25, 9), word(first, privileged ^ 0x8000));
        add("last sum", (25, 9), word(last, privileged));
        if sizes.part.number == 1 {
            add("first sum's top half is free", (0, 9), word(first, privileged ^ 0x5FFF_0000));
            let (level, stored) = reads.level();
            add("level's other bits are free", (0, 9), word(level, stored | 0xF0FF_FFFF));
        }
    }

    /// Step 8: the first word of the locks and the last, in the order in which they are read, then the level.
    fn lock_comparisons(&mut self, reads: &Reads) {
        let Reads { case, sizes, .. } = reads;
        let image = image_bytes(case.seed, case.length);
        for (number, at) in [(sizes.macros - 1, 0), (0, sizes.lock_bytes() - 4)] {
            let place = reads_of(case, LOCKS + number as u32 * 0x400 + at as u32)[0];
            let locks = &image[sizes.flash() + number * sizes.lock_bytes() + at..];
            let turned = word(place, crate::image::word(locks) ^ 0x8000_0000);
            self.add(&format!("locks {number} at {at}"), (23, 8), case, &[turned]);
        }
        let (level, stored) = reads.level();
        self.add("level", (24, 8), case, &[word(level, stored ^ 0x0100_0000)]);
    }

    /// Both sides of each limit.
    pub(super) fn limits(&mut self) {
        let reads = Reads::of(self.base(1, 1, PROTECTED));
        let Reads { case, sysreqs: polls, tests, .. } = &reads;
        let last = polls.len() - 1;
        // Polls: step 1, IMO, call 0, then step 2's own Read, reopening's 0x0D, all again, sum, rows.
        let which = [0, 1, 2, 4, 5, 6, 7, 9, 10, 11, last - 1, last];
        for (which, step) in which.into_iter().zip([1, 1, 2, 3, 1, 1, 2, 4, 5, 5, 7, 9]) {
            let bit = if which % 2 == 0 { 0x1000_0000 } else { 0x8000_0000 };
            let busy = |count| Override { stride: 3, count, ..word(polls[which], bit) };
            self.add(&format!("10,000 polls, loop {which}"), (18, step), case, &[busy(10_000)]);
            if which % 4 == 0 {
                self.add(&format!("9,999 polls, loop {which}"), (0, 9), case, &[busy(9_999)]);
            }
        }
        let again = tests[1] - 8;
        for (ack, what) in [(0, "noise"), (7, "silence")] {
            let twice = |second| [lost(0, 29, ack), lost(again + 29, second, ack)];
            self.add(&format!("29 attempts, both times, {what}"), (0, 9), case, &twice(29));
            self.add(&format!("29 attempts, then 30, {what}"), (26, 1), case, &twice(30));
        }
        let places = [polls[2], polls[3], again + 3, polls[9], polls[20] - 8, polls[400], polls[last] + 6];
        for at in [1, 6, 7, 8].into_iter().chain(places) {
            self.add(&format!("16 WAITs at {at}"), (0, 9), case, &[lost(at, 16, 2)]);
            self.add(&format!("17 WAITs at {at}"), (27, step_at(case, at)), case, &[lost(at, 17, 2)]);
            let twice = [lost(at, 16, 2), lost(at + 17, 16, 2)];
            self.add(&format!("16 WAITs, twice, at {at}"), (0, 9), case, &twice);
        }
    }

    /// FAULT, silence, noise and wrong parity in every step.
    pub(super) fn line(&mut self, part: u32, macros: u32, stored: u8) {
        let reads = Reads::of(self.base(part, macros, stored));
        let Reads { case, sizes, args, .. } = &reads;
        let (flash, level) = (reads_of(case, 64)[0], reads_of(case, sizes.part.level_word)[0]);
        let which = [0, 1, 2, 3, 4, 5, args.len() / 2, args.len() - 4, args.len() - 1];
        let mut add = |name: &str, expected, answer| self.add(name, expected, case, &[answer]);
        for read in which.map(|which| args[which]).into_iter().chain([flash, level - 3, level]) {
            // The Read's TAR, its stale word, its word.
            let (step, tar, stale) = (step_at(case, read), read - 2, read - 1);
            add(&format!("FAULT at {tar}"), (28, step), lost(tar, 1, 4));
            add(&format!("noise 0 at {stale}"), (33, step), lost(stale, 1, 0));
            add(&format!("noise 5 at {read}, carried out"), (33, step), wrong(read, 5));
            add(&format!("silence at {stale}"), (29, step), lost(stale, 1, 7));
            add(&format!("silence at {read}, carried out"), (29, step), wrong(read, 7));
            add(&format!("parity at {stale}, stale"), (30, step), wrong(stale, 1));
            add(&format!("parity at {read}"), (30, step), wrong(read, 1));
        }
        let at = args[3] - 2;
        add("a write's word and parity are free", (0, 9), wrong(at, 1));
        for ack in [0, 3, 5, 6, 7, 8, 9, 10, 12, 255] {
            let number = if ack == 7 { 29 } else { 33 };
            // A write, then the stale word and the word of a Read.
            for at in at..=at + 2 {
                add(&format!("acknowledgement {ack} at {at}"), (number, step_at(case, at)), wrong(at, ack));
            }
            add(&format!("acknowledgement {ack}, 29 attempts"), (0, 9), lost(0, 29, ack));
            add(&format!("acknowledgement {ack}, 30 attempts"), (26, 1), lost(0, 30, ack));
        }
    }
}
