//! Sessions that nobody's start gave.

use super::possible::most_transfers;
use super::*;
use crate::parts::SIZES;
use crate::rng::Rng;
use crate::texts::sample_image;

fn forged_call(rng: &mut Rng) -> Call {
    let (row, number) = (rng.below(1_100) as u16, rng.below(3) as u8);
    let calls = [
        Call::Imo,
        Call::SiliconId,
        Call::Erase,
        Call::Reopen,
        Call::FirstSum,
        Call::LoadRow(row),
        Call::ProgramRow(row),
        Call::LoadLocks(number),
        Call::Protect(number),
        Call::LastSum,
    ];
    *rng.pick(&calls)
}

fn forged_place(rng: &mut Rng) -> Place {
    let call = forged_call(rng);
    let phases =
        [Phase::List(rng.below(40) as u8), Phase::Argument, Phase::Command, Phase::Poll, Phase::Status];
    let phase = *rng.pick(&phases);
    let report =
        Report { number: rng.below(36) as u8, step: rng.below(11) as u8, transfers: rng.below(3) as u32 };
    let places = [
        Place::Xres,
        Place::LineReset,
        Place::IdCode,
        Place::CtrlStat,
        Place::Select,
        Place::Csw,
        Place::EnterTestMode,
        Place::ReadTestMode,
        Place::PollTestMode,
        Place::SiliconSysArg,
        Place::SiliconSysReq,
        Place::ReadFirstSum,
        Place::VerifyFlash(rng.below(33_000) as u32),
        Place::VerifyLocks(rng.below(3) as u8, rng.below(20) as u8),
        Place::VerifyLevel,
        Place::ReadLastSum,
        Place::Reported(report),
        Place::Call(call, phase),
    ];
    if rng.bit() {
        Place::Call(call, phase)
    } else {
        *rng.pick(&places)
    }
}

/// A session with counters about their limits.
fn forged(rng: &mut Rng, header: Header) -> Session {
    let most = most_transfers(&header.sizes().unwrap());
    let place = forged_place(rng);
    let transfers = match place {
        Place::Reported(report) if !rng.chance(4) => report.transfers,
        _ => *rng.pick(&[0, 1, 1_000, most - 1, most, most + 1]),
    };
    Session {
        header,
        place,
        transfer: rng.below(4) as u8,
        waits: *rng.pick(&[0, 1, 15, 16, 17]),
        attempts: *rng.pick(&[0, 28, 29, 30]),
        polls: *rng.pick(&[0, 1, 9_998, 9_999, 10_000]),
        reopened: rng.bit(),
        kept: rng.word(),
        transfers,
    }
}

/// "Every ... session ... is taken", and 13 is closed under steps for those that nobody gave.
#[test]
fn forged_sessions() {
    let mut rng = Rng(31);
    let images = SIZES.map(|(part, macros)| sample_image(&mut rng, part, macros));
    let (mut possible, mut impossible) = (0, 0);
    for _ in 0..60_000 {
        let (header, image) = rng.pick(&images).clone();
        let mut session = forged(&mut rng, header);
        let first = session.possible().is_some();
        if let Place::Reported(report) = session.place {
            assert!(!first || report.transfers == session.transfers);
        }
        (possible, impossible) = (possible + u32::from(first), impossible + u32::from(!first));
        for _ in 0..6 {
            let word = *rng.pick(&[0, IDCODE, 0x8000_0000, 0xA000_0000, image.len() as u32]);
            let wire = Answer::Wire { ack: *rng.pick(&[1, 1, 1, 2, 4, 0]), word, parity: parity(word) };
            let answer = if rng.chance(3) { Answer::ResetDone } else { wire };
            let before = session;
            match session.step(&image, answer) {
                Outcome::Refused(13) => assert!(!first && session == before),
                Outcome::Refused(number) => assert!(first && number == 14 && session == before),
                Outcome::Ask(_) | Outcome::Report(_) => assert!(first && session.possible().is_some()),
            }
        }
    }
    assert!(possible > 2_000 && impossible > 2_000, "{possible} {impossible}");
}
