//! The pins of examples/pins.h with a plain board behind them, for the C host. What a host does wrong on
//! the wire (both sides driving, a short line reset, a missed window) ends the process with a panic.
//!
//! The environment says which board: `BOARD` = "PART MACROS STORED_LEVEL", `BOOT_US` how long it starts
//! after XRES, `SLIP` at which transfer the clip slips for good (silence), `NOISE` at which one noise sets in for good,
//! `WAIT` one transfer that waits.

mod port;

use port::Port;
use reference::board::{Board, Line, LineEvent, Lists};
use reference::image::header_for;
use reference::parts::Sizes;
use std::env;
use std::os::raw::{c_int, c_uint};
use std::sync::{Mutex, MutexGuard, OnceLock};

fn number(name: &str) -> Option<u64> {
    env::var(name).ok().map(|text| text.parse().expect("a number"))
}

fn board() -> Board {
    let text = env::var("BOARD").unwrap_or_else(|_| "1 1 1".into());
    let words: Vec<u32> = text.split(' ').map(|word| word.parse().expect("BOARD")).collect();
    let [part, macros, stored] = words[..] else { panic!("BOARD = PART MACROS STORED_LEVEL") };
    let image = vec![0; Sizes::of(part, macros).expect("a part of the table").image()];
    let header = header_for(part, macros, 0x0A, 0x0A, 1, &image);
    let mut board = Board::blank(&header, stored as u8);
    board.flash.fill(0x5A);
    board.privileged = 0x0ABC_DEF0;
    board
}

/// The line's list: calm, or with the one disturbance that the environment asks for.
fn lists() -> Lists {
    let mut lists = Lists::default();
    if let Some(at) = number("SLIP") {
        lists.line = vec![LineEvent::OK; at as usize];
        lists.line.extend([LineEvent::of(Line::SilentLost); 64]);
    }
    if let Some(at) = number("NOISE") {
        lists.line = vec![LineEvent::OK; at as usize];
        lists.line.extend([LineEvent { noise: 5, ..LineEvent::of(Line::NoisyLost) }; 64]);
    }
    if let Some(at) = number("WAIT") {
        lists.line = vec![LineEvent::OK; at as usize];
        lists.line.push(LineEvent::of(Line::Wait));
    }
    lists
}

fn port() -> MutexGuard<'static, Port> {
    static PORT: OnceLock<Mutex<Port>> = OnceLock::new();
    let made =
        PORT.get_or_init(|| Mutex::new(Port::new(board(), lists(), number("BOOT_US").unwrap_or(3_000))));
    made.lock().expect("one thread")
}

#[no_mangle]
pub extern "C" fn pins_xres(level: c_int) {
    port().xres(level != 0);
}

#[no_mangle]
pub extern "C" fn pins_clock(level: c_int) {
    port().clock(level != 0);
}

#[no_mangle]
pub extern "C" fn pins_drive(level: c_int) {
    port().drive(Some(level != 0));
}

#[no_mangle]
pub extern "C" fn pins_release() {
    port().drive(None);
}

#[no_mangle]
pub extern "C" fn pins_sample() -> c_int {
    port().sample().into()
}

#[no_mangle]
pub extern "C" fn pins_pause_us(time: c_uint) {
    port().pause(u64::from(time) * 1_000);
}
