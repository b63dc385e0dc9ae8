//! Document 01 once more, in plain Rust: the second opinion that the proved core is held to.
//! Written from the papers, never from the Rattle code. Comments quote document 01.

pub mod board;
pub mod cases_dry;
pub mod cases_hex;
pub mod cases_session;
pub mod claims;
pub mod counts;
pub mod cross;
pub mod cuts;
pub mod flow;
pub mod fnv;
pub mod hex;
pub mod image;
pub mod indexed;
#[cfg(feature = "linked")]
pub mod linked;
pub mod monitor;
pub mod parts;
pub mod play;
pub mod rng;
pub mod seal;
pub mod session;
pub mod texts;
pub mod wire;
