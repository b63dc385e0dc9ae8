//! The four calls on bytes, as the C ABI has them: slices of any length, and the refusal's number or 0.
//! `lib.rs` puts types around them.
//!
//! A header, a session, an outcome or a length may be longer than its size, and bytes past it stay; under
//! size it is 12, in the order that `include/halzuqeen.h` says. With a refusal every output that fits is
//! written: zeros, or the refusal; a refused step leaves the session.

// The sizes: what is lent must have at least so many bytes.
pub const HEADER: usize = 17;
pub const SESSION: usize = 45;
pub const OUTCOME: usize = 8;
pub const LENGTH: usize = 8;

#[allow(clippy::too_many_arguments)]
mod abi {
    extern "C" {
        pub fn halzuqeen_read(
            part: u8,
            macros: u8,
            text: *const u8,
            text_bytes: usize,
            image: *mut u8,
            image_bytes: usize,
            header: *mut u8,
            header_bytes: usize,
        ) -> u32;
        pub fn halzuqeen_write(
            header: *const u8,
            header_bytes: usize,
            image: *const u8,
            image_bytes: usize,
            text: *mut u8,
            text_bytes: usize,
            length: *mut u8,
            length_bytes: usize,
        ) -> u32;
        pub fn halzuqeen_start(
            header: *const u8,
            header_bytes: usize,
            image: *const u8,
            image_bytes: usize,
            leave: u8,
            session: *mut u8,
            session_bytes: usize,
            outcome: *mut u8,
            outcome_bytes: usize,
        ) -> u32;
        pub fn halzuqeen_step(
            session: *mut u8,
            session_bytes: usize,
            image: *const u8,
            image_bytes: usize,
            reset_done: u8,
            ack: u8,
            word: u32,
            parity: u8,
            outcome: *mut u8,
            outcome_bytes: usize,
        ) -> u32;
    }
}

// SAFETY, for all four: each pointer is a slice's own with its length, the mutable ones are
// borrowed as such for the call, and the callee keeps none of them.

/// Checks 11; 12 of header and image; the text.
pub fn read(part: u8, macros: u8, text: &[u8], image: &mut [u8], header: &mut [u8]) -> u32 {
    unsafe {
        abi::halzuqeen_read(
            part,
            macros,
            text.as_ptr(),
            text.len(),
            image.as_mut_ptr(),
            image.len(),
            header.as_mut_ptr(),
            header.len(),
        )
    }
}

/// Checks 12 of the header; 11; 12 of length, image and text; 6 to 10.
pub fn write(header: &[u8], image: &[u8], text: &mut [u8], length: &mut [u8]) -> u32 {
    unsafe {
        abi::halzuqeen_write(
            header.as_ptr(),
            header.len(),
            image.as_ptr(),
            image.len(),
            text.as_mut_ptr(),
            text.len(),
            length.as_mut_ptr(),
            length.len(),
        )
    }
}

/// Checks 12 of the header; 11; 12 of session, outcome and image; 6 to 10; 15.
pub fn start(header: &[u8], image: &[u8], leave: u8, session: &mut [u8], outcome: &mut [u8]) -> u32 {
    unsafe {
        abi::halzuqeen_start(
            header.as_ptr(),
            header.len(),
            image.as_ptr(),
            image.len(),
            leave,
            session.as_mut_ptr(),
            session.len(),
            outcome.as_mut_ptr(),
            outcome.len(),
        )
    }
}

/// An answer as the ABI takes it.
#[derive(Clone, Copy, PartialEq, Eq, Debug)]
pub struct Answer {
    pub reset_done: u8,
    pub ack: u8,
    pub word: u32,
    pub parity: u8,
}

/// Checks 12 of the session; 13; 12 of outcome and image; 14.
pub fn step(session: &mut [u8], image: &[u8], answer: Answer, outcome: &mut [u8]) -> u32 {
    unsafe {
        abi::halzuqeen_step(
            session.as_mut_ptr(),
            session.len(),
            image.as_ptr(),
            image.len(),
            answer.reset_done,
            answer.ack,
            answer.word,
            answer.parity,
            outcome.as_mut_ptr(),
            outcome.len(),
        )
    }
}
