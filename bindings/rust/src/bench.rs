//! The bench board (`include/halzuqeen_bench.h`, archive `libbench_c.a`): the plain board of document 01, for tests of hosts.

pub const BOARD: usize = 46;
pub const EVENT: usize = 11;
pub const CALL: usize = 10;
pub const ANSWER: usize = 8;

mod abi {
    #[link(name = "bench_c", kind = "static")]
    extern "C" {
        pub fn halzuqeen_bench_meet(
            part: u8,
            macros: u8,
            board: *mut u8,
            board_bytes: usize,
            flash: *mut u8,
            flash_bytes: usize,
            locks: *mut u8,
            locks_bytes: usize,
            latch: *mut u8,
            latch_bytes: usize,
            params: *mut u32,
            params_words: usize,
            residue_flash: *const u8,
            residue_flash_bytes: usize,
            residue_locks: *const u8,
            residue_locks_bytes: usize,
            residue_latch: *const u8,
            residue_latch_bytes: usize,
            event: *const u8,
            event_bytes: usize,
            call: *const u8,
            call_bytes: usize,
            packet: *const u8,
            packet_bytes: usize,
            answer: *mut u8,
            answer_bytes: usize,
        ) -> u32;
    }
}

/// What the bench board is: its registers' bytes, its memory, and PARAMS as words.
pub struct Bench<'a> {
    pub board: &'a mut [u8],
    pub flash: &'a mut [u8],
    pub locks: &'a mut [u8],
    pub latch: &'a mut [u8],
    pub params: &'a mut [u32],
}

/// What becomes of a transfer and of a call, and a failed call's residue: flash, locks and latch.
pub struct Outcomes<'a> {
    pub event: &'a [u8],
    pub call: &'a [u8],
    pub residue: [&'a [u8]; 3],
}

/// The bench board meets a packet, an outcome's bytes.
pub fn meet(
    part: u8,
    macros: u8,
    bench: Bench,
    Outcomes { event, call, residue: [flash, locks, latch] }: Outcomes,
    packet: &[u8],
    answer: &mut [u8],
) -> u32 {
    // SAFETY: as in `raw`: each pointer is a slice's own with its length, and the callee keeps none.
    unsafe {
        abi::halzuqeen_bench_meet(
            part,
            macros,
            bench.board.as_mut_ptr(),
            bench.board.len(),
            bench.flash.as_mut_ptr(),
            bench.flash.len(),
            bench.locks.as_mut_ptr(),
            bench.locks.len(),
            bench.latch.as_mut_ptr(),
            bench.latch.len(),
            bench.params.as_mut_ptr(),
            bench.params.len(),
            flash.as_ptr(),
            flash.len(),
            locks.as_ptr(),
            locks.len(),
            latch.as_ptr(),
            latch.len(),
            event.as_ptr(),
            event.len(),
            call.as_ptr(),
            call.len(),
            packet.as_ptr(),
            packet.len(),
            answer.as_mut_ptr(),
            answer.len(),
        )
    }
}
