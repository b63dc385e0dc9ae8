//! The stack that a call needs: it is run on a painted stack, and the paint that is gone is counted.

use std::arch::asm;

const BYTES: usize = 256 * 1024;
const PAINT: u8 = 0xA7;

extern "C" fn run(call: *mut &mut dyn FnMut()) {
    // SAFETY: `painted` hands in a pointer to its own parameter, which outlives the call.
    unsafe { (*call)() }
}

/// The bytes of stack below `run`'s caller that this call touches.
#[cfg(target_arch = "x86_64")]
fn painted(mut call: &mut dyn FnMut()) -> usize {
    let mut stack = vec![PAINT; BYTES];
    let top = (stack.as_mut_ptr() as usize + BYTES) & !15;
    // SAFETY: the stack is ours, aligned and large; r12 is kept by the callee and holds the old one.
    unsafe {
        asm!(
            "xchg rsp, r12",
            "call {run}",
            "mov rsp, r12",
            run = in(reg) run as extern "C" fn(*mut &mut dyn FnMut()) as usize,
            in("rdi") &mut call as *mut &mut dyn FnMut(),
            inout("r12") top => _,
            clobber_abi("C"),
        );
    }
    let left = stack.iter().position(|&byte| byte != PAINT).unwrap_or(BYTES);
    (BYTES - left).next_multiple_of(16)
}

/// What the call needs beyond an empty one.
pub fn need(call: &mut dyn FnMut()) -> usize {
    painted(call).saturating_sub(painted(&mut || {}))
}
