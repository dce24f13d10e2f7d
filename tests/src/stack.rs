//! How much stack a call needs: it is run on a stack of its own, which is filled with a pattern before and looked
//! through afterwards.

use std::arch::asm;
use std::hint::black_box;

/// More than any call needs.
const STACK_WORDS: usize = 1 << 17;
const PATTERN: u64 = 0xa5c3_5a3c_a5c3_5a3c;

/// The bytes of stack that a call touches, the return address and the frame from which it is made among them.
///
/// A call that needs more than there is writes to what lies below, so the lowest words must be found untouched.
pub fn touched<R>(mut call: impl FnMut() -> R) -> usize {
    let mut stack = vec![PATTERN; STACK_WORDS];
    run_on(&mut stack, &mut || drop(black_box(call())));
    let untouched = stack.iter().take_while(|&&word| word == PATTERN).count();
    assert!(untouched > STACK_WORDS / 8, "the call came near the end of its stack");
    (STACK_WORDS - untouched) * size_of::<u64>()
}

/// Makes a call with the stack pointer at the end of these words.
fn run_on(stack: &mut [u64], mut call: &mut dyn FnMut()) {
    let end = stack.as_mut_ptr_range().end;
    let top = end.map_addr(|address| address & !15);
    // SAFETY: the stack pointer is aligned as a call wants it, the callee keeps r12 and so the pointer to this stack,
    // and the words below `top` belong to nobody else meanwhile. A panic in `made` ends the program.
    unsafe {
        asm!(
            "xchg r12, rsp",
            "call {made}",
            "mov rsp, r12",
            made = sym made,
            inout("r12") top => _,
            inout("rdi") &raw mut call => _,
            clobber_abi("C"),
        );
    }
}

extern "C" fn made(call: *mut &mut dyn FnMut()) {
    // SAFETY: `run_on` hands over a pointer to its own parameter, which nobody else uses meanwhile.
    unsafe { (*call)() }
}

#[cfg(test)]
mod tests {
    use super::*;

    #[test]
    fn a_local_array_is_seen() {
        let little = touched(|| ());
        let much = touched(|| {
            let mut local = [0u64; 4_096];
            black_box(&mut local);
        });
        assert!(little < 1_024, "{little} bytes for a call without local arrays");
        assert!((32_768..40_960).contains(&much), "{much} bytes for a local array of 32 KiB");
    }
}
