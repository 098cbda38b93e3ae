//! Measures the stack that a call of the library needs.

use std::arch::asm;

use crate::entries::Entry;
use crate::input::Input;
use crate::lent::Lent;
use crate::rows::Measure;

/// The words of 16 bytes that a stack has: 256 KiB.
const WORDS: usize = 1 << 14;

/// What a word holds that nothing was written to.
const UNTOUCHED: u128 = 0x5a5a_a5a5_c3c3_3c3c_9696_6969_f00f_0ff0;

/// Finds how many bytes of its stack a call uses.
pub struct Stack;

impl Measure for Stack {
    type Value = usize;

    fn measure<E: Entry>(&self, input: &Input) -> usize {
        let mut lent = Lent::new();
        E::renew_lent(&mut lent, input);
        used(|| E::ours(&mut lent, input, 0))
    }
}

/// Makes a call on a stack of its own, and gives the bytes from its top down to the lowest that was written to.
fn used(mut call: impl FnMut()) -> usize {
    let mut stack = vec![UNTOUCHED; WORDS];
    let mut call: &mut dyn FnMut() = &mut call;
    // SAFETY: the stack ends at a multiple of 16 and nobody else uses it, the function that is called keeps r12, and it does not unwind.
    unsafe {
        asm!(
            "mov r12, rsp",
            "mov rsp, {top}",
            "call {run}",
            "mov rsp, r12",
            top = in(reg) stack.as_mut_ptr_range().end,
            run = sym run,
            in("rdi") &mut call,
            out("r12") _,
            clobber_abi("C"),
        );
    }
    let untouched = stack.iter().take_while(|word| **word == UNTOUCHED);
    size_of::<u128>() * (WORDS - untouched.count())
}

extern "C" fn run(call: &mut &mut dyn FnMut()) {
    call();
}
