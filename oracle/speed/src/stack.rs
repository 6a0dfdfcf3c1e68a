//! How deep a call goes into the stack: it is made on a stack of its own,
//! painted before, and the deepest word that lost its paint is looked for.

use std::ffi::c_void;

/// Words of the stack: 64 KiB.
const WORDS: usize = 8_192;
const PAINT: u64 = 0xD15E_A5ED_0DD5_BA11;

pub struct Stack {
    words: Vec<u64>,
}

impl Stack {
    #[must_use]
    pub fn new() -> Self {
        Self {
            words: vec![PAINT; WORDS],
        }
    }

    /// Bytes from the top to the deepest word that the call wrote.
    pub fn deepest<F: FnMut()>(&mut self, mut act: F) -> usize {
        self.words.fill(PAINT);
        let act: *mut F = &mut act;
        // SAFETY: the stack is ours and far larger than any call, and `enter::<F>` gets the closure that it takes.
        unsafe { call_on(self.words.as_mut_ptr_range().end, enter::<F>, act.cast()) };
        let untouched = self.words.iter().take_while(|word| **word == PAINT);
        8 * (WORDS - untouched.count())
    }
}

extern "C" fn enter<F: FnMut()>(act: *mut c_void) {
    // SAFETY: `deepest` passes a closure of this type, which lives across the call.
    unsafe { (*act.cast::<F>())() }
}

/// Calls `enter(act)` on the stack that ends at `top`, which is a multiple
/// of 16.
#[cfg(target_arch = "aarch64")]
unsafe fn call_on(top: *mut u64, enter: extern "C" fn(*mut c_void), act: *mut c_void) {
    // SAFETY: the register that keeps the old stack is kept by the callee.
    unsafe {
        std::arch::asm!(
            "mov x20, sp",
            "mov sp, {top}",
            "blr {enter}",
            "mov sp, x20",
            top = in(reg) top,
            enter = in(reg) enter,
            in("x0") act,
            out("x20") _,
            clobber_abi("C"),
        );
    }
}

#[cfg(target_arch = "x86_64")]
unsafe fn call_on(top: *mut u64, enter: extern "C" fn(*mut c_void), act: *mut c_void) {
    // SAFETY: the register that keeps the old stack is kept by the callee.
    unsafe {
        std::arch::asm!(
            "mov r12, rsp",
            "mov rsp, {top}",
            "call {enter}",
            "mov rsp, r12",
            top = in(reg) top,
            enter = in(reg) enter,
            in("rdi") act,
            out("r12") _,
            clobber_abi("C"),
        );
    }
}
