//! The stack that the library's calls need. Each is made on a stack of its own,
//! which was painted before the first; how far the paint is gone is what the
//! deepest of them needed.

use std::arch::asm;
use std::sync::OnceLock;

const BYTES: usize = 1 << 20;
const PAINT: u8 = 0xa5;

/// The painted stack's lowest address.
fn painted() -> usize {
    static LOWEST: OnceLock<usize> = OnceLock::new();
    *LOWEST.get_or_init(|| {
        let stack = Box::leak(vec![PAINT; BYTES + 16].into_boxed_slice());
        stack.as_ptr() as usize + stack.as_ptr().align_offset(16)
    })
}

extern "C" fn trampoline(work: &mut &mut dyn FnMut()) {
    work()
}

/// Does the work on the painted stack.
pub fn on_painted(mut work: &mut dyn FnMut()) {
    unsafe {
        asm!(
            "mov r12, rsp",
            "mov rsp, {top}",
            "call {run}",
            "mov rsp, r12",
            top = in(reg) painted() + BYTES,
            run = sym trampoline,
            in("rdi") &mut work,
            out("r12") _,
            clobber_abi("C"),
        );
    }
}

/// How many bytes of the stack were written since the program began, in whole
/// words; some of them, up to 200, are those of the call on it.
pub fn deepest() -> usize {
    let stack = unsafe { std::slice::from_raw_parts(painted() as *const u8, BYTES) };
    let left = std::hint::black_box(stack).iter().take_while(|&&byte| byte == PAINT).count();
    (BYTES - left).next_multiple_of(8)
}
