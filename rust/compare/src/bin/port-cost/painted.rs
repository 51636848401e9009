//! A call on a painted stack.

use std::arch::asm;

/// Its length, in sixteens of bytes.
const LENGTH: usize = 1024;

/// Work to be done on another stack.
type Work<'a> = &'a mut dyn FnMut();

/// Does the work on a stack painted with this byte; as many bytes as then have no paint to where it
/// begins, at its end.
pub fn depth(paint: u8, work: Work) -> usize {
    let mut stack = vec![u128::from_le_bytes([paint; 16]); LENGTH];
    work_on(&mut stack, work);
    let bytes = stack.iter().flat_map(|bytes| bytes.to_le_bytes());
    let untouched = bytes.take_while(|&byte| byte == paint).count();
    16 * LENGTH - untouched
}

/// Does the work with the stack pointer at the end of this stack.
fn work_on(stack: &mut [u128], mut work: Work) {
    // SAFETY: the stack pointer is set to the end of memory that is lent to nothing else, aligned
    // by 16 as a call wants it, and set back from r12, which `enter` keeps as C does. What the call
    // may change beside it is named as clobbered. `enter` gets a valid pointer, used by it alone
    // meanwhile, and does not unwind.
    unsafe {
        asm!(
            "mov r12, rsp",
            "mov rsp, {end}",
            "call {enter}",
            "mov rsp, r12",
            end = in(reg) stack.as_mut_ptr_range().end,
            enter = in(reg) enter as extern "C" fn(&mut Work<'_>),
            in("rdi") &raw mut work,
            out("r12") _,
            clobber_abi("C"),
        );
    }
}

extern "C" fn enter(work: &mut Work) {
    work();
}

#[cfg(test)]
mod tests {
    use super::depth;
    use std::hint::black_box;

    /// Writes so many bytes on the stack.
    #[inline(never)]
    fn write<const BYTES: usize>() {
        black_box([1_u8; BYTES]);
    }

    #[test]
    fn a_known_array() {
        let small = depth(0xA5, &mut write::<16>);
        let large = depth(0xA5, &mut write::<4096>);
        // The array itself, and at most one copy of it.
        let taken = large - small;
        assert!((4000..8300).contains(&taken), "{taken}");
    }
}
