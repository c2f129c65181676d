//! How many bytes of stack a call takes: it runs on a stack of our own that was painted before, and what it wrote is counted from the top down.
use std::arch::asm;

const SIZE: usize = 256 * 1024;

extern "C" fn enter(call: *mut &mut dyn FnMut()) {
    unsafe { (*call)() }
}

/// The lowest byte of the stack that a call changes, counted from the top, with this paint.
fn changed(mut call: &mut dyn FnMut(), paint: u8) -> usize {
    let mut stack = vec![paint; SIZE];
    let top = (stack.as_mut_ptr() as usize + SIZE) & !15;
    let lent: *mut &mut dyn FnMut() = &mut call;
    // The stack pointer is kept in a register that every C function gives back as it was.
    unsafe {
        asm!(
            "mov r12, rsp",
            "mov rsp, {top}",
            "call {enter}",
            "mov rsp, r12",
            top = in(reg) top,
            enter = sym enter,
            in("rdi") lent,
            out("r12") _,
            clobber_abi("C"),
        );
    }
    let untouched = stack.iter().position(|&b| b != paint).unwrap_or(SIZE);
    assert!(untouched > SIZE / 8, "the painted stack is too small");
    top - stack.as_ptr() as usize - untouched
}

/// The bytes that a call takes beyond those of an empty one. Two paints, so that a byte that happens to have the paint's value is seen.
pub fn stack_of(call: &mut dyn FnMut()) -> usize {
    let taken = changed(call, 0xa5).max(changed(call, 0x5a));
    taken - changed(&mut || {}, 0xa5)
}

#[cfg(test)]
mod tests {
    use std::hint::black_box;

    #[test]
    fn four_kilobytes_are_seen() {
        let taken = super::stack_of(&mut || {
            black_box([7u8; 4096]);
        });
        assert!((4096..4096 + 512).contains(&taken), "{taken}");
    }
}
