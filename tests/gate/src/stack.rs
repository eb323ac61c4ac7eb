//! How deep a call's stack goes: it runs on a painted stack of its own.

use std::arch::asm;

const PAINT: u8 = 0xA5;
const ROOM: usize = 1 << 20;

/// The bytes of stack that the call touched.
pub fn deepest(mut call: impl FnMut()) -> usize {
    let mut room = vec![PAINT; ROOM];
    let mut call: &mut dyn FnMut() = &mut call;
    let top = (room.as_mut_ptr() as usize + ROOM) & !15;
    // SAFETY: the stack pointer is put back before anything else uses it, and
    // the room is larger than any call needs.
    unsafe {
        asm!(
            "mov r12, rsp",
            "mov rsp, {top}",
            "call {enter}",
            "mov rsp, r12",
            top = in(reg) top,
            enter = sym enter,
            in("rdi") &mut call,
            out("r12") _,
            clobber_abi("C"),
        );
    }
    let untouched = room.iter().take_while(|&&byte| byte == PAINT).count();
    ROOM - untouched
}

extern "C" fn enter(call: &mut &mut dyn FnMut()) {
    call();
}
