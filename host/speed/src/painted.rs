//! How deep the proved engine's functions go into the stack. A call is made on
//! a stack of its own that was painted before; what lost its paint was used.

use std::arch::asm;

use proved_engine::c;

use crate::engines::Call;

const SIZE: usize = 64 * 1024;
const PAINT: u8 = 0xA5;

/// A C function of these takes six words in registers and three on the stack.
const WORDS: usize = 9;
/// What lies above the callee's return address: three words, and one to keep
/// the stack aligned.
const ABOVE: usize = 4 * 8;

/// An exported function and how many bytes of stack a call has changed, its
/// return address among them.
pub struct Depth {
    pub function: &'static str,
    pub bytes: usize,
}

pub fn store_size() -> Depth {
    measure("gwz_store_size", c::gwz_store_size as *const (), &[])
}

pub fn power_on(store: &mut [u8], product: u8) -> Depth {
    let words = [store.as_mut_ptr() as usize, store.len(), product.into()];
    measure("gwz_power_on", c::gwz_power_on as *const (), &words)
}

pub fn call(store: &mut [u8], call: &Call, reply: &mut [u8]) -> Depth {
    let store = [store.as_mut_ptr() as usize, store.len()];
    let reply = [reply.as_mut_ptr() as usize, reply.len()];
    match *call {
        Call::Message(ref message) => {
            let message = [message.as_ptr() as usize, message.len()];
            let words = [&store[..], &message, &reply].concat();
            measure("gwz_handle", c::gwz_handle as *const (), &words)
        }
        Call::Attribute { class_id, instance, attribute, ref content } => {
            let named = [class_id.into(), instance.into(), attribute.into()];
            let content = [content.as_ptr() as usize, content.len()];
            let words = [&store[..], &named, &content, &reply].concat();
            measure("gwz_report_attribute", c::gwz_report_attribute as *const (), &words)
        }
        Call::Alarm { class_id, instance, alarm, on } => {
            let named = [class_id.into(), instance.into(), alarm.into(), on.into()];
            let words = [&store[..], &named, &reply].concat();
            measure("gwz_report_alarm", c::gwz_report_alarm as *const (), &words)
        }
    }
}

fn measure(function: &'static str, entry: *const (), arguments: &[usize]) -> Depth {
    let mut words = [0; WORDS];
    words[..arguments.len()].copy_from_slice(arguments);
    let mut stack = vec![PAINT; SIZE];
    // A stack begins at its end, at a multiple of 16.
    let top = (stack.as_mut_ptr() as usize + SIZE) & !15;
    // SAFETY: the callers above hand on the address of a C function and, as
    // its arguments, what slices say; the stack has far more room than any of
    // these functions uses, and the check below would tell.
    unsafe { call_on(top, entry, words) };
    let untouched = stack.iter().take_while(|&&byte| byte == PAINT).count();
    assert!(untouched > SIZE / 2, "{function} needs more than half of the painted stack");
    Depth { function, bytes: top - ABOVE - (stack.as_ptr() as usize + untouched) }
}

/// Calls a C function with nine words while the stack pointer is elsewhere.
unsafe fn call_on(top: usize, entry: *const (), words: [usize; WORDS]) {
    asm!(
        "xchg rsp, r12",
        "sub rsp, 8",
        "push r15",
        "push r14",
        "push r13",
        "call {entry}",
        "mov rsp, r12",
        entry = in(reg) entry,
        inout("r12") top => _,
        in("rdi") words[0],
        in("rsi") words[1],
        in("rdx") words[2],
        in("rcx") words[3],
        in("r8") words[4],
        in("r9") words[5],
        in("r13") words[6],
        in("r14") words[7],
        in("r15") words[8],
        clobber_abi("C"),
    );
}
