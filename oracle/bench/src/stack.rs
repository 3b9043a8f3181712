//! How much of the stack a call takes: what lies below the caller is painted, the call is made, and what has another colour then is
//! counted.
use std::hint::black_box;
use std::ptr::{read_volatile, write_volatile};

const DEPTH: usize = 64 * 1024;
const PAINT: u8 = 0xa5;

#[inline(never)]
fn paint() {
    let mut room = [0; DEPTH];
    for byte in &mut room {
        unsafe { write_volatile(byte, PAINT) };
    }
    black_box(&mut room);
}

/// From the lowest place below `top` that isn't painted any more, how far it is to `top`.
#[inline(never)]
fn reached(top: usize) -> usize {
    // the lowest places that `paint` reached may lie deeper than those looked at here
    let from = top - DEPTH + 1024;
    // what is read lies in the stack of this thread, below all that is in use
    let is_painted = |at: &usize| unsafe { read_volatile(*at as *const u8) } == PAINT;
    top - (from..top).find(|at| !is_painted(at)).unwrap_or(top)
}

/// The bytes that a call takes, with what it calls.
#[inline(never)]
pub fn of(call: impl FnOnce()) -> usize {
    let here = 0_u8;
    let top = black_box(&here) as *const u8 as usize;
    paint();
    call();
    reached(top)
}
