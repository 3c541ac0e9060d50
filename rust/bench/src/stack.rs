//! How much stack a call uses: on a thread of its own the free stack is painted, the call is made, and the lowest place where the
//! paint is gone says how far it went.
//!
//! The painting writes below the stack pointer, where nothing lives: the painter's own frame lies above the painted part, the
//! thread's stack is mapped as a whole, and a signal could only make the figure too large. No Rust object is there, so
//! the language promises nothing about it; it holds for the stacks of Linux threads.

use std::hint::black_box;
use std::ptr::{read_volatile, write_volatile};

/// The stack of the thread, and how much of it is painted: the paint ends well above the thread's guard page.
const STACK: usize = 4 << 20;
const PAINTED: usize = 2 << 20;
/// Left unpainted for the painter's own frame; a call that uses less is counted as this much.
pub const LEAST: usize = 512;
const PAINT: u64 = 0x5EA1_ED0F_F1CE_5EA1;

/// Bytes of stack that a call uses below its caller's frame, at least `LEAST`.
pub fn used(call: impl FnOnce() + Send) -> usize {
    std::thread::scope(|scope| {
        let thread = std::thread::Builder::new().stack_size(STACK);
        let depth = thread.spawn_scoped(scope, || depth_of(call));
        depth.expect("a thread").join().expect("a call that ends")
    })
}

#[inline(never)]
fn depth_of(call: impl FnOnce()) -> usize {
    let top = paint();
    call();
    let lowest = lowest_change(top);
    top as usize - lowest as usize + LEAST
}

/// Paints the free stack, and gives the address where the paint begins.
#[inline(never)]
fn paint() -> *mut u64 {
    let mut here = 0u64;
    let top = black_box(&mut here as *mut u64).wrapping_sub(LEAST / 8);
    for place in 1..=PAINTED / 8 {
        unsafe { write_volatile(top.wrapping_sub(place), PAINT) };
    }
    top
}

#[inline(never)]
fn lowest_change(top: *mut u64) -> *mut u64 {
    let mut place = top.wrapping_sub(PAINTED / 8);
    while place < top && unsafe { read_volatile(place) } == PAINT {
        place = place.wrapping_add(1);
    }
    place
}
