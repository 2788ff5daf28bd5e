// The stack that a call takes: the stack below is painted, the call made, and the lowest touched byte looked for.

use std::thread;

/// How far down is painted.
const DEPTH: usize = 4 << 20;
/// Left unpainted below the measuring function, which has its own frame there: less than this is not seen.
pub const UNSEEN: usize = 512;
const PAINT: u64 = 0xA5A5_5A5A_C3C3_3C3C;

/// The bytes of stack below the caller's frame that a call touches.
pub fn taken_by(call: impl FnOnce() + Send) -> usize {
    thread::scope(|scope| {
        let builder = thread::Builder::new().stack_size(DEPTH + (1 << 20));
        builder.spawn_scoped(scope, || measure(call)).expect("a thread").join().expect("a call that ends")
    })
}

/// A stack as a hypervisor's thread has it.
const SMALL: usize = 64 << 10;

/// The call made on a thread with that stack, its own frames among them.
pub fn on_small<R: Send>(call: impl FnOnce() -> R + Send) -> R {
    thread::scope(|scope| {
        let builder = thread::Builder::new().stack_size(SMALL);
        builder.spawn_scoped(scope, call).expect("a thread").join().expect("a call that ends")
    })
}

#[inline(never)]
fn measure(call: impl FnOnce()) -> usize {
    let mark = 0u64;
    let top = std::hint::black_box(&raw const mark) as usize;
    paint(top);
    call();
    top - lowest(top)
}

#[inline(never)]
fn paint(top: usize) {
    for at in (top - DEPTH..top - UNSEEN).step_by(8) {
        // SAFETY: the thread's stack reaches further down than this, and no frame stands there.
        unsafe { (at as *mut u64).write_volatile(PAINT) };
    }
}

#[inline(never)]
fn lowest(top: usize) -> usize {
    // SAFETY: as in `paint`.
    let touched = |at: &usize| unsafe { (*at as *const u64).read_volatile() } != PAINT;
    (top - DEPTH..top - UNSEEN).step_by(8).find(touched).unwrap_or(top)
}
