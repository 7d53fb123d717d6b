//! Fill and look: how much stack a call of the library takes.
//!
//! **Own stack** of a call: the bytes below the stack pointer as it stands when the `call` instruction is carried out,
//! down to the lowest one that is written before the call returns. The return address is in it (8 bytes), and the
//! frames of the function and of all that it calls. The caller's frame, the arguments that the caller puts on the
//! stack, and the caller's board, chunk, room and page are not. `bin/frames` counts the same way in the disassembly.
//!
//! **Method.** A thread fills its stack below its frame with one byte, makes the call, and then waits in a loop, while
//! another thread looks through /proc/self/mem for the lowest byte that is no longer as it was filled. The same is done
//! with a function of the very same signature, called from the very same machine code, that returns and does nothing
//! else: it takes its return address, 8 bytes. So the difference of the two depths, and 8, is the own stack.
//!
//! Bytes that are reserved and never written are not seen; `bin/frames` sees them. What the C library's memset takes is
//! seen. Only the library's frames count, so a debug build gives the same figures.

use ketphiroj::PAGE;
use std::fs::File;
use std::hint::{black_box, spin_loop};
use std::mem::MaybeUninit;
use std::os::unix::fs::FileExt;
use std::ptr::from_ref;
use std::sync::atomic::{AtomicBool, AtomicUsize, Ordering};
use std::thread;

/// A call with its arguments, ready to be made.
pub trait Call {
    /// What it is given. It is kept on the heap, so that none of it is on the stack that is looked at.
    type Given: Clone + Sync;

    /// A pointer to a function of the call's signature.
    type Function: Copy + Sync;

    /// One that returns and does nothing else, in every build.
    const NOTHING: Self::Function;

    /// Takes the arguments out of what is given.
    fn lend(given: &mut Self::Given) -> Self;

    /// Calls the function. It is never inlined, and calls nothing else, or that would be measured too.
    fn make(&self, function: Self::Function);
}

/// How far down the stack is filled. Half of it is looked at.
const AREA: usize = 64 << 10;

/// What stands between the frame of the thread's function and that of the caller, so that no other call is as deep as
/// the one that is measured.
const GAP: usize = 4 << 10;

/// Several, so that a byte that happens to be written as it was filled is not missed.
const FILLINGS: [u8; 3] = [0xC3, 0x3C, 0x99];

const RETURN_ADDRESS: usize = 8;

/// What the two threads tell each other.
#[derive(Default)]
struct Watch {
    top: AtomicUsize,
    called: AtomicBool,
    looked: AtomicBool,
}

#[inline(never)]
fn fill(filling: u8) {
    let mut area = [0; AREA];
    area.fill(filling);
    black_box(&mut area);
}

/// The gap is not written: memset would write its return address where that of the function comes.
#[inline(never)]
fn call_below_gap<C: Call>(call: &C, function: Option<C::Function>) {
    let mut gap = MaybeUninit::<[u8; GAP]>::uninit();
    black_box(&mut gap);
    if let Some(function) = function {
        call.make(function);
    }
    black_box(&mut gap);
}

/// The thread that is looked at. The call is made once before, so that nothing is bound or loaded in the one that is
/// measured. The compiler is not told which function it is, so that it makes the same code for all.
fn filled_call<C: Call>(given: &C::Given, function: Option<C::Function>, filling: u8, watch: &Watch) {
    let mark = 0u8;
    let function = black_box(function);
    let mut before = Box::new(given.clone());
    call_below_gap(&C::lend(&mut before), function);
    let mut given = Box::new(given.clone());
    let call = C::lend(&mut given);
    fill(filling);
    call_below_gap(&call, function);
    watch.top.store(from_ref(black_box(&mark)).addr(), Ordering::Relaxed);
    watch.called.store(true, Ordering::Release);
    while !watch.looked.load(Ordering::Acquire) {
        spin_loop();
    }
}

/// How far below the frame of the thread's function the lowest byte is that is not as it was filled.
fn depth<C: Call>(given: &C::Given, function: Option<C::Function>, filling: u8) -> usize {
    let watch = Watch::default();
    let memory = File::open("/proc/self/mem").expect("Linux");
    let mut area = vec![0; AREA / 2];
    thread::scope(|scope| {
        let looked_at = thread::Builder::new().stack_size(4 * AREA);
        let thread = looked_at.spawn_scoped(scope, || filled_call::<C>(given, function, filling, &watch));
        let thread = thread.expect("a thread");
        while !watch.called.load(Ordering::Acquire) {
            assert!(!thread.is_finished(), "the thread ended before its call");
            thread::yield_now();
        }
        let bottom = watch.top.load(Ordering::Relaxed) - area.len();
        let read = memory.read_exact_at(&mut area, bottom as u64);
        watch.looked.store(true, Ordering::Release);
        read.expect("the thread's stack");
    });
    let lowest = area.iter().position(|&byte| byte != filling).expect("nothing was written");
    assert!(lowest > 1024, "the stack was not filled, or the call went deeper than what was looked at");
    area.len() - lowest
}

fn deepest<C: Call>(given: &C::Given, function: Option<C::Function>) -> usize {
    let depths = FILLINGS.map(|filling| depth::<C>(given, function, filling));
    depths.into_iter().max().expect("several fillings")
}

/// The own stack of a call of a function of the library.
pub fn own_stack<C: Call>(given: &C::Given, function: C::Function) -> usize {
    let no_call = deepest::<C>(given, None);
    let nothing = deepest::<C>(given, Some(C::NOTHING));
    let depth = deepest::<C>(given, Some(function));
    assert!(no_call < nothing, "not even a return address was seen: {nothing} bytes, and {no_call} without a call");
    assert!(nothing < depth, "the function was not seen to write more than its return address");
    depth - nothing + RETURN_ADDRESS
}

/// The pages that a call is measured on, by the number of their entries.
pub fn pages() -> [[u8; PAGE]; 3] {
    let none = plain::Values::default();
    let three = plain::Values { baud: Some(9600), accelerometer: Some(1), gyroscope: Some(1), last_number: None };
    let four = plain::Values { last_number: Some(1), ..three };
    [none, three, four].map(|values| plain::write_page(&values))
}

pub fn print_heading() {
    println!("the library's own stack in bytes, on a page of {:>6} {:>6} {:>6} entries", 0, 3, 4);
}

pub fn print_row(name: &str, [none, three, four]: [usize; 3]) {
    println!("{name:<44} {none:>6} {three:>6} {four:>6}");
}
