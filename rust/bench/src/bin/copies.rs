//! What each call copies: how many copies, the largest, and the bytes of all. This program has `memcpy` and `memmove` of its own,
//! which every caller in it is linked to, the proved library among them; they note the lengths while a call is on. With the argument
//! `each` the lengths are printed too, in the order of the copies.
//!
//! It can't see what the compiler copies by instructions in place of a call: numbers and small structs (up to 128 bytes or so), and
//! loops over arrays that it hasn't made a call of. Nor does it count what is filled with zeros, or what the system copies.

use std::arch::asm;
use std::ffi::c_void;
use std::hint::black_box;
use std::ops::ControlFlow;
use std::sync::atomic::{AtomicBool, AtomicUsize, Ordering::SeqCst};

use delivery_bench::{Here, Nowhere, Original, Side, Token};
use ironbus_delivery_state::MAX_BLOCKS;

/// Whether copies are noted.
static ON: AtomicBool = AtomicBool::new(false);

/// How many were noted.
static COPIES: AtomicUsize = AtomicUsize::new(0);

/// The lengths of the first so many.
static LENGTHS: [AtomicUsize; 1024] = [const { AtomicUsize::new(0) }; 1024];

fn note(len: usize) {
    if len > 0 && ON.load(SeqCst) {
        if let Some(place) = LENGTHS.get(COPIES.fetch_add(1, SeqCst)) {
            place.store(len, SeqCst);
        }
    }
}

/// # Safety
/// As in C.
#[no_mangle]
unsafe extern "C" fn memcpy(to: *mut c_void, from: *const c_void, len: usize) -> *mut c_void {
    note(len);
    // SAFETY: the caller's. A loop could be compiled into a call of this very function.
    unsafe { forward(to, from, len) };
    to
}

/// # Safety
/// As in C.
#[no_mangle]
unsafe extern "C" fn memmove(to: *mut c_void, from: *const c_void, len: usize) -> *mut c_void {
    note(len);
    // SAFETY: the caller's. Where the target starts within the source, the last byte is the first to go.
    unsafe {
        if (to as usize).wrapping_sub(from as usize) < len {
            backward(to, from, len);
        } else {
            forward(to, from, len);
        }
    }
    to
}

unsafe fn forward(to: *mut c_void, from: *const c_void, len: usize) {
    // SAFETY: the caller's.
    unsafe {
        asm!(
            "rep movsb",
            inout("rcx") len => _,
            inout("rdi") to => _,
            inout("rsi") from => _,
            options(nostack, preserves_flags)
        );
    }
}

unsafe fn backward(to: *mut c_void, from: *const c_void, len: usize) {
    // SAFETY: the caller's. The direction flag is clear again after it.
    unsafe {
        asm!(
            "std",
            "rep movsb",
            "cld",
            inout("rcx") len => _,
            inout("rdi") to.wrapping_byte_add(len).wrapping_byte_sub(1) => _,
            inout("rsi") from.wrapping_byte_add(len).wrapping_byte_sub(1) => _,
            options(nostack)
        );
    }
}

/// The lengths of what a call copies.
fn copied<T>(call: impl FnOnce() -> T) -> (T, Vec<usize>) {
    COPIES.store(0, SeqCst);
    ON.store(true, SeqCst);
    let answer = black_box(call());
    ON.store(false, SeqCst);
    let lengths = &LENGTHS[..COPIES.load(SeqCst)];
    (answer, lengths.iter().map(|len| len.load(SeqCst)).collect())
}

/// Each call with its copies.
type Calls = Vec<(&'static str, Vec<usize>)>;

/// The calls in a row, on a side that holds so many leases and carried counts besides.
fn calls<S: Side<Storage = Nowhere>>(leases: u64, carried: u64) -> Calls {
    let side = S::start(Nowhere { blocks: MAX_BLOCKS });
    let mut side = side.carrying(1000..1000 + carried);
    for offset in 2000..2000 + leases {
        side.claim(offset, 0);
    }
    assert_eq!(side.held(), (leases as usize, carried as usize));
    let (token, claim) = copied(|| side.claim(0, 0));
    let mut calls = vec![("claim", claim)];
    calls.extend(under_a_token(&mut side, token));
    let (advanced, commit) = copied(|| side.commit(2));
    assert!(advanced);
    calls.push(("commit", commit));
    assert_eq!(side.held(), (leases as usize, carried as usize));
    calls.extend(checkpoint(side));
    calls
}

/// The calls on an offset that is in flight, of which the last settles it.
fn under_a_token(side: &mut impl Side, token: Token) -> Calls {
    let (deadline, progress) = copied(|| side.progress(token, 7));
    assert_eq!(deadline, 30_000_000_007);
    let (count, lease_of) = copied(|| side.deliveries(token));
    assert_eq!(count, Some(1));
    let (deadline, nack) = copied(|| side.nack(token, 7));
    assert_eq!(deadline, 7);
    let token = Token {
        generation: token.generation + 1,
        ..token
    };
    let ((), ack) = copied(|| side.ack(token));
    let (settled, is_settled) = copied(|| side.is_settled(token.offset));
    assert!(settled);
    vec![
        ("progress", progress),
        ("lease_of", lease_of),
        ("nack", nack),
        ("ack", ack),
        ("is_settled", is_settled),
    ]
}

/// A begin, its first step and its last, and a restart from what it wrote, where there is one.
fn checkpoint<S: Side>(side: S) -> Calls {
    let (mut writing, begin) = copied(|| side.begin());
    let mut calls = vec![("begin", begin)];
    loop {
        let (next, step) = copied(|| S::step(writing));
        match next {
            ControlFlow::Continue(rest) if calls.len() == 1 => {
                calls.push(("step, a body", step));
                writing = rest;
            }
            ControlFlow::Continue(rest) => writing = rest,
            ControlFlow::Break(side) => {
                calls.push(("step, the header", step));
                let (restarted, restart) = copied(|| side.restart());
                if restarted.is_some() {
                    calls.push(("restart", restart));
                }
                return calls;
            }
        }
    }
}

fn table<S: Side<Storage = Nowhere>>(name: &str, each: bool) {
    println!("| {name} | nothing besides: copies | largest, B | all, B | 63 leases and 64 counts besides: copies | largest, B | all, B |");
    println!("|---|---|---|---|---|---|---|");
    let (alone, besides) = (calls::<S>(0, 0), calls::<S>(63, 64));
    for ((name, alone), (_, besides)) in alone.iter().zip(&besides) {
        print!("| {name}");
        for lengths in [alone, besides] {
            let largest = lengths.iter().max().unwrap_or(&0);
            let all: usize = lengths.iter().sum();
            print!(" | {} | {largest} | {all}", lengths.len());
        }
        println!(" |");
        if each {
            println!("{alone:?}\n{besides:?}");
        }
    }
}

/// Copies whose length the compiler doesn't know are calls: they are seen, and right where source and target overlap.
fn try_out() {
    let mut list: Vec<u8> = (0..=255).collect();
    let mut target = vec![0; 256];
    let ((), lengths) = copied(|| target.copy_from_slice(black_box(&list)));
    assert_eq!((&target, lengths), (&list, vec![256]));
    let ((), lengths) = copied(|| target.copy_within(..black_box(200), 7));
    assert_eq!((&target[7..207], lengths), (&list[..200], vec![200]));
    let ((), lengths) = copied(|| list.copy_within(black_box(9).., 0));
    assert!(list[..247].iter().copied().eq(9..=255));
    assert_eq!(lengths, vec![247]);
}

fn main() {
    try_out();
    let each = std::env::args().nth(1).as_deref() == Some("each");
    table::<Here<Nowhere>>("this crate", each);
    println!();
    table::<Box<Original<Nowhere>>>("original", each);
}
