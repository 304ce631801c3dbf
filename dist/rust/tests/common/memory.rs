//! The memory of a thread: what is asked for, and which requests are refused.

use std::alloc::{GlobalAlloc, Layout, System};
use std::cell::Cell;
use std::ptr::null_mut;

/// What was asked for: how often, how many bytes in all, how often in vain, and how many bytes and blocks are held.
#[derive(Clone, Copy)]
pub struct Asked {
    pub requests: u64,
    pub bytes: u64,
    pub refused: u64,
    pub held: i64,
    pub blocks: i64,
}

const NOTHING: Asked = Asked { requests: 0, bytes: 0, refused: 0, held: 0, blocks: 0 };

/// No request is refused for its number.
const NONE: (u64, u64) = (1, 0);

thread_local! {
    static ASKED: Cell<Asked> = const { Cell::new(NOTHING) };
    /// The first and the last request that is refused.
    static REFUSED: Cell<(u64, u64)> = const { Cell::new(NONE) };
    /// How many bytes are still granted.
    static LEFT: Cell<usize> = const { Cell::new(usize::MAX) };
}

/// Counts a request for this many bytes, in place of so many; whether it is granted.
fn is_granted(size: usize, before: usize, blocks: i64) -> bool {
    let mut asked = ASKED.get();
    asked.requests += 1;
    asked.bytes += size as u64;
    let ((first, last), left) = (REFUSED.get(), LEFT.get().checked_sub(size));
    let is_granted = left.is_some() && !(first <= asked.requests && asked.requests <= last);
    match left {
        Some(left) if is_granted => {
            LEFT.set(left);
            asked.held += size as i64 - before as i64;
            asked.blocks += blocks;
        }
        _ => asked.refused += 1,
    }
    ASKED.set(asked);
    is_granted
}

struct Rationed;

// SAFETY: each call is the system's; a request that is refused answers null, and changes nothing.
unsafe impl GlobalAlloc for Rationed {
    unsafe fn alloc(&self, layout: Layout) -> *mut u8 {
        if is_granted(layout.size(), 0, 1) { unsafe { System.alloc(layout) } } else { null_mut() }
    }

    unsafe fn alloc_zeroed(&self, layout: Layout) -> *mut u8 {
        if is_granted(layout.size(), 0, 1) { unsafe { System.alloc_zeroed(layout) } } else { null_mut() }
    }

    unsafe fn dealloc(&self, block: *mut u8, layout: Layout) {
        let asked = ASKED.get();
        ASKED.set(Asked { held: asked.held - layout.size() as i64, blocks: asked.blocks - 1, ..asked });
        unsafe { System.dealloc(block, layout) }
    }

    unsafe fn realloc(&self, block: *mut u8, layout: Layout, size: usize) -> *mut u8 {
        if is_granted(size, layout.size(), 0) { unsafe { System.realloc(block, layout, size) } } else { null_mut() }
    }
}

#[global_allocator]
static HEAP: Rationed = Rationed;

/// What the thread asked for since the last call of `refusing` began.
pub fn asked() -> Asked {
    ASKED.get()
}

/// What a call answers whose requests from the first to the last of these numbers are refused, and what it asks for. The first request has number 1.
pub fn refusing<T>(first: u64, last: u64, call: impl FnOnce() -> T) -> (T, Asked) {
    ASKED.set(NOTHING);
    REFUSED.set((first, last));
    let answer = call();
    REFUSED.set(NONE);
    (answer, ASKED.get())
}

/// What a call answers that is granted this many bytes.
pub fn granted<T>(bytes: usize, call: impl FnOnce() -> T) -> T {
    let before = LEFT.replace(bytes);
    let answer = call();
    LEFT.set(before);
    answer
}
