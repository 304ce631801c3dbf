//! The memory of a thread of tests: how many bytes of it are held, the most that were, how often more is asked for, and which of these requests
//! are refused, by their numbers or for want of room.
use std::alloc::{GlobalAlloc, Layout, System};
use std::cell::Cell;
use std::ptr::null_mut;

#[derive(Clone, Copy)]
struct Counts {
    live: isize,
    most: isize,
    requests: u64,
    /// The first and the last request that is refused.
    refused: (u64, u64),
    /// How many bytes may be held.
    room: isize,
}

/// No request is refused.
const NONE: (u64, u64) = (1, 0);

thread_local! {
    static COUNTS: Cell<Counts> = const { Cell::new(Counts { live: 0, most: 0, requests: 0, refused: NONE, room: isize::MAX }) };
}

struct Counting;

// SAFETY: each call is the system's; a request that is refused answers null, and changes nothing.
unsafe impl GlobalAlloc for Counting {
    unsafe fn alloc(&self, layout: Layout) -> *mut u8 {
        let before = COUNTS.get();
        let (requests, live) = (before.requests + 1, before.live + layout.size() as isize);
        let (first, last) = before.refused;
        if first <= requests && requests <= last || before.room < live {
            COUNTS.set(Counts { requests, ..before });
            return null_mut();
        }
        COUNTS.set(Counts { requests, live, most: before.most.max(live), ..before });
        unsafe { System.alloc(layout) }
    }

    unsafe fn dealloc(&self, memory: *mut u8, layout: Layout) {
        let before = COUNTS.get();
        COUNTS.set(Counts { live: before.live - layout.size() as isize, ..before });
        unsafe { System.dealloc(memory, layout) }
    }
}

#[global_allocator]
static HEAP: Counting = Counting;

/// What a call answers, how many bytes more than before were held at most while it was done, and how many more are held after it.
pub fn measured<T>(call: impl FnOnce() -> T) -> (T, isize, isize) {
    let before = COUNTS.get();
    COUNTS.set(Counts { most: before.live, ..before });
    let answer = call();
    let after = COUNTS.get();
    (answer, after.most - before.live, after.live - before.live)
}

/// What a call answers where these of its requests are refused, the first of which has the number 1, and how many it made.
pub fn refusing<T>(first: u64, last: u64, call: impl FnOnce() -> T) -> (T, u64) {
    COUNTS.set(Counts { requests: 0, refused: (first, last), ..COUNTS.get() });
    let answer = call();
    let after = COUNTS.get();
    COUNTS.set(Counts { refused: NONE, ..after });
    (answer, after.requests)
}

/// What a call answers that may hold at most this many bytes more than before: each request for more is refused.
pub fn within<T>(bytes: usize, call: impl FnOnce() -> T) -> T {
    let before = COUNTS.get();
    COUNTS.set(Counts { room: before.live + bytes as isize, ..before });
    let answer = call();
    COUNTS.set(Counts { room: isize::MAX, ..COUNTS.get() });
    answer
}
