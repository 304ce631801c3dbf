//! The memory of a thread: a call may be granted so many bytes, or none.

use crate::memory::{asked, granted};
use cqlp::{Decoder, Limits};

/// What a call answers that is granted no memory, and asks for none.
pub fn without_memory<T>(call: impl FnOnce() -> T) -> T {
    let before = asked().refused;
    let answer = granted(0, call);
    assert_eq!(asked().refused, before, "a decoder that was made asks for memory");
    answer
}

/// What a call of the test's own answers within one that is granted no memory.
pub fn amply<T>(call: impl FnOnce() -> T) -> T {
    granted(usize::MAX, call)
}

/// How a decoder is made in memory of 0 bytes, of 16 more, and so on; where that is as before, nothing.
pub fn answers(limits: Limits) -> String {
    let mut answers: Vec<_> = (0..200).map(|blocks| granted(16 * blocks, || Decoder::new(limits).map(drop))).collect();
    answers.dedup();
    answers.iter().map(|answer| format!("{answer:?}\n")).collect()
}
