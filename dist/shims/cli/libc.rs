//! What the program uses of the C library.
use std::sync::atomic::{AtomicBool, Ordering};

pub const STDIN_FILENO: i32 = 0;

/// Closes a descriptor. No value of the program owns the one that it closes.
pub fn close(fd: i32) -> i32 {
    unsafe extern "C" {
        fn close(fd: i32) -> i32;
    }
    unsafe { close(fd) }
}

const IGNORED: usize = 1;

unsafe extern "C" {
    fn signal(number: i32, what: usize) -> usize;
}

/// Has a write to a closed pipe be a fault, and not the end of the program.
pub fn keep_broken_pipes() {
    const SIGPIPE: i32 = 13;
    unsafe { signal(SIGPIPE, IGNORED) };
}

/// Has a `^C` be for the others of a pipe alone.
pub fn ignore_interrupts() {
    const SIGINT: i32 = 2;
    unsafe { signal(SIGINT, IGNORED) };
}

static IS_INTERRUPTED: AtomicBool = AtomicBool::new(false);

extern "C" fn interrupt(_: i32) {
    IS_INTERRUPTED.store(true, Ordering::Relaxed);
}

/// Has a `^C` or a SIGTERM end what is followed, as the end of standard input does.
pub fn end_at_interrupts() {
    for number in [2, 15] {
        unsafe { signal(number, interrupt as extern "C" fn(i32) as usize) };
    }
}

pub mod types {
    /// A descriptor that is waited for, and what is found of it.
    #[repr(C)]
    #[allow(non_camel_case_types)]
    pub struct pollfd {
        pub fd: i32,
        pub events: i16,
        pub revents: i16,
    }
}

pub mod net {
    use super::{IS_INTERRUPTED, Ordering, types::pollfd};

    pub const POLLHUP: i16 = 0x10;

    /// Waits for descriptors, for so many milliseconds at most. Once there was an interrupt, nothing writes to the first one.
    pub fn poll(fds: &mut [pollfd], timeout: i32) -> i32 {
        unsafe extern "C" {
            fn poll(fds: *mut pollfd, count: std::ffi::c_ulong, timeout: i32) -> i32;
        }
        let count = unsafe { poll(fds.as_mut_ptr(), fds.len() as std::ffi::c_ulong, timeout) };
        match fds.first_mut() {
            Some(first) if IS_INTERRUPTED.load(Ordering::Relaxed) => {
                first.revents = POLLHUP;
                1
            }
            _ => count,
        }
    }
}

/// How wide the terminal is that standard output is, if it is one.
pub fn terminal_columns() -> Option<usize> {
    const TIOCGWINSZ: std::ffi::c_ulong = 0x5413; // Of Linux.
    unsafe extern "C" {
        fn ioctl(fd: i32, request: std::ffi::c_ulong, ...) -> i32;
    }
    // Rows and columns, and the same in pixels.
    let mut size = [0u16; 4];
    let is_known = cfg!(target_os = "linux") && unsafe { ioctl(1, TIOCGWINSZ, &mut size) } == 0;
    (is_known && size[1] > 0).then_some(size[1].into())
}
