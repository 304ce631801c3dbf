//! The C allocator as Rust's, and what a panic does. Not proved.
use core::alloc::{GlobalAlloc, Layout};
use core::ffi::c_void;

#[link(name = "c")]
unsafe extern "C" {
    fn malloc(size: usize) -> *mut c_void;
    fn realloc(at: *mut c_void, size: usize) -> *mut c_void;
    fn free(at: *mut c_void);
    fn abort() -> !;
}

/// What malloc gives is aligned for every type of C, to 16 bytes where a `usize` has 64 bits; nothing here is aligned to more.
const ALIGNED: usize = 16;

struct C;

// Each call is one of the C allocator, which C says is the same for these three.
unsafe impl GlobalAlloc for C {
    unsafe fn alloc(&self, layout: Layout) -> *mut u8 {
        if layout.align() > ALIGNED { core::ptr::null_mut() } else { unsafe { malloc(layout.size()) }.cast() }
    }

    unsafe fn dealloc(&self, at: *mut u8, _: Layout) {
        unsafe { free(at.cast()) }
    }

    unsafe fn realloc(&self, at: *mut u8, _: Layout, size: usize) -> *mut u8 {
        unsafe { realloc(at.cast(), size) }.cast()
    }
}

#[global_allocator]
static MEMORY: C = C;

/// The proofs say that there is none.
#[panic_handler]
fn panic(_: &core::panic::PanicInfo<'_>) -> ! {
    unsafe { abort() }
}
