//! The program `cqlp`, of the proved sources without their contracts, and tests of its parts.
#![cfg_attr(not(test), no_main)]
#![allow(unused, clippy::all)]

#[cfg(not(target_pointer_width = "64"))]
compile_error!("each proof of these sources takes a usize to have 64 bits");

extern crate alloc;

#[macro_use]
mod kit_std;
// The modules.

#[cfg(test)]
mod calls;
#[cfg(test)]
mod commands;
#[cfg(test)]
mod digits;
#[cfg(test)]
mod heap;
#[cfg(test)]
mod json_texts;
#[cfg(test)]
mod mutated;
#[cfg(test)]
mod patterns;
#[cfg(test)]
mod watched;

use kit_host::prelude::HostRuntime;
use kit_host::rt::Status;

/// Rust's own start would open /dev/null in the place of a standard descriptor that is closed, and no fault would be seen.
#[cfg(not(test))]
#[unsafe(no_mangle)]
extern "C" fn main(_: i32, _: *const *const u8) -> i32 {
    libc::keep_broken_pipes();
    cqlp::main(HostRuntime).status()
}

/// The tests, which look for overflow, are the program itself where CQLP_IS_PROGRAM is set: it begins and ends as `main` does, without Rust's own start.
#[cfg(test)]
mod as_program {
    use crate::kit_host::prelude::HostRuntime;
    use crate::kit_host::rt::Status;

    unsafe extern "C" {
        safe fn exit(status: i32) -> !;
    }

    extern "C" fn begin() {
        if std::env::var_os("CQLP_IS_PROGRAM").is_some() {
            crate::libc::keep_broken_pipes();
            exit(crate::cqlp::main(HostRuntime).status());
        }
    }

    // SAFETY: what lies there is called once, with the words and the environment, after what std has there for them.
    #[used]
    #[unsafe(link_section = ".init_array")]
    static BEGIN: extern "C" fn() = begin;
}
