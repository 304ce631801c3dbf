//! The command `cqlp`: `cargo install --path . --features cli`.
#![no_main]

/// Rust's own start would open /dev/null in the place of a standard descriptor that is closed, and no fault would be seen.
#[unsafe(no_mangle)]
extern "C" fn main(_: i32, _: *const *const u8) -> i32 {
    cqlp::run_command()
}
