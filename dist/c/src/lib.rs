//! The library for C, of the proved sources without their contracts. It has no state of a thread: without Rust's std.
#![no_std]
#![allow(dead_code, unused, clippy::style, clippy::complexity)]

#[cfg(not(target_pointer_width = "64"))]
compile_error!("each proof of these sources takes a usize to have 64 bits");

extern crate alloc;

#[macro_use]
mod kit_std;
mod exports;
mod memory;
// The modules.
