//! The tests of the package but those of changed.rs, in one program that links the library once. `cargo test NAME::` runs those of one file.

#[cfg(feature = "std")]
mod common;
#[path = "common/digits.rs"]
mod digits;
#[path = "common/memory.rs"]
mod memory;

#[cfg(feature = "std")]
mod adapters;
#[cfg(feature = "std")]
mod altering;
#[cfg(feature = "std")]
mod built;
mod carried;
mod checked;
#[cfg(feature = "std")]
mod claims;
mod columns;
#[cfg(feature = "std")]
mod examples;
mod fields;
#[cfg(feature = "std")]
#[path = "frames/main.rs"]
mod frames;
#[cfg(feature = "std")]
mod headers;
#[cfg(feature = "std")]
mod owned;
mod packets;
mod page_columns;
#[cfg(feature = "std")]
mod pages;
#[path = "pieces/main.rs"]
mod pieces;
#[cfg(feature = "std")]
mod proxy;
mod refused;
#[cfg(feature = "std")]
mod row_items;
#[cfg(feature = "std")]
mod rows;
mod runs;
mod scalars;
#[cfg(feature = "std")]
mod server;
mod sessions;
mod skipped;
#[cfg(feature = "std")]
mod streams;
#[cfg(feature = "std")]
mod tables;
mod texts;
mod types;
#[cfg(feature = "std")]
mod ways;
#[cfg(feature = "std")]
mod wire;
