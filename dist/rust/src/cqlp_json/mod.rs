// Written by dist/erase from crates/cqlp_json/src/lib.rt.
//! Events as JSON: an object a line. Scalars as JSON values.

mod line;
mod member;
mod string;

pub use line::{json_line, put_json_line};
pub use member::{put_bytes, put_word};
pub(crate) use member::{put_scalar};
pub use string::put_string;
