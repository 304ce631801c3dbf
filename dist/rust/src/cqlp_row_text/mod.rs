// Written by dist/erase from crates/cqlp_row_text/src/lib.rt.
//! The rows of pages as JSON and as CSV.

mod csv_rows;
mod json_rows;
mod place;
mod quotes;
mod shown;

pub use csv_rows::{csv_break, csv_part, put_csv_part};
pub use json_rows::{json_break, json_part, put_json_part};
pub use place::TablePlace;
