// Written by dist/erase from crates/cqlp_encode/src/lib.rt.
//! Frames of the CQL native protocol v4, written.

mod appending;
mod binding;
mod fields;
mod kept_values;
mod lent_page;
mod page_writer;
mod parts;
mod staged;
mod tally;
mod types;
mod value_writing;
mod values;
mod writing;

pub use appending::{AppendError, append};
pub use binding::{BindError, bind_value, raw_value};
pub use lent_page::{LentError};
pub(crate) use lent_page::{encode_page, measure_cells};
pub use page_writer::{PageError, PageWriter};
pub use value_writing::{ValueError, write_value};
pub use writing::{EncodeError, encode, encode_from};
