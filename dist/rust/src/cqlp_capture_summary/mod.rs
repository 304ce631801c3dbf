// Written by dist/erase from crates/cqlp_capture_summary/src/lib.rt.
//! How much time the statements of a capture took, in a table of bounded size.

mod buckets;
mod class;
mod columns;
mod fingerprint;
mod histogram;
mod intervals;
mod lines;
mod mode;
mod name;
mod occurrence;
mod order;
mod recent;
mod row;
mod shown;
mod summary;
mod tally;
mod weights;
mod written;

pub(crate) use buckets::{greatest_in};
pub use fingerprint::Fingerprint;
pub use intervals::{begin_of, width_of};
pub use occurrence::Occurrence;
pub use row::Row;
pub use shown::{put_shown_in_field, put_shown_text};
pub use summary::Summary;
pub use tally::{Figures, Tally, Times};
