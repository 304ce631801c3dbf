// Written by dist/erase from crates/cqlp_text/src/lib.rt.
//! The text of events, cells, pages and endings, and how it goes to a target.

mod buffered;
mod cells;
mod dates;
mod digits;
mod ending;
mod escape;
mod events;
pub mod exit_status;
mod gap;
mod hex_digits;
mod items;
mod line_pen;
mod names;
mod page_text;
mod pen;
mod sending;
mod text_writer;
mod values;
mod word;

pub use buffered::Buffered;
pub use cells::cell_text;
pub use ending::{Ending, cannot_open_line, ending_line};
pub use events::event_line;
pub use gap::Gap;
pub use names::{field_name, kind_name, opcode_name, reason_name};
pub use page_text::{PagePlace, Turn, WrittenValue, closing, opening, page_part};
pub use pen::Pen;
pub use sending::put_text;
pub use text_writer::TextWriter;
