// Written by dist/erase from crates/cqlp_render/src/lib.rt.
//! A stream as text, with what is reported of it.

mod buffered_sink;
mod form;
mod render;
mod showing;
mod text_form;

pub use render::{render_events, render_rows};
pub use showing::{TURNS, conclude};
pub(crate) use showing::{check, rows, show, show_as};
pub use text_form::TextForm;
