// Written by dist/erase from crates/cqlp_bound_values/src/form.rt.
//! How values are written.

/// As a part of a line, or as JSON.
#[derive(Clone, Copy)]
pub(crate) enum Form {
    Line,
    Json,
}
