// Written by dist/erase from crates/cqlp_build/src/error.rt.
//! Why no frame was built.

error! {
/// Why an event was not taken, or no frame was built.
#[derive(Clone, Copy, Debug, PartialEq, Eq)]
pub enum BuildError {
    /// A header came before the end of the frame before it, or something else where a header is due.
    #[error("an event of another place")]
    Misplaced,
    /// The frame has more fields, type options and events of cells than the limits allow.
    #[error("too many fields")]
    TooManyFields,
    /// A type option is nested deeper than the limits allow.
    #[error("types nested too deep")]
    TooDeep,
    /// The texts and contents of the frame, those of its cells among them, have more bytes than the limits allow.
    #[error("too many bytes")]
    TooManyBytes,
    /// A part of a scalar of a cell: without [`Limits::parts`](crate::cqlp_note::Limits) each scalar comes whole.
    #[error("a value in parts")]
    Unbuilt,
    /// The events are those of no frame: one is of another place than is due, or does not agree with what comes before it, or the
    /// end came too early.
    #[error("no frame has these events")]
    NoFrame,
    /// Memory was refused.
    #[error("no memory")]
    NoMemory,
}
}
