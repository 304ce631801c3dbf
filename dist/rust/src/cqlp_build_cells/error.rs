// Written by dist/erase from crates/cqlp_build_cells/src/error.rt.
//! Why no value was built.

error! {
/// Why an event was not taken, or no value was built.
#[derive(Clone, Copy, Debug, PartialEq, Eq)]
pub enum CellError {
    /// The event is none of a cell, or of another cell than the one under way.
    #[error("an event of another place")]
    Misplaced,
    /// A scalar that comes in parts, which is not built: without [`Limits::parts`](crate::cqlp_note::Limits) each comes whole.
    #[error("a value in parts")]
    InParts,
    /// The cell has more events than the limits allow.
    #[error("too many events")]
    TooManyEvents,
    /// The contents of the cell have more bytes than the limits allow.
    #[error("too many bytes")]
    TooManyBytes,
    /// In the type a `Plain` is of the kind `Raw` or of one that has parameters, so it is the type of no cell.
    #[error("the type of a cell is not formed")]
    Unformed,
    /// The events are those of no value of the type.
    #[error("no value of this type has these events")]
    NoValue,
    /// Memory was refused.
    #[error("no memory")]
    NoMemory,
}
}
