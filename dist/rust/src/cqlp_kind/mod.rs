// Written by dist/erase from crates/cqlp_kind/src/lib.rt.
//! Kinds of types and scalars of the CQL native protocol v4, and the definitions of how types and cells are read.

pub mod content;
mod kind;
mod node;
mod scalars;

pub(crate) use content::{scalar};
pub use kind::Kind;
pub use node::Node;
pub use scalars::Scalar;
