//! What the std of Rattle's kit has otherwise than Rust's: memory may be refused. The types are std's own, and the calls are here.
#[macro_use]
mod error;

pub mod alloc;
pub mod boxed;
pub mod collections;
pub mod number;
pub mod simd;
pub mod string;
pub mod vec;

pub mod prelude {
    pub use super::boxed::{Box, KitBox};
    pub use super::number::KitNumber;
    pub use super::string::{KitString, String};
    pub use super::vec::{KitVec, Vec};
    pub(crate) use super::{string::format, vec::vec};
}
