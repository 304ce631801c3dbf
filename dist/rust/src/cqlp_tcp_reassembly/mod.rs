// Written by dist/erase from crates/cqlp_tcp_reassembly/src/lib.rt.
//! The bytes of one direction of a TCP connection, in order.

mod fin;
mod queue;
mod run;
mod runs;
mod segment;
mod sequence;
mod step;
mod stream;

pub use run::RUN_SIZE;
pub use segment::{Control, StreamSegment};
pub use sequence::{Distance, distance_to};
pub use step::{GapCause, StreamStep};
pub use stream::Stream;
