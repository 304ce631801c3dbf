// Written by dist/erase from crates/cqlp_options/src/lib.rt.
//! What a command line of the program cqlp asks for.

mod bad_value;
mod calendar;
mod capture;
mod command_line;
mod end;
mod kind;
mod limits;
mod matched;
mod merge;
mod no_task;
mod options;
mod pattern;
mod program;
mod reported;
mod time;

pub use capture::{
    AskedLines, CaptureOptions, CaptureTask, ExchangeOptions, ExchangesAs, MOST_PORTS, Ports,
    SummaryBy,
};
pub use command_line::{CommandLine, QUERIES};
pub use end::AskedEnd;
pub use kind::AskedKind;
pub use limits::CaptureLimits;
pub use merge::{MergeOptions, SumAs};
pub use no_task::NoTask;
pub use options::{AtRefusal, DEFAULT_LIMITS, EventsAs, Options, RowsAs, Task};
pub use time::{AskedTime, asked_time};
