// Written by dist/erase from crates/cqlp_capture_summary/src/row.rt.
//! What is shown of a statement.

use crate::cqlp_capture_summary::lines::text_front;
use crate::cqlp_capture_summary::tally::Figures;

/// What is shown of a statement in a summary.
#[derive(Clone, Copy)]
pub struct Row<'a> {
    /// The first 256 bytes of what it is called.
    pub name: &'a [u8],
    /// Whether these are all of it.
    pub is_whole_name: bool,
    /// The most nanoseconds that it may have taken before `figures` began to count: when it was not in the table.
    pub missing: u64,
    pub figures: Figures,
    /// How many of its times are in each of the 1,920 buckets, whose greatest times are `greatest_in`.
    pub buckets: &'a [u64],
}

impl<'a> Row<'a> {
    /// The longest front of the name that is UTF-8.
    pub fn text(&self) -> &'a str {
        text_front(self.name)
    }
}
