// Written by dist/erase from crates/cqlp_capture_exchanges/src/summary_by.rt.
//! What the requests of a summary are counted by.

use crate::cqlp_capture_exchanges::naming::Naming;

/// What the requests of a summary are counted by.
#[derive(Clone, Copy)]
pub enum SummaryBy {
    /// Their statements.
    Statement(Naming),
    /// The tables that their statements name.
    Table,
    /// Another attribute.
    Attribute(Attribute),
}

/// An attribute of a request beside its statement.
#[derive(Clone, Copy)]
pub enum Attribute {
    /// The client's address, at whichever port.
    Client,
    /// The node's address and port.
    Node,
    /// The opcode.
    Opcode,
    /// The error of the reply.
    Error,
}

impl SummaryBy {
    /// What is above the names in the summary.
    pub(crate) fn heading(self) -> &'static str {
        match self {
            SummaryBy::Statement(_) => "statement",
            SummaryBy::Table => "table",
            SummaryBy::Attribute(attribute) => attribute_heading(attribute),
        }
    }
}

fn attribute_heading(attribute: Attribute) -> &'static str {
    match attribute {
        Attribute::Client => "client",
        Attribute::Node => "node",
        Attribute::Opcode => "opcode",
        Attribute::Error => "error",
    }
}
