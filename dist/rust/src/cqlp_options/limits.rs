// Written by dist/erase from crates/cqlp_options/src/limits.rt.
//! How much of a capture is kept at one time.

use crate::cqlp_options::matched::number;
use crate::clap::ArgMatches;
use crate::cqlp_note::LimitRange;

/// What is kept of a capture at one time at most. None of these numbers ends a reading: what is left out because of one is counted.
#[derive(Clone, Copy)]
pub struct CaptureLimits {
    /// Connections: 1 to 1,048,576.
    pub connections: u32,
    /// Requests that wait for their responses, and responses that wait for their requests, on all connections: 1 to 16,777,216.
    pub open: u32,
    /// MiB of segments that came before those that precede them, on all connections: 1 to 4,096.
    pub early: u32,
    /// MiB of the texts of messages that wait, on all connections: 1 to 4,096.
    pub text: u32,
    /// Packets that wait to be put in order by their times: 0 to 65,536. None where no number is given, since it is another for a file than for a pipe.
    pub order: Option<u32>,
}

impl CaptureLimits {
    /// The range of `connections`.
    pub const CONNECTIONS: LimitRange = LimitRange {
        least: 1,
        greatest: 1_048_576,
    };

    /// The range of `open`.
    pub const OPEN: LimitRange = LimitRange {
        least: 1,
        greatest: 16_777_216,
    };

    /// The range of `early`.
    pub const EARLY: LimitRange = LimitRange {
        least: 1,
        greatest: 4_096,
    };

    /// The range of `text`.
    pub const TEXT: LimitRange = LimitRange {
        least: 1,
        greatest: 4_096,
    };

    /// The range of `order`.
    pub const ORDER: LimitRange = LimitRange {
        least: 0,
        greatest: 65_536,
    };

    /// Those where none are given.
    pub const DEFAULT: CaptureLimits = CaptureLimits {
        connections: 65_536,
        open: 262_144,
        early: 24,
        text: 7,
        order: None,
    };

    /// The limits that are given, and the defaults in place of the others, if all are in their ranges.
    pub(crate) fn matched(matches: &ArgMatches<'_>) -> Option<CaptureLimits> {
        let CaptureLimits {
            connections,
            open,
            early,
            text,
            order: _,
        } = CaptureLimits::DEFAULT;
        let limits = CaptureLimits {
            connections: number(matches, "connections").unwrap_or(connections),
            open: number(matches, "open").unwrap_or(open),
            early: number(matches, "early").unwrap_or(early),
            text: number(matches, "text").unwrap_or(text),
            order: number(matches, "order"),
        };
        if limits.are_within() {
            Some(limits)
        } else {
            None
        }
    }

    /// Whether each is in its range.
    fn are_within(&self) -> bool {
        CaptureLimits::CONNECTIONS.contains(self.connections)
            && CaptureLimits::OPEN.contains(self.open)
            && CaptureLimits::EARLY.contains(self.early)
            && CaptureLimits::TEXT.contains(self.text)
            && is_order_within(self.order)
    }
}

/// Whether `order` is in its range, if it is given.
fn is_order_within(order: Option<u32>) -> bool {
    match order {
        Some(packets) => CaptureLimits::ORDER.contains(packets),
        None => true,
    }
}
