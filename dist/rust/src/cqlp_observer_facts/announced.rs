// Written by dist/erase from crates/cqlp_observer_facts/src/announced.rt.
//! What comes before the message proper. Section 2.2 of `native_protocol_v4.spec`.

use crate::cqlp_observer_facts::due::{Due, Next};
use crate::cqlp_observer_facts::facts::Fact;
use crate::cqlp_observer_facts::numbers::{array, has, int, is_negative, short};
use crate::cqlp_note::{Header, Opcode};

/// A field before the message proper.
#[derive(Clone, Copy)]
pub(crate) enum Announced {
    TraceId,
    WarningCount,
    /// A warning, before so many more.
    Warning { more: u16 },
    /// How many keys a custom payload has.
    PayloadCount,
    /// A key, before so many more.
    PayloadKey { more: u16 },
    /// The value of a key, before so many more keys.
    PayloadValue { more: u16 },
}

impl Announced {
    #[inline(always)]
    pub(crate) fn width(&self) -> usize {
        match self {
            Announced::TraceId => 16,
            Announced::PayloadValue { .. } => 4,
            Announced::WarningCount
            | Announced::Warning { .. }
            | Announced::PayloadCount
            | Announced::PayloadKey { .. } => 2,
        }
    }

    /// What follows the field that these bytes are.
    #[inline(never)]
    pub(crate) fn following(&self, flags: u8, opcode: Opcode, bytes: &[u8]) -> Next {
        match *self {
            Announced::TraceId => {
                Next::says(Fact::TraceId(array(bytes)), after_trace_id(flags, opcode))
            }
            Announced::WarningCount => {
                let count = short(bytes);
                Next::says(Fact::Warnings(count), warnings_due(flags, opcode, count))
            }
            Announced::Warning { more } => {
                Next::past(short(bytes).into(), warnings_due(flags, opcode, more))
            }
            Announced::PayloadCount => Next::at(keys_due(opcode, short(bytes))),
            Announced::PayloadKey { more } => Next::past(
                short(bytes).into(),
                Due::Announced(Announced::PayloadValue { more }),
            ),
            Announced::PayloadValue { more } => past_bytes(int(bytes), keys_due(opcode, more)),
        }
    }
}

/// The first field of a body with this header.
#[inline(never)]
pub(crate) fn first_due(header: &Header) -> Due {
    let flags: u32 = header.flags.into();
    if has(flags, 0x01) {
        Due::Unread
    } else if header.response && has(flags, 0x02) {
        Due::Announced(Announced::TraceId)
    } else if header.response && has(flags, 0x08) {
        Due::Announced(Announced::WarningCount)
    } else if has(flags, 0x04) {
        Due::Announced(Announced::PayloadCount)
    } else {
        Due::opening_of(header.opcode)
    }
}

/// What follows a tracing id: warnings, if there are any.
#[inline(always)]
fn after_trace_id(flags: u8, opcode: Opcode) -> Due {
    if has(flags.into(), 0x08) {
        Due::Announced(Announced::WarningCount)
    } else {
        after_warnings(flags, opcode)
    }
}

/// What follows the warnings: a custom payload, if there is one, and then the message.
#[inline(always)]
fn after_warnings(flags: u8, opcode: Opcode) -> Due {
    if has(flags.into(), 0x04) {
        Due::Announced(Announced::PayloadCount)
    } else {
        Due::opening_of(opcode)
    }
}

/// So many warnings.
#[inline(always)]
fn warnings_due(flags: u8, opcode: Opcode, count: u16) -> Due {
    if count == 0 {
        after_warnings(flags, opcode)
    } else {
        Due::Announced(Announced::Warning { more: count - 1 })
    }
}

/// So many keys, each with its value.
#[inline(always)]
fn keys_due(opcode: Opcode, count: u16) -> Due {
    if count == 0 {
        Due::opening_of(opcode)
    } else {
        Due::Announced(Announced::PayloadKey { more: count - 1 })
    }
}

/// \[bytes\] of this length and then this field. A negative one is null.
#[inline(always)]
pub(crate) fn past_bytes(length: u32, due: Due) -> Next {
    if is_negative(length) {
        Next::at(due)
    } else {
        Next::past(length, due)
    }
}
