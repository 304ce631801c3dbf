// Written by dist/erase from crates/cqlp_observer_facts/src/due.rt.
//! The fields of bodies that are read.

use crate::cqlp_observer_facts::announced::Announced;
use crate::cqlp_observer_facts::batch::BatchField;
use crate::cqlp_observer_facts::facts::Fact;
use crate::cqlp_observer_facts::numbers::{int, is_negative, short};
use crate::cqlp_observer_facts::query::{QueryField, consistency_due};
use crate::cqlp_observer_facts::rows::RowsField;
use crate::cqlp_note::Opcode;

/// The field of a body that comes next: a number, or the length of a content, which is passed over.
#[derive(Clone, Copy)]
pub(crate) enum Due {
    /// One of those before the message proper.
    Announced(Announced),
    /// The text of a QUERY. Section 4.1.4.
    QueryText,
    /// The id of an EXECUTE. Section 4.1.6.
    StatementId,
    /// One of the parameters of a QUERY or an EXECUTE.
    Query(QueryField),
    /// One of a BATCH.
    Batch(BatchField),
    /// The code of an ERROR. Section 4.2.1.
    ErrorCode,
    /// The kind of a RESULT. Section 4.2.5.
    ResultKind,
    /// One of a RESULT of kind Rows.
    Rows(RowsField),
    /// None of a message that begins here.
    Unread,
    /// No more.
    Over,
}

/// What follows a field.
#[derive(Clone, Copy)]
pub(crate) struct Next {
    /// How many bytes are passed over.
    pub(crate) passing: u32,
    /// The field behind them.
    pub(crate) due: Due,
    /// What the field says.
    pub(crate) fact: Option<Fact>,
}

impl Next {
    /// This field is next.
    #[inline(always)]
    pub(crate) fn at(due: Due) -> Next {
        Next {
            passing: 0,
            due,
            fact: None,
        }
    }

    /// This field is next, after so many bytes.
    #[inline(always)]
    pub(crate) fn past(passing: u32, due: Due) -> Next {
        Next {
            passing,
            due,
            fact: None,
        }
    }

    /// A fact, and the next field.
    #[inline(always)]
    pub(crate) fn says(fact: Fact, due: Due) -> Next {
        Next {
            passing: 0,
            due,
            fact: Some(fact),
        }
    }
}

impl Due {
    /// The first field of a message.
    #[inline(always)]
    pub(crate) fn opening_of(opcode: Opcode) -> Due {
        match opcode {
            Opcode::Query => Due::QueryText,
            Opcode::Execute => Due::StatementId,
            Opcode::Batch => Due::Batch(BatchField::Type),
            Opcode::Error => Due::ErrorCode,
            Opcode::Result => Due::ResultKind,
            _ => Due::Unread,
        }
    }

    /// Whether a message begins with it.
    #[inline(always)]
    pub(crate) fn is_opening(&self) -> bool {
        matches!(
            self,
            Due::QueryText
                | Due::StatementId
                | Due::Batch(BatchField::Type)
                | Due::ErrorCode
                | Due::ResultKind
                | Due::Unread
        )
    }

    /// Whether no field is due.
    #[inline(always)]
    pub(crate) fn is_idle(&self) -> bool {
        matches!(self, Due::Unread | Due::Over)
    }

    /// How many bytes it has, without its content.
    #[inline(always)]
    pub(crate) fn width(&self) -> usize {
        match self {
            Due::Announced(field) => field.width(),
            Due::StatementId => 2,
            Due::Query(field) => field.width(),
            Due::Batch(field) => field.width(),
            Due::Rows(field) => field.width(),
            Due::QueryText | Due::ErrorCode | Due::ResultKind | Due::Unread | Due::Over => 4,
        }
    }

    /// What follows the field that these bytes are.
    #[inline(always)]
    pub(crate) fn following(&self, flags: u8, opcode: Opcode, bytes: &[u8]) -> Next {
        match self {
            Due::Announced(field) => field.following(flags, opcode, bytes),
            Due::QueryText => past_text(bytes, consistency_due()),
            Due::StatementId => Next::past(short(bytes).into(), consistency_due()),
            Due::Query(field) => field.following(bytes),
            Due::Batch(field) => field.following(bytes),
            Due::ErrorCode => Next::says(Fact::Error(int(bytes)), Due::Over),
            Due::ResultKind => result_kind(int(bytes)),
            Due::Rows(field) => field.following(bytes),
            Due::Unread | Due::Over => Next::at(Due::Over),
        }
    }
}

/// A \[long string\] and then this field.
#[inline(always)]
pub(crate) fn past_text(bytes: &[u8], due: Due) -> Next {
    let length = int(bytes);
    if is_negative(length) {
        Next::at(Due::Over)
    } else {
        Next::past(length, due)
    }
}

/// What follows the kind of a RESULT.
#[inline(always)]
pub(crate) fn result_kind(kind: u32) -> Next {
    let due = if kind == 2 {
        Due::Rows(RowsField::Flags)
    } else {
        Due::Over
    };
    Next::says(Fact::Result(kind), due)
}
