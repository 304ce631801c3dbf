// Written by dist/erase from crates/cqlp_observer_facts/src/query.rt.
//! The parameters of a QUERY and an EXECUTE. Section 4.1.4 of `native_protocol_v4.spec`.

use crate::cqlp_observer_facts::due::{Due, Next};
use crate::cqlp_observer_facts::facts::Fact;
use crate::cqlp_observer_facts::numbers::{array, byte, has, int, is_negative, short};

/// A field of the parameters.
#[derive(Clone, Copy)]
pub(crate) enum QueryField {
    Consistency,
    Flags,
    /// How many values there are.
    ValueCount(ValueForm),
    /// The name of a value, before so many more values.
    ValueName { more: u16, form: ValueForm },
    /// A value, before so many more.
    Value { more: u16, form: ValueForm },
    /// result_page_size.
    PageSize,
}

/// What the flags say of the values.
#[derive(Clone, Copy)]
pub(crate) struct ValueForm {
    /// Whether a name goes before each.
    pub(crate) named: bool,
    /// Whether a page size follows them.
    pub(crate) paged: bool,
}

impl QueryField {
    #[inline(always)]
    pub(crate) fn width(&self) -> usize {
        match self {
            QueryField::Flags => 1,
            QueryField::Consistency | QueryField::ValueCount(_) | QueryField::ValueName { .. } => 2,
            QueryField::Value { .. } | QueryField::PageSize => 4,
        }
    }

    /// What follows the field that these bytes are.
    #[inline(always)]
    pub(crate) fn following(&self, bytes: &[u8]) -> Next {
        match *self {
            QueryField::Consistency => consistency_following(bytes),
            QueryField::Flags => query_flags_following(bytes),
            QueryField::ValueCount(form) => Next::at(values_due(short(bytes), form)),
            QueryField::ValueName { more, form } => Next::past(
                short(bytes).into(),
                Due::Query(QueryField::Value { more, form }),
            ),
            QueryField::Value { more, form } => past_value(int(bytes), values_due(more, form)),
            QueryField::PageSize => page_size_following(bytes),
        }
    }
}

/// What follows the consistency.
#[inline(always)]
pub(crate) fn consistency_following(bytes: &[u8]) -> Next {
    Next::says(
        Fact::Consistency(short(bytes)),
        Due::Query(QueryField::Flags),
    )
}

/// What follows the flags, of which 08 says that there is a paging state.
#[inline(always)]
pub(crate) fn query_flags_following(bytes: &[u8]) -> Next {
    let flags = byte(bytes).into();
    Next::says(
        Fact::HasPagingState(has(flags, 0x08)),
        flags_following(flags),
    )
}

/// What follows the page size.
#[inline(always)]
pub(crate) fn page_size_following(bytes: &[u8]) -> Next {
    Next::says(Fact::PageSize(i32::from_be_bytes(array(bytes))), Due::Over)
}

/// The first of the parameters.
#[inline(always)]
pub(crate) fn consistency_due() -> Due {
    Due::Query(QueryField::Consistency)
}

/// What follows the flags: 01 says that there are values, 04 a page size, and 40 that values have names.
#[inline(always)]
fn flags_following(flags: u32) -> Due {
    let paged = has(flags, 0x04);
    if has(flags, 0x01) {
        let named = has(flags, 0x40);
        Due::Query(QueryField::ValueCount(ValueForm { named, paged }))
    } else {
        page_size_due(paged)
    }
}

#[inline(always)]
fn page_size_due(paged: bool) -> Due {
    if paged {
        Due::Query(QueryField::PageSize)
    } else {
        Due::Over
    }
}

/// So many values, and what follows them.
#[inline(always)]
pub(crate) fn values_due(count: u16, form: ValueForm) -> Due {
    if count == 0 {
        page_size_due(form.paged)
    } else if form.named {
        Due::Query(QueryField::ValueName {
            more: count - 1,
            form,
        })
    } else {
        Due::Query(QueryField::Value {
            more: count - 1,
            form,
        })
    }
}

/// A \[value\] of this length and then this field: null is -1, and not set is -2.
#[inline(always)]
pub(crate) fn past_value(length: u32, due: Due) -> Next {
    if length == u32::MAX || length == u32::MAX - 1 {
        Next::at(due)
    } else if is_negative(length) {
        Next::at(Due::Over)
    } else {
        Next::past(length, due)
    }
}
