// Written by dist/erase from crates/cqlp_observer_facts/src/facts.rt.
//! What is known of a message.

/// What a message says beside its first field, as far as the bytes of its body say it.
#[derive(Clone, Copy, Debug, PartialEq, Eq)]
pub struct Facts {
    /// Of a QUERY, an EXECUTE and a BATCH the \[consistency\], as it is sent. Sections 4.1.4, 4.1.6 and 4.1.7 of `native_protocol_v4.spec`.
    pub consistency: Option<u16>,
    /// Of a QUERY and an EXECUTE how many rows a page is to have, as it is sent. Section 4.1.4.
    pub page_size: Option<i32>,
    /// Whether a QUERY or an EXECUTE has a paging state, and so asks for a page after the first. Section 4.1.4.
    pub has_paging_state: Option<bool>,
    /// The tracing id of a response. Section 2.2.
    pub trace_id: Option<[u8; 16]>,
    /// How many warnings a response has. Section 2.2.
    pub warnings: Option<u16>,
    /// The kind of a RESULT. Section 4.2.5.
    pub result: Option<u32>,
    /// The code of an ERROR. Section 9.
    pub error: Option<u32>,
    /// How many rows a RESULT has, 0 to 2^31 - 1. Section 4.2.5.2.
    pub rows: Option<i32>,
    /// How many columns these rows have, 0 to 2^31 - 1. Section 4.2.5.2.
    pub columns: Option<i32>,
    /// Whether more pages follow these rows. Section 4.2.5.2.
    pub has_more_pages: Option<bool>,
}

/// One of the facts.
#[derive(Clone, Copy)]
pub(crate) enum Fact {
    Consistency(u16),
    PageSize(i32),
    HasPagingState(bool),
    TraceId([u8; 16]),
    Warnings(u16),
    Result(u32),
    Error(u32),
    Rows(i32),
    Columns(i32),
    HasMorePages(bool),
}

impl Facts {
    /// Nothing is known.
    #[must_use]
    #[inline(always)]
    pub fn new() -> Facts {
        Facts {
            consistency: None,
            page_size: None,
            has_paging_state: None,
            trace_id: None,
            warnings: None,
            result: None,
            error: None,
            rows: None,
            columns: None,
            has_more_pages: None,
        }
    }

    /// One more is known. One that was known stays.
    #[inline(always)]
    pub(crate) fn add(&mut self, fact: Fact) {
        match fact {
            Fact::Consistency(level) => self.consistency = known_or(self.consistency, level),
            Fact::PageSize(size) => self.page_size = known_or(self.page_size, size),
            Fact::HasPagingState(has) => {
                self.has_paging_state = known_or(self.has_paging_state, has)
            }
            Fact::TraceId(id) => self.trace_id = known_or(self.trace_id, id),
            Fact::Warnings(count) => self.warnings = known_or(self.warnings, count),
            Fact::Result(kind) => self.result = known_or(self.result, kind),
            Fact::Error(code) => self.error = known_or(self.error, code),
            Fact::Rows(count) => self.rows = known_or(self.rows, count),
            Fact::Columns(count) => self.columns = known_or(self.columns, count),
            Fact::HasMorePages(has) => self.has_more_pages = known_or(self.has_more_pages, has),
        }
    }
}

/// What is known, or else what is said.
#[inline(always)]
fn known_or<T: Copy>(known: Option<T>, said: T) -> Option<T> {
    match known {
        Some(value) => Some(value),
        None => Some(said),
    }
}
