//! Parameters of a request, one after the other, with their flags. Written by hand, and not proved.
use crate::cqlp_message::QueryParams;
use crate::names::{Consistency, query_flag};
use crate::rows::BoundValues;
use alloc::vec::Vec;

/// Each call sets a part with the flag that announces it. Section 4.1.4 of `native_protocol_v4.spec`.
///
/// ```
/// use cqlp::Consistency;
/// use cqlp::frame::QueryParams;
///
/// let params = QueryParams::new(Consistency::LocalQuorum).with_page_size(5_000).with_timestamp(1_700_000_000_000_000);
/// assert_eq!((params.consistency, params.flags, params.page_size), (6, 0x24, Some(5_000)));
/// ```
impl QueryParams {
    /// Of this consistency, and nothing else.
    #[must_use]
    pub fn new(consistency: Consistency) -> QueryParams {
        QueryParams {
            consistency: consistency.into(),
            flags: 0,
            values: None,
            page_size: None,
            paging: None,
            serial: None,
            timestamp: None,
        }
    }

    /// With values, as [`bind!`](crate::bind) makes them; by name if the first has one.
    #[must_use]
    pub fn with_values(self, values: BoundValues) -> QueryParams {
        let by_name = values.first().is_some_and(|(name, _)| name.is_some());
        let names = if by_name { query_flag::WITH_NAMES_FOR_VALUES } else { 0 };
        QueryParams { values: Some(values), ..self.with_flags(query_flag::VALUES | names) }
    }

    /// The response is to have no metadata, as that of a prepared statement needs none.
    #[must_use]
    pub fn without_metadata(self) -> QueryParams {
        self.with_flags(query_flag::SKIP_METADATA)
    }

    /// With how many rows a page has.
    #[must_use]
    pub fn with_page_size(self, rows: i32) -> QueryParams {
        QueryParams { page_size: Some(rows), ..self.with_flags(query_flag::PAGE_SIZE) }
    }

    /// With the paging state of the page before.
    #[must_use]
    pub fn with_paging_state(self, state: impl Into<Vec<u8>>) -> QueryParams {
        QueryParams { paging: Some(Some(state.into())), ..self.with_flags(query_flag::WITH_PAGING_STATE) }
    }

    /// With the consistency of a lightweight transaction: [`Consistency::Serial`] or [`Consistency::LocalSerial`].
    #[must_use]
    pub fn with_serial_consistency(self, level: Consistency) -> QueryParams {
        QueryParams { serial: Some(level.into()), ..self.with_flags(query_flag::WITH_SERIAL_CONSISTENCY) }
    }

    /// With the timestamp of what is written, in microseconds since 1970.
    #[must_use]
    pub fn with_timestamp(self, microseconds: i64) -> QueryParams {
        QueryParams { timestamp: Some(microseconds), ..self.with_flags(query_flag::WITH_DEFAULT_TIMESTAMP) }
    }

    fn with_flags(self, flags: u8) -> QueryParams {
        QueryParams { flags: self.flags | flags, ..self }
    }
}
