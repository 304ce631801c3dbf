//! Messages that each client and server needs, in short. Written by hand, and not proved.
//!
//! Texts and lists are of std's types here, and are asked for as std does, which ends the program where memory is refused.
use alloc::boxed::Box;
use alloc::string::String;
use alloc::vec::Vec;

use crate::cqlp_kind::Kind;
use crate::cqlp_message::{BatchEntry, ErrorExtra, Message, Metadata, Prepared, QueryParams, Rows, Spec};
use crate::cqlp_type::TypeTree;
use crate::cqlp_value::Value;
use crate::names::{Consistency, ErrorCode};

/// The flag of metadata: one table for all columns. Section 4.2.5.2 of `native_protocol_v4.spec`.
const GLOBAL_TABLE: i32 = 1;
/// The flag of metadata: no columns are described.
const NO_METADATA: i32 = 4;
/// The option of STARTUP, and of SUPPORTED.
const COMPRESSION: &str = "COMPRESSION";

impl Message {
    /// A STARTUP without compression.
    #[must_use]
    pub fn startup() -> Message {
        Message::Startup(Vec::from([("CQL_VERSION".into(), "3.0.0".into())]))
    }

    /// A QUERY.
    #[must_use]
    pub fn query(text: impl Into<String>, params: QueryParams) -> Message {
        Message::Query { text: text.into(), params }
    }

    /// A PREPARE.
    #[must_use]
    pub fn prepare(text: impl Into<String>) -> Message {
        Message::Prepare(text.into())
    }

    /// An EXECUTE of the statement with this id.
    #[must_use]
    pub fn execute(id: &[u8], params: QueryParams) -> Message {
        Message::Execute { id: id.to_vec(), params }
    }

    /// A logged BATCH of these statements.
    #[must_use]
    pub fn batch(entries: Vec<BatchEntry>, consistency: Consistency) -> Message {
        Message::Batch { kind: 0, entries, consistency: consistency.into(), flags: 0, serial: None, timestamp: None }
    }

    /// A REGISTER for events of these types.
    #[must_use]
    pub fn register(types: &[&str]) -> Message {
        Message::Register(types.iter().map(|&name| name.into()).collect::<Vec<_>>())
    }

    /// An ERROR of a code after whose message nothing comes. Section 9 of `native_protocol_v4.spec`.
    #[must_use]
    pub fn error(code: ErrorCode, text: &str) -> Message {
        Message::Error { code: code.into(), message: text.into(), extra: ErrorExtra::Plain }
    }

    /// The ERROR by which a client prepares a statement again.
    #[must_use]
    pub fn unprepared(id: &[u8]) -> Message {
        let extra = ErrorExtra::Unprepared { id: id.to_vec() };
        Message::Error { code: ErrorCode::Unprepared.into(), message: "no statement with this id is prepared".into(), extra }
    }

    /// A SUPPORTED with these options.
    #[must_use]
    pub fn supported(options: &[(&str, &[&str])]) -> Message {
        let texts = |texts: &[&str]| texts.iter().map(|&text| text.into()).collect::<Vec<_>>();
        Message::Supported(options.iter().map(|&(name, values)| (name.into(), texts(values))).collect::<Vec<_>>())
    }

    /// A page of this table, with all its cells, row after row. Cells that are no whole rows are left out.
    #[must_use]
    pub fn rows(keyspace: &str, table: &str, columns: Vec<Spec>, mut cells: Vec<Value>) -> Message {
        let rows = cells.len().checked_div(columns.len()).unwrap_or_default();
        cells.truncate(rows * columns.len());
        let meta = Metadata::of_table(keyspace, table, columns);
        Message::Rows(Rows { meta, rows: u32::try_from(rows).unwrap_or(u32::MAX), cells })
    }

    /// A page whose rows are written one by one, after it: [`ServerSide::answer_rows`](crate::wire::ServerSide::answer_rows).
    #[must_use]
    pub fn bare_rows(meta: Metadata, rows: u32) -> Message {
        Message::Rows(Rows { meta, rows, cells: Vec::new() })
    }

    /// The message without an offer of compression, if it is a SUPPORTED, and without a wish for it, if it is a STARTUP.
    #[must_use]
    pub fn without_compression(self) -> Message {
        match self {
            Message::Startup(options) => {
                let asks = |name: &str| name.eq_ignore_ascii_case(COMPRESSION);
                Message::Startup(options.into_iter().filter(|(name, _)| !asks(name)).collect::<Vec<_>>())
            }
            Message::Supported(mut options) => {
                options.iter_mut().filter(|(name, _)| name.eq_ignore_ascii_case(COMPRESSION)).for_each(|(_, values)| values.clear());
                Message::Supported(options)
            }
            other => other,
        }
    }
}

impl Metadata {
    /// The columns of one table.
    #[must_use]
    pub fn of_table(keyspace: &str, table: &str, columns: Vec<Spec>) -> Metadata {
        let table = Some((keyspace.into(), table.into()));
        Metadata { flags: GLOBAL_TABLE, columns: columns.len() as u32, paging: None, table, specs: Some(columns) }
    }

    /// So many columns that are not described, as a request with [`QueryParams::without_metadata`] asks for.
    #[must_use]
    pub fn omitted(columns: usize) -> Metadata {
        Metadata { flags: NO_METADATA, columns: columns as u32, paging: None, table: None, specs: None }
    }

    /// The metadata of a page after which others come, from there on. Section 4.2.5.2 of `native_protocol_v4.spec`.
    #[must_use]
    pub fn with_paging_state(self, state: Vec<u8>) -> Metadata {
        Metadata { flags: self.flags | 2, paging: Some(Some(state)), ..self }
    }
}

impl Prepared {
    /// A statement of one table, which binds these values, the places of the partition key's among them, and whose pages have these columns.
    #[must_use]
    pub fn of_table(id: &[u8], keyspace: &str, table: &str, keys: &[u16], bound: Vec<Spec>, columns: Vec<Spec>) -> Prepared {
        Prepared {
            id: id.to_vec(),
            flags: GLOBAL_TABLE,
            columns: bound.len() as u32,
            keys: keys.to_vec(),
            table: Some((keyspace.into(), table.into())),
            specs: bound,
            result: Metadata::of_table(keyspace, table, columns),
        }
    }
}

impl Spec {
    /// A column of the table that all columns are of.
    ///
    /// ```
    /// use cqlp::Kind;
    /// use cqlp::frame::{Spec, TypeTree};
    ///
    /// let columns = [Spec::new("id", Kind::Int), Spec::new("tags", TypeTree::list(Kind::Varchar))];
    /// assert_eq!(columns[0].tree, TypeTree::Plain(Kind::Int));
    /// ```
    #[must_use]
    pub fn new(name: &str, of: impl Into<TypeTree>) -> Spec {
        Spec { table: None, name: name.into(), tree: of.into() }
    }
}

/// A type without parameters.
impl From<Kind> for TypeTree {
    fn from(kind: Kind) -> TypeTree {
        TypeTree::Plain(kind)
    }
}

/// This type in memory of its own, which is asked for as std does.
fn boxed(of: impl Into<TypeTree>) -> Box<TypeTree> {
    Box::new(of.into())
}

impl TypeTree {
    /// A list of this type.
    #[must_use]
    pub fn list(of: impl Into<TypeTree>) -> TypeTree {
        TypeTree::List(boxed(of))
    }

    /// A set of this type.
    #[must_use]
    pub fn set(of: impl Into<TypeTree>) -> TypeTree {
        TypeTree::Set(boxed(of))
    }

    /// A map of these types.
    #[must_use]
    pub fn map(keys: impl Into<TypeTree>, values: impl Into<TypeTree>) -> TypeTree {
        TypeTree::Map(boxed(keys), boxed(values))
    }
}
