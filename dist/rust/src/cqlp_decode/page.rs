// Written by dist/erase from crates/cqlp_decode/src/page.rt.
//! The cells of a page, in their order.

use crate::cqlp_decode::given::GivenUse;
use crate::cqlp_grammar::{Role, has, number};
use crate::cqlp_kind::Kind;
use crate::cqlp_note::{Asked, Prim};
use crate::cqlp_type::TypeTable;

/// The types of a page's columns.
#[derive(Clone, Copy, Debug, PartialEq, Eq)]
pub enum Columns {
    /// Those of the metadata.
    Typed,
    /// Those of the table that the caller gave.
    Given,
    /// This many columns, whose types are not known.
    Raw(u32),
}

/// A cell of a page, and how many rows there are after its own.
#[derive(Clone, Copy)]
pub struct CellCursor {
    pub columns: Columns,
    pub row: u32,
    pub column: u32,
    /// Where the type of the column is in the table, if that is known.
    pub index: u32,
    pub left: u32,
}

/// The head of a column's type: its kind, and how many nodes of the table the type takes.
#[derive(Clone, Copy)]
pub struct ColumnHead {
    pub kind: Kind,
    pub span: u32,
}

impl Columns {
    #[cfg_attr(not(feature = "cli"), inline)]
    fn are_none(self, table: &TypeTable) -> bool {
        match self {
            Columns::Typed | Columns::Given => table.is_empty(),
            Columns::Raw(columns) => columns == 0,
        }
    }
}

impl CellCursor {
    /// The first cell of this many rows, if there is one.
    #[cfg_attr(not(feature = "cli"), inline)]
    #[must_use]
    pub fn first(columns: Columns, rows: u32, table: &TypeTable) -> Option<Self> {
        if rows == 0 || columns.are_none(table) {
            return None;
        }
        Some(CellCursor {
            columns,
            row: 0,
            column: 0,
            index: 0,
            left: rows - 1,
        })
    }

    /// The node of the column's type, if that is known.
    pub fn node(&self) -> Option<u32> {
        match self.columns {
            Columns::Typed | Columns::Given => Some(self.index),
            Columns::Raw(_) => None,
        }
    }

    /// The kind of the column's type.
    #[cfg_attr(not(feature = "cli"), inline)]
    pub(crate) fn kind(&self, table: &TypeTable) -> Kind {
        self.head(table).kind
    }

    /// The head of the column's type.
    #[inline(always)]
    pub(crate) fn head(&self, table: &TypeTable) -> ColumnHead {
        match self.columns {
            Columns::Typed | Columns::Given => {
                let node = table.node(self.index).unwrap();
                ColumnHead {
                    kind: node.kind,
                    span: node.span,
                }
            }
            Columns::Raw(_) => ColumnHead {
                kind: Kind::Raw,
                span: 0,
            },
        }
    }

    /// The cell after this one, if there is one.
    #[cfg_attr(not(feature = "cli"), inline)]
    pub(crate) fn next(self, table: &TypeTable) -> Option<Self> {
        let head = self.head(table);
        let mut following = self;
        if following.advance(head.span, table) {
            return Some(following);
        }
        None
    }

    /// Goes on to the cell after this one, whose column's type takes this many nodes, if there is one.
    #[inline(always)]
    pub(crate) fn advance(&mut self, span: u32, table: &TypeTable) -> bool {
        if let Some(index) = self.next_column(span, table) {
            self.column += 1;
            self.index = index;
            return true;
        }
        if self.left == 0 {
            return false;
        }
        self.row += 1;
        self.column = 0;
        self.index = 0;
        self.left -= 1;
        true
    }

    /// Where the type of the next column is, if this row has one; that of this one takes so many nodes.
    #[cfg_attr(not(feature = "cli"), inline)]
    fn next_column(&self, span: u32, table: &TypeTable) -> Option<u32> {
        match self.columns {
            Columns::Typed | Columns::Given => {
                let end = table.len();
                let index = self.index + span;
                (index < end).then_some(index)
            }
            Columns::Raw(columns) => (self.column + 1 < columns).then_some(0),
        }
    }
}

/// The table that types the columns of a page: that of the metadata, or the one that was given.
#[cfg_attr(not(feature = "cli"), inline)]
pub fn page_table<'a>(
    columns: Columns,
    table: &'a TypeTable,
    given: &'a Option<TypeTable>,
) -> &'a TypeTable {
    match (columns, given) {
        (Columns::Given, Some(given)) => given,
        _ => table,
    }
}

/// Whether a given table types the page that begins after a field of this role: it waits, the metadata has no types,
/// and as many types are in it as the page has columns.
#[cfg_attr(not(feature = "cli"), inline)]
#[must_use]
pub fn serves(role: Role, given: &Option<TypeTable>, given_use: GivenUse) -> bool {
    match (role, given, given_use) {
        (Role::PageRows { flags, columns }, Some(table), GivenUse::Waiting) => {
            has(flags, 0x04) && has_types(table, columns)
        }
        _ => false,
    }
}

/// Whether this many types are side by side in a table.
#[cfg_attr(not(feature = "cli"), inline)]
fn has_types(table: &TypeTable, count: u32) -> bool {
    table.roots() == count
}

/// The page that begins after a field of this role that has this value, if it has a cell. A given table types it where
/// it was found to serve.
#[cfg_attr(not(feature = "cli"), inline)]
pub fn find_page(
    limits: &Asked,
    role: Role,
    value: Prim<'_>,
    table: &TypeTable,
    given: &Option<TypeTable>,
    served: bool,
) -> Option<CellCursor> {
    let Role::PageRows { flags, columns } = role else {
        return None;
    };
    let columns = columns_of(limits, flags, columns, served);
    CellCursor::first(columns, number(value), page_table(columns, table, given))
}

/// The types of this many columns, whose metadata has these flags.
fn columns_of(limits: &Asked, flags: u32, columns: u32, served: bool) -> Columns {
    match (limits.types, served, has(flags, 0x04)) {
        (true, true, _) => Columns::Given,
        (true, false, false) => Columns::Typed,
        (true, false, true) => Columns::Raw(columns),
        (false, _, _) => Columns::Raw(columns),
    }
}
