//! Pages of rows.

use super::problem::Problem;
use super::statement::Select;
use super::table::{Column, Table};
use cqlp::Target;
use cqlp::frame::{Frame, Message, Metadata, PageError, PageWriter, QueryParams, Rows, Spec, Value, value_size};
use cqlp::memory::AllocError;

/// The flags of metadata: all columns are of one table, there is a next page, the columns are not described. Section 4.2.5.2 of
/// `native_protocol_v4.spec`.
pub const ONE_TABLE: i32 = 1;
const MORE_PAGES: i32 = 2;
const NO_METADATA: i32 = 4;

/// Whether a page describes its columns.
#[derive(Clone, Copy, Debug, PartialEq, Eq)]
pub enum Columns {
    Described,
    Omitted,
}

/// A page of some rows of a table, in their order.
pub struct Page<'a> {
    /// The reply, but for its cells.
    pub frame: Frame,
    columns: Columns,
    table: &'a Table,
    /// The places of its rows and columns in the table.
    rows: Vec<usize>,
    selected: Vec<usize>,
}

impl<'a> Page<'a> {
    /// The page that a request asks for.
    pub fn new(select: Select<'a>, params: &QueryParams, stream: i16, columns: Columns) -> Result<Page<'a>, Problem> {
        let all = select.rows();
        let first = first_row(&all, params)?;
        let size = params.page_size.and_then(|size| usize::try_from(size).ok()).filter(|size| *size > 0);
        let after = size.map_or(all.len(), |size| all.len().min(first.saturating_add(size)));
        let mut meta = match columns {
            Columns::Described => described(&select)?,
            Columns::Omitted => omitted(select.columns.len()),
        };
        if let Some(next) = all.get(after) {
            meta.flags |= MORE_PAGES;
            meta.paging = Some(Some(next.to_be_bytes().to_vec()));
        }
        let rows = all[first..after].to_vec();
        let message = Message::Rows(Rows { meta, rows: rows.len() as u32, cells: vec![] });
        Ok(Page { frame: Frame::plain(stream, message), columns, table: select.table, rows, selected: select.columns })
    }

    /// Writes it, cell by cell.
    pub fn write<W: Target>(&self, target: &mut W) -> Result<(), PageError> {
        let len = self.cells().map(|(_, value)| value_size(value)).sum::<u64>();
        let mut page = PageWriter::begin(&self.frame, u32::try_from(len).unwrap_or(u32::MAX), target)?;
        for (column, value) in self.cells() {
            match self.columns {
                Columns::Described => page.cell(value, target)?,
                Columns::Omitted => page.cell_as(value, &column.tree, target)?,
            }
        }
        page.finish().map(drop)
    }

    fn cells(&self) -> impl Iterator<Item = (&Column, &Value)> {
        let rows = self.rows.iter().map(|row| &self.table.rows[*row]);
        rows.flat_map(|row| self.selected.iter().map(|column| (&self.table.columns[*column], &row[*column])))
    }
}

/// The place among these rows of the one with which a page begins, which the paging state of the page before names.
fn first_row(rows: &[usize], params: &QueryParams) -> Result<usize, Problem> {
    let Some(Some(state)) = &params.paging else {
        return Ok(0);
    };
    let named = state.as_slice().try_into().ok().map(usize::from_be_bytes);
    let place = named.and_then(|named| rows.binary_search(&named).ok()).filter(|place| *place > 0);
    place.ok_or_else(|| Problem::protocol("invalid value for the paging state"))
}

/// The keyspace and the name of a table.
pub fn full_name(table: &Table) -> (String, String) {
    (table.keyspace.clone(), table.name.clone())
}

/// Metadata that describe the columns that are selected.
pub fn described(select: &Select) -> Result<Metadata, AllocError> {
    let specs: Vec<Spec> = select.columns.iter().map(|column| select.table.columns[*column].spec()).collect::<Result<_, _>>()?;
    let columns = specs.len() as u32;
    Ok(Metadata { flags: ONE_TABLE, columns, paging: None, table: Some(full_name(select.table)), specs: Some(specs) })
}

/// Metadata with the number of columns alone.
fn omitted(columns: usize) -> Metadata {
    Metadata { flags: NO_METADATA, columns: columns as u32, paging: None, table: None, specs: None }
}
