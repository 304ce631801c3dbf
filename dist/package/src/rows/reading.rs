//! Rows, made of the events of a page.

use alloc::string::String;
use alloc::vec::Vec;

use crate::cqlp_build_cells::CellLimits;
use crate::cqlp_grammar::{Event, SinkFault, result_kind};
use crate::cqlp_kind::Kind;
use crate::cqlp_message::Spec;
use crate::cqlp_note::{Field, Header};
use crate::rows::cell::{LentCell, NotHeld, OpenCell, Place, Step};
use crate::rows::error::{Mismatch, RowError};
use crate::rows::from_row::{FromRow, Row, finish, set};

/// What a frame says beside its cells.
#[derive(Clone, Debug, Default, PartialEq, Eq)]
#[non_exhaustive]
pub struct PageHead {
    /// The header of the frame, once it came.
    pub header: Option<Header>,
    /// The kind of a RESULT, by the numbers of [`result_kind`](crate::result_kind).
    pub result: Option<u32>,
    /// How many columns the page has.
    pub columns: u32,
    /// How many rows the page has.
    pub rows: u32,
    /// Where the rows go on after this page; None where it is the last.
    pub paging_state: Option<Vec<u8>>,
    /// The code and the message of an ERROR. Section 9 of `native_protocol_v4.spec`.
    pub error: Option<(i32, String)>,
    /// The texts of the warnings.
    pub warnings: Vec<String>,
    /// Whether the frame ended.
    pub ended: bool,
}

impl PageHead {
    /// Whether the frame is a RESULT of the kind Rows.
    #[must_use]
    pub fn is_page(&self) -> bool {
        self.result == Some(result_kind::ROWS)
    }

    /// Takes an event that is of no cell.
    fn take(&mut self, event: &Event<'_>) {
        match *event {
            Event::Frame(header) => *self = PageHead { header: Some(header), ..PageHead::default() },
            Event::Int { field: Field::ResultKind, value } => self.result = Some(value as u32),
            Event::Count { field: Field::Columns, count } => self.columns = count,
            Event::Count { field: Field::Rows, count } => self.rows = count,
            Event::Bytes { field: Field::PagingState, bytes } => self.paging_state = bytes.map(<[u8]>::to_vec),
            Event::Int { field: Field::ErrorCode, value } => self.error = Some((value, String::new())),
            Event::Text { field: Field::Message, text } => self.error = self.error.take().map(|(code, _)| (code, text.into())),
            Event::Text { field: Field::Warning, text } => self.warnings.push(text.into()),
            Event::End { .. } => self.ended = true,
            _ => {}
        }
    }
}

/// The names of the columns of a page.
#[derive(Clone, Debug, Default)]
pub(crate) struct Names {
    text: String,
    ends: Vec<usize>,
}

impl Names {
    fn clear(&mut self) {
        self.text.clear();
        self.ends.clear();
    }

    fn push(&mut self, name: &str) -> Result<(), RowError> {
        self.text.try_reserve(name.len()).map_err(|_| RowError::NoMemory)?;
        self.ends.try_reserve(1).map_err(|_| RowError::NoMemory)?;
        self.text.push_str(name);
        self.ends.push(self.text.len());
        Ok(())
    }

    pub(crate) fn of_specs(specs: &[Spec]) -> Result<Names, RowError> {
        let mut names = Names::default();
        specs.iter().try_for_each(|spec| names.push(&spec.name))?;
        Ok(names)
    }

    fn get(&self, column: usize) -> Option<&str> {
        let end = *self.ends.get(column)?;
        let begin = column.checked_sub(1).map_or(0, |before| self.ends[before]);
        self.text.get(begin..end)
    }

    fn find(&self, name: &str) -> Option<usize> {
        (0..self.ends.len()).find(|&column| self.get(column) == Some(name))
    }
}

/// No field's number, for a column that is passed over.
const NO_FIELD: u32 = u32::MAX;

/// The flag of metadata that has no columns. Section 4.2.5.2 of `native_protocol_v4.spec`.
const NO_METADATA: i32 = 0x04;

/// The row under way.
pub(crate) struct Reading<T: Row> {
    partial: T::Partial,
    /// The number of the field that each column sets.
    fields: Vec<u32>,
    /// The last column.
    last: u32,
    /// Whether the page has no metadata.
    bare: bool,
    open: OpenCell,
    names: Names,
    /// The names of the columns of pages that have none.
    given: Option<Names>,
    pub(crate) head: PageHead,
    pub(crate) error: Option<RowError>,
}

impl<T: Row> Reading<T> {
    pub(crate) fn new(limits: CellLimits) -> Reading<T> {
        Reading {
            partial: T::Partial::default(),
            fields: Vec::new(),
            last: 0,
            bare: false,
            open: OpenCell::new(limits),
            names: Names::default(),
            given: None,
            head: PageHead::default(),
            error: None,
        }
    }

    /// Names the columns of pages that have no metadata.
    pub(crate) fn name_columns(&mut self, names: Option<Names>) {
        self.given = names;
    }

    /// Keeps an error, and gives up.
    #[cold]
    #[inline(never)]
    pub(crate) fn give_up(&mut self, error: RowError) -> SinkFault {
        self.error = Some(error);
        SinkFault
    }

    /// Gives up at a cell.
    #[cold]
    #[inline(never)]
    pub(crate) fn give_up_cell(&mut self, row: u32, column: u32, why: Mismatch) -> SinkFault {
        let name = self.columns().get(column as usize).unwrap_or_default().into();
        self.give_up(RowError::Cell { row, column, name, why })
    }

    /// The names of the page's columns.
    fn columns(&self) -> &Names {
        match &self.given {
            Some(given) if self.names.ends.is_empty() => given,
            _ => &self.names,
        }
    }

    /// The number of the field that a column sets.
    #[inline(always)]
    fn field_of(&self, column: u32) -> usize {
        self.fields.get(column as usize).copied().unwrap_or(NO_FIELD) as usize
    }

    /// Whether a column sets no field.
    pub(crate) fn is_passed_over(&self, column: u32) -> bool {
        self.field_of(column) == NO_FIELD as usize
    }

    /// Takes a cell, and answers whether it ends its row.
    #[inline(always)]
    pub(crate) fn take_cell<'a>(&mut self, row: u32, column: u32, cell: LentCell<'a, '_>) -> Result<bool, SinkFault>
    where
        T: FromRow<'a>,
    {
        let field = self.field_of(column);
        match set::<T>(&mut self.partial, field, cell) {
            Ok(()) => Ok(column == self.last),
            Err(why) => Err(self.give_up_cell(row, column, why)),
        }
    }

    /// The row whose last cell came.
    #[inline(always)]
    pub(crate) fn end_row(&mut self) -> Result<T, SinkFault> {
        finish::<T>(&mut self.partial).ok_or_else(|| self.give_up(RowError::NoNames))
    }

    /// Takes an event that is of no cell, or of the items of one, whose contents lie here.
    #[inline(never)]
    pub(crate) fn take_other(&mut self, event: &Event<'_>, place: Place) -> Result<Taken, SinkFault> {
        let held = match *event {
            Event::Leaf { ref scalar, .. } => self.open.push_scalar(scalar, place),
            Event::Null { .. } => self.open.push(Step::Null),
            Event::Empty { .. } => self.open.push(Step::Empty),
            Event::Enter { row, column, level, kind, items } => self.enter(row, column, level, kind, items),
            Event::Leave { level, .. } => {
                self.open.leave();
                return Ok(if level == 0 { Taken::Cell } else { Taken::Part });
            }
            Event::Part { row, column, .. } => return Err(self.give_up(RowError::InParts { row, column })),
            _ => return self.take_field(event),
        };
        match held {
            Ok(()) => Ok(Taken::Part),
            Err(why) => Err(self.give_up_held(why)),
        }
    }

    /// Takes the cell with items that ended, and answers whether it ends its row.
    pub(crate) fn take_items<'a>(&mut self, page: &'a [u8]) -> Result<bool, SinkFault>
    where
        T: FromRow<'a>,
    {
        let (row, column) = (self.open.row, self.open.column);
        let field = self.field_of(column);
        match set::<T>(&mut self.partial, field, self.open.lend(page)) {
            Ok(()) => Ok(column == self.last),
            Err(why) => Err(self.give_up_cell(row, column, why)),
        }
    }

    /// Takes the cell with items that ended, whose contents were copied, and answers whether it ends its row.
    pub(crate) fn take_copied(&mut self) -> Result<bool, SinkFault>
    where
        T: for<'a> FromRow<'a>,
    {
        let (row, column) = (self.open.row, self.open.column);
        let field = self.field_of(column);
        match set::<T>(&mut self.partial, field, self.open.lend_copied()) {
            Ok(()) => Ok(column == self.last),
            Err(why) => Err(self.give_up_cell(row, column, why)),
        }
    }

    fn enter(&mut self, row: u32, column: u32, level: u32, kind: Kind, items: u32) -> Result<(), NotHeld> {
        if level == 0 {
            self.open.begin(row, column, self.is_passed_over(column));
        }
        self.open.enter(kind, items)
    }

    #[cold]
    fn give_up_held(&mut self, why: NotHeld) -> SinkFault {
        let (row, column) = (self.open.row, self.open.column);
        self.give_up(match why {
            NotHeld::TooLarge => RowError::TooLarge { row, column },
            NotHeld::NoMemory => RowError::Cell { row, column, name: String::new(), why: Mismatch::NoMemory },
        })
    }

    /// Takes an event that is of no cell.
    fn take_field(&mut self, event: &Event<'_>) -> Result<Taken, SinkFault> {
        self.head.take(event);
        let taken = match *event {
            Event::Frame(_) => {
                self.names.clear();
                Ok(Taken::Part)
            }
            Event::Int { field: Field::MetaFlags, value } => {
                self.bare = value & NO_METADATA != 0;
                Ok(Taken::Part)
            }
            Event::Text { field: Field::ColumnName, text } => self.names.push(text).map(|()| Taken::Part),
            Event::Count { field: Field::Rows, .. } => self.begin_page().map(|()| Taken::Head),
            Event::End { .. } => Ok(Taken::Frame),
            _ => Ok(Taken::Part),
        };
        taken.map_err(|error| self.give_up(error))
    }

    /// Whether the page has no metadata.
    pub(crate) fn is_bare(&self) -> bool {
        self.bare
    }

    /// Whether the first columns are the fields, in their order.
    pub(crate) fn is_in_order(&self) -> bool {
        self.fields.get(..T::WIDTH).is_some_and(|fields| fields.iter().zip(0..).all(|(field, place)| *field == place))
    }

    /// Finds the column of each field.
    fn begin_page(&mut self) -> Result<(), RowError> {
        let columns = self.head.columns as usize;
        self.last = self.head.columns.wrapping_sub(1);
        self.partial = T::Partial::default();
        let mut fields = core::mem::take(&mut self.fields);
        fields.clear();
        match T::NAMES {
            None if columns < T::WIDTH => return Err(RowError::TooFewColumns { wanted: T::WIDTH, came: columns }),
            None => {
                fields.try_reserve(T::WIDTH).map_err(|_| RowError::NoMemory)?;
                fields.extend(0..T::WIDTH as u32);
            }
            Some(_) if self.columns().ends.len() != columns => return Err(RowError::NoNames),
            Some(names) => {
                fields.try_reserve(columns).map_err(|_| RowError::NoMemory)?;
                fields.resize(columns, NO_FIELD);
                for (field, &name) in names.iter().enumerate() {
                    match &mut fields[self.column_of(name)?] {
                        free if *free == NO_FIELD => *free = field as u32,
                        _ => return Err(RowError::TwoFields { name }),
                    }
                }
            }
        }
        self.fields = fields;
        Ok(())
    }

    /// The column of this name.
    fn column_of(&self, name: &'static str) -> Result<usize, RowError> {
        self.columns().find(name).ok_or(RowError::MissingColumn { name })
    }
}

/// What an event was.
pub(crate) enum Taken {
    /// A part of a frame or of a cell.
    Part,
    /// The end of a cell with items.
    Cell,
    /// The end of what a page has before its cells.
    Head,
    /// The end of a frame.
    Frame,
}
