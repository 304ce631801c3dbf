//! Rows of Rust types, written as a page.

use core::error::Error;
use core::fmt;

use crate::cqlp_encode::{PageError, PageWriter};
use crate::cqlp_message::{Frame, Spec};
use crate::cqlp_note::Target;
use crate::cqlp_value::value_size;
use crate::rows::bind::BindFault;
use crate::rows::to_cell::ToCell;

/// A type whose values are rows: tuples of up to 12 cells, and slices of cells.
pub trait ToRow {
    /// How many cells it has.
    fn width(&self) -> usize;

    /// The cell of a column.
    fn cell(&self, column: usize) -> Option<&dyn ToCell>;
}

impl ToRow for [&dyn ToCell] {
    fn width(&self) -> usize {
        self.len()
    }

    fn cell(&self, column: usize) -> Option<&dyn ToCell> {
        self.get(column).copied()
    }
}

/// Implements `ToRow` for tuples of these types.
macro_rules! tuples {
    ($($($type:ident $place:tt)+; $width:literal)+) => {$(
        impl<$($type: ToCell),+> ToRow for ($($type,)+) {
            fn width(&self) -> usize {
                $width
            }

            fn cell(&self, column: usize) -> Option<&dyn ToCell> {
                match column {
                    $($place => Some(&self.$place),)+
                    _ => None,
                }
            }
        }
    )+};
}

tuples! {
    A 0; 1
    A 0 B 1; 2
    A 0 B 1 C 2; 3
    A 0 B 1 C 2 D 3; 4
    A 0 B 1 C 2 D 3 E 4; 5
    A 0 B 1 C 2 D 3 E 4 F 5; 6
    A 0 B 1 C 2 D 3 E 4 F 5 G 6; 7
    A 0 B 1 C 2 D 3 E 4 F 5 G 6 H 7; 8
    A 0 B 1 C 2 D 3 E 4 F 5 G 6 H 7 I 8; 9
    A 0 B 1 C 2 D 3 E 4 F 5 G 6 H 7 I 8 J 9; 10
    A 0 B 1 C 2 D 3 E 4 F 5 G 6 H 7 I 8 J 9 K 10; 11
    A 0 B 1 C 2 D 3 E 4 F 5 G 6 H 7 I 8 J 9 K 10 L 11; 12
}

/// Why a row is not written.
#[derive(Clone, Debug, PartialEq, Eq)]
#[non_exhaustive]
pub enum WriteFault {
    /// The row is none of these columns.
    Row(BindFault),
    /// The page cannot go on, or the target failed.
    Page(PageError),
}

impl fmt::Display for WriteFault {
    fn fmt(&self, f: &mut fmt::Formatter<'_>) -> fmt::Result {
        match self {
            WriteFault::Row(why) => why.fmt(f),
            WriteFault::Page(why) => why.fmt(f),
        }
    }
}

impl Error for WriteFault {
    fn source(&self) -> Option<&(dyn Error + 'static)> {
        Some(match self {
            WriteFault::Row(why) => why,
            WriteFault::Page(why) => why,
        })
    }
}

impl From<BindFault> for WriteFault {
    fn from(why: BindFault) -> WriteFault {
        WriteFault::Row(why)
    }
}

impl From<PageError> for WriteFault {
    fn from(why: PageError) -> WriteFault {
        WriteFault::Page(why)
    }
}

/// Hands each cell of a row, with its column, to a closure.
fn each_cell<E: From<BindFault>>(
    specs: &[Spec],
    row: &(impl ToRow + ?Sized),
    mut hand: impl FnMut(&crate::cqlp_value::Value, &Spec) -> Result<(), E>,
) -> Result<(), E> {
    if row.width() != specs.len() {
        return Err(BindFault::Count { wanted: specs.len(), given: row.width() }.into());
    }
    for (place, spec) in specs.iter().enumerate() {
        if let Some(cell) = row.cell(place) {
            let value = cell.to_cell(&spec.tree).map_err(|why| BindFault::Value { place, name: spec.name.as_str().into(), why })?;
            hand(&value, spec)?;
        }
    }
    Ok(())
}

/// How many bytes a row of these columns has, which a page says of all its rows before the first.
///
/// # Errors
///
/// [`BindFault`], where the row is none of these columns.
pub fn row_size<R: ToRow + ?Sized>(specs: &[Spec], row: &R) -> Result<u64, BindFault> {
    let mut size = 0;
    each_cell(specs, row, |value, _| {
        size += value_size(value);
        Ok::<(), BindFault>(())
    })?;
    Ok(size)
}

/// Writes a page whose rows come one by one, and holds nothing of them:
///
/// ```
/// use cqlp::frame::{Frame, Message, Metadata, Spec};
/// use cqlp::rows::{RowWriter, page_rows, row_size};
/// use cqlp::wire::Outbox;
/// use cqlp::Kind;
///
/// let columns = || vec![Spec::new("id", Kind::Int), Spec::new("name", Kind::Varchar)];
/// let rows = [(1, "tea"), (2, "salt")];
/// let sizes = rows.iter().map(|row| row_size(&columns(), row)).sum::<Result<u64, _>>()?;
///
/// let page = Frame::plain(7, Message::bare_rows(Metadata::of_table("shop", "item", columns()), 2));
/// let (mut out, specs) = (Outbox::default(), columns());
/// let mut writer = RowWriter::begin(&page, &specs, sizes as u32, &mut out)?;
/// for row in &rows {
///     writer.row(row, &mut out)?;
/// }
/// writer.finish()?;
/// assert!(page_rows::<(i32, &str)>(out.bytes())?.map(Result::unwrap).eq(rows));
/// # Ok::<(), Box<dyn std::error::Error>>(())
/// ```
pub struct RowWriter<'p> {
    writer: PageWriter<'p>,
    specs: &'p [Spec],
    /// Whether the page does not describe its columns.
    is_bare: bool,
}

impl fmt::Debug for RowWriter<'_> {
    fn fmt(&self, f: &mut fmt::Formatter<'_>) -> fmt::Result {
        f.debug_struct("RowWriter").field("is_bare", &self.is_bare).finish_non_exhaustive()
    }
}

impl<'p> RowWriter<'p> {
    /// Writes what comes before the first row of a page without cells. All rows together have `cells_len` bytes. `specs` are the
    /// columns, also where the page does not describe them.
    ///
    /// # Errors
    ///
    /// As [`PageWriter::begin`].
    pub fn begin<W: Target>(page: &'p Frame, specs: &'p [Spec], cells_len: u32, target: &mut W) -> Result<RowWriter<'p>, PageError> {
        let writer = PageWriter::begin(page, cells_len, target)?;
        Ok(RowWriter { writer, specs, is_bare: page.specs().is_empty() })
    }

    /// Writes the next row.
    ///
    /// # Errors
    ///
    /// [`WriteFault::Row`] where it is none of the columns, after which the page cannot go on if some of its cells are written; and
    /// [`WriteFault::Page`], as [`PageWriter::cell`].
    pub fn row<R: ToRow + ?Sized, W: Target>(&mut self, row: &R, target: &mut W) -> Result<(), WriteFault> {
        each_cell(self.specs, row, |value, spec| match self.is_bare {
            true => Ok(self.writer.cell_as(value, &spec.tree, target)?),
            false => Ok(self.writer.cell(value, target)?),
        })
    }

    /// How many bytes the frame has, all of which were written.
    ///
    /// # Errors
    ///
    /// [`PageError::NotDone`] where rows are still to come, and [`PageError::Write`] where a target failed.
    pub fn finish(self) -> Result<u32, PageError> {
        self.writer.finish()
    }
}
