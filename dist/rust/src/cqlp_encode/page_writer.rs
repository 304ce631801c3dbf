// Written by dist/erase from crates/cqlp_encode/src/page_writer.rt.
//! A page whose cells are written one by one.

use crate::cqlp_encode::value_writing::{offer_decimal, offer_lent, offer_number, offer_value};
use crate::cqlp_encode::writing::write_parts;
use crate::cqlp_message::{Frame, Message, Spec, Unfit};
use crate::cqlp_note::Target;
use crate::cqlp_type::TypeTree;
use crate::cqlp_value::{Atom, Content, Value, fitting_size};

error! {
/// Why a page was not begun, a cell was not written, or a page is not done.
#[derive(Clone, Copy, Debug, PartialEq, Eq)]
pub enum PageError {
    /// The frame is no page that can be written with its cells after it, or the value is none of its column's type. Nothing
    /// was written.
    #[error("{0}")]
    Unfit(Unfit),
    /// All cells are written.
    #[error("all cells are written")]
    OutOfTurn,
    /// The cells would have more bytes than were said.
    #[error("the cells would have more bytes than were said")]
    PastLength,
    /// Cells, or bytes of them, are still to come.
    #[error("cells, or bytes of them, are still to come")]
    NotDone,
    /// The target failed, or took nothing, after the frame's first bytes, this many, which the targets of all calls took.
    #[error("the target failed after {written} bytes of the frame")]
    Write {
        /// How many bytes of the frame are written, from its header on, by this call and those before it.
        written: u32,
    },
}
}

/// Writes a page whose cells come one by one, in order, row after row. Section 4.2.5.2 of `native_protocol_v4.spec`.
///
/// It holds no memory of its own: the caller says before the first cell how many bytes all cells have, which the frame's
/// header counts, and each cell goes to the target at once. `laws::page_is_as_encoded`
/// says that it is then the frame with these cells, as [`encode`](crate::cqlp_encode::encode) writes it, where all calls are given one target.
///
/// Each call writes to the target that it is given, and the writer keeps none. Where calls are given several, each target gets what
/// its own calls write; the frame is all that was written, in the order of the calls, and no target alone has it.
pub struct PageWriter<'a> {
    frame: &'a Frame,
    /// The columns, none where they are not described.
    specs: &'a [Spec],
    /// How many columns there are.
    columns: u32,
    /// How many cells are still to come.
    left: u64,
    /// The column of the next, the first of which is 0.
    column: usize,
    /// How many bytes of cells are still to come.
    free: u32,
    /// How many bytes of the frame targets took.
    written: u32,
    /// Whether a target failed.
    failed: bool,
    /// How many bytes targets took of the cell in which one failed; 0 where none has.
    cut: u32,
}

impl<'a> PageWriter<'a> {
    /// Writes all of a page that comes before its first cell: the header, whose length counts the cells, and all other parts.
    /// All cells together are to have `cells_len` bytes, as [`value_size`](crate::cqlp_value::value_size) counts them.
    ///
    /// # Errors
    ///
    /// [`PageError::Unfit`] where [`Frame::page_unfit`] says why the frame is no page without cells, or its body would be too
    /// long, before anything is written, and [`PageError::Write`] at the first call of the target that fails or takes nothing.
    pub fn begin<W: Target>(
        frame: &'a Frame,
        cells_len: u32,
        target: &mut W,
    ) -> Result<PageWriter<'a>, PageError> {
        Self::begin_from(frame, cells_len, 0, target)
    }

    /// Goes on where an earlier call of [`begin`](Self::begin), or of this one, stopped: writes what comes before the first cell, but for
    /// its first bytes, `before` many, which targets took. `before` is what [`PageError::Write`] says.
    ///
    /// # Errors
    ///
    /// Those of [`begin`](Self::begin); [`PageError::Write`] counts the bytes before, too.
    pub fn begin_from<W: Target>(
        frame: &'a Frame,
        cells_len: u32,
        before: u32,
        target: &mut W,
    ) -> Result<PageWriter<'a>, PageError> {
        let page_len = match frame.page_measure(cells_len) {
            Ok(len) => len,
            Err(why) => return Err(PageError::Unfit(why)),
        };
        let taken = write_parts(frame, page_len - 9, before, target);
        if taken < page_len - cells_len {
            return Err(PageError::Write { written: taken });
        }
        Ok(PageWriter {
            frame,
            specs: frame.specs(),
            columns: frame.columns(),
            left: frame.cells_wanted(),
            column: 0,
            free: cells_len,
            written: taken,
            failed: false,
            cut: 0,
        })
    }

    /// Writes the next cell to this target. A cell without bytes, as an empty text, is [`Value::Empty`], which
    /// [`Value::scalar`] makes of a scalar; a leaf without bytes is none of any type.
    ///
    /// # Errors
    ///
    /// In this order: [`PageError::Write`] with the same number where an earlier call answered it; [`PageError::OutOfTurn`]
    /// where all cells are written; [`PageError::Unfit`] where the value is none of its column's type;
    /// [`PageError::PastLength`] where the cells would have more bytes than were said. Nothing is written then, and the writer
    /// is as it was. Then [`PageError::Write`] at the first call of the target that fails or takes nothing.
    pub fn cell<W: Target>(&mut self, value: &Value, target: &mut W) -> Result<(), PageError> {
        match self.specs.get(self.column) {
            Some(spec) => self.put_as(value, &spec.tree, target),
            None => {
                let size = self.frame.column_size(self.column, value);
                self.put(value, size, target)
            }
        }
    }

    /// Writes the next cell of a page whose columns are not described to this target, where it is a value of a type that the caller names: as
    /// [`raw_value`](crate::cqlp_encode::raw_value) makes it a cell of such a page, and [`cell`](Self::cell) would write it then.
    ///
    /// # Errors
    ///
    /// Those of [`cell`](Self::cell): [`PageError::Unfit`] where the value is none of its type, as [`fits`](crate::cqlp_value::fits) says, and where the
    /// page's columns are described.
    pub fn cell_as<W: Target>(
        &mut self,
        value: &Value,
        of: &TypeTree,
        target: &mut W,
    ) -> Result<(), PageError> {
        let size = undescribed_size(&self.frame.message, value, of);
        self.put(value, size, target)
    }

    /// Goes on with the cell in which an earlier call stopped: writes the bytes of the value behind those that targets took, and is then
    /// where [`cell`](Self::cell) would be, had it not stopped. The value is to be that of the cell; of another one as much is written as it
    /// has behind them. `laws::cell_is_whole` says that all bytes of the cell are there then, each once.
    ///
    /// # Errors
    ///
    /// In this order, with nothing changed: [`PageError::OutOfTurn`] where no call stopped within a cell; [`PageError::Unfit`] and
    /// [`PageError::PastLength`] as [`cell`](Self::cell) says them; [`PageError::OutOfTurn`] where the value has no more bytes than targets
    /// took. Then [`PageError::Write`] at the first call of the target that fails or takes nothing; this may be called again.
    pub fn resume<W: Target>(&mut self, value: &Value, target: &mut W) -> Result<(), PageError> {
        let size = self.frame.column_size(self.column, value);
        self.put_rest(value, size, target)
    }

    /// The same of a cell that [`cell_as`](Self::cell_as) writes.
    ///
    /// # Errors
    ///
    /// Those of [`resume`](Self::resume); [`PageError::Unfit`] as [`cell_as`](Self::cell_as) says it.
    pub fn resume_as<W: Target>(
        &mut self,
        value: &Value,
        of: &TypeTree,
        target: &mut W,
    ) -> Result<(), PageError> {
        let size = undescribed_size(&self.frame.message, value, of);
        self.put_rest(value, size, target)
    }

    /// How many bytes the frame has, with all its cells, all of which the targets of the calls took: where they were several, all
    /// together. It writes nothing, and may be called again.
    ///
    /// # Errors
    ///
    /// [`PageError::Write`] where an earlier call answered it, and [`PageError::NotDone`] where cells, or bytes of them, are
    /// still to come.
    pub fn finish(&self) -> Result<u32, PageError> {
        if self.failed {
            return Err(PageError::Write {
                written: self.written,
            });
        }
        if self.left > 0 || self.free > 0 {
            return Err(PageError::NotDone);
        }
        Ok(self.written)
    }

    /// Writes the next cell, if it is a value of this type.
    #[inline(always)]
    fn put_as<W: Target>(
        &mut self,
        value: &Value,
        of: &TypeTree,
        target: &mut W,
    ) -> Result<(), PageError> {
        match value {
            Value::Leaf(atom) => match of {
                TypeTree::Plain(kind) => match atom.content_as(*kind) {
                    Some(content) => self.put_content(atom, content, target),
                    None => self.put(value, None, target),
                },
                _ => self.put_any(value, of, target),
            },
            _ => self.put_any(value, of, target),
        }
    }

    /// The same of a value that is mostly no scalar.
    fn put_any<W: Target>(
        &mut self,
        value: &Value,
        of: &TypeTree,
        target: &mut W,
    ) -> Result<(), PageError> {
        let size = fitting_size(value, Some(of));
        self.put(value, size, target)
    }

    /// Writes the next cell: a scalar that fits, which has this content.
    #[inline(always)]
    fn put_content<W: Target>(
        &mut self,
        atom: &Atom,
        content: Content<'_>,
        target: &mut W,
    ) -> Result<(), PageError> {
        match content {
            Content::One(number) => self.put_number(&[number], target),
            Content::Two(number) => self.put_number(&number.to_be_bytes(), target),
            Content::Four(number) => self.put_number(&number.to_be_bytes(), target),
            Content::Eight(number) => self.put_number(&number.to_be_bytes(), target),
            Content::Lent(bytes) => self.put_lent(bytes, target),
            Content::Decimal(_, unscaled) => self.put_decimal(atom, unscaled.len() as u64, target),
        }
    }

    /// The same of the bytes of a number, which are at most eight.
    #[inline(always)]
    fn put_number<W: Target>(&mut self, content: &[u8], target: &mut W) -> Result<(), PageError> {
        let size = self.check(Some(content.len() as u64 + 4))?;
        let taken = offer_number(content, target);
        self.took(size, taken)
    }

    /// The same of a content that is lent.
    #[inline(always)]
    fn put_lent<W: Target>(&mut self, content: &[u8], target: &mut W) -> Result<(), PageError> {
        let size = self.check(Some(content.len() as u64 + 4))?;
        let taken = offer_lent(content, target);
        self.took(size, taken)
    }

    /// The same of a decimal whose unscaled number has this many bytes.
    fn put_decimal<W: Target>(
        &mut self,
        atom: &Atom,
        unscaled: u64,
        target: &mut W,
    ) -> Result<(), PageError> {
        let size = self.check(Some(unscaled + 8))?;
        let taken = offer_decimal(atom, target);
        self.took(size, taken)
    }

    /// Counts a cell of this many bytes, of which a target took this many.
    #[inline(always)]
    fn took(&mut self, size: u32, taken: u32) -> Result<(), PageError> {
        if taken < size {
            self.fail(taken);
            return Err(PageError::Write {
                written: self.written,
            });
        }
        self.count(size);
        Ok(())
    }

    /// Writes the next cell, if it is a value that fits and so has a size.
    fn put<W: Target>(
        &mut self,
        value: &Value,
        size: Option<u64>,
        target: &mut W,
    ) -> Result<(), PageError> {
        let size = self.check(size)?;
        let taken = offer_value(value, size, 0, target);
        self.took(size, taken)
    }

    /// Writes what targets have not taken of the cell in which one failed, if it is a value that fits and so has a size.
    fn put_rest<W: Target>(
        &mut self,
        value: &Value,
        size: Option<u64>,
        target: &mut W,
    ) -> Result<(), PageError> {
        if !self.failed {
            return Err(PageError::OutOfTurn);
        }
        let mut writer = self.before_cut();
        let size = writer.check(size)?;
        if size <= self.cut {
            return Err(PageError::OutOfTurn);
        }
        let taken = offer_value(value, size, self.cut, target);
        if taken < size {
            writer.fail(taken);
            *self = writer;
            return Err(PageError::Write {
                written: self.written,
            });
        }
        writer.count(size);
        *self = writer;
        Ok(())
    }

    /// The writer as it was before the cell in which a target failed.
    fn before_cut(&self) -> PageWriter<'a> {
        PageWriter {
            frame: self.frame,
            specs: self.specs,
            columns: self.columns,
            left: self.left,
            column: self.column,
            free: self.free,
            written: self.written - self.cut,
            failed: false,
            cut: 0,
        }
    }

    /// How many bytes the next cell has, or why a value of this size is not it.
    #[inline(always)]
    fn check(&self, size: Option<u64>) -> Result<u32, PageError> {
        if self.failed {
            return Err(PageError::Write {
                written: self.written,
            });
        }
        if self.left == 0 {
            return Err(PageError::OutOfTurn);
        }
        let size = match size {
            Some(size) => size,
            None => return Err(PageError::Unfit(Unfit::CellType)),
        };
        if size > u64::from(self.free) {
            return Err(PageError::PastLength);
        }
        Ok(size as u32)
    }

    /// Counts a cell of this many bytes that was written.
    fn count(&mut self, size: u32) {
        let next = self.column + 1;
        self.column = if next < self.columns as usize {
            next
        } else {
            0
        };
        self.left -= 1;
        self.free -= size;
        self.written += size;
    }

    /// Notes that a target failed after this many bytes of a cell.
    fn fail(&mut self, taken: u32) {
        self.written += taken;
        self.failed = true;
        self.cut = taken;
    }
}

/// How many bytes spell a value of this type, if it is one and a cell of a page whose columns are not described.
fn undescribed_size(message: &Message, value: &Value, of: &TypeTree) -> Option<u64> {
    match message {
        Message::Rows(page) => match &page.meta.specs {
            None => fitting_size(value, Some(of)),
            Some(_) => None,
        },
        _ => None,
    }
}
