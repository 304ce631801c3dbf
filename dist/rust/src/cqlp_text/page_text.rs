// Written by dist/erase from crates/cqlp_text/src/page_text.rt.
//! Pages as text.

use crate::kit_std::prelude::{KitVec};
use crate::cqlp_text::digits::SHORT;
use crate::cqlp_text::gap::Gap;
use crate::cqlp_text::line_pen::LinePen;
use crate::cqlp_text::pen::Pen;
use crate::cqlp_text::text_writer::TextWriter;
use crate::cqlp_grammar::{Event, SinkFault};
use crate::cqlp_kind::{Kind, Scalar};
use crate::cqlp_note::{Field, Target};

/// How many values are open at most: no type is deeper.
const ROOM: usize = 64;

/// The kind of a result that is a page.
const ROWS: i32 = 2;

/// Appends what is written of an event of a page, which nothing is of an event of another frame, and goes to the place
/// after it, also at a fault, which is the writer's own.
///
/// # Errors
///
/// The fault of the target.
#[inline]
pub fn page_part<W: Target>(
    place: &mut PagePlace,
    event: &Event<'_>,
    w: &mut W,
) -> Result<(), SinkFault> {
    if !place.shows(event) {
        place.pass(event);
        return Ok(());
    }
    let mut writer = TextWriter::over(w);
    let written = writer.put_whole_page_part(place, event);
    let _ = writer.into_target();
    written
}

/// What comes next in an open value.
#[derive(Clone, Copy)]
pub enum Turn {
    /// Its first item.
    First,
    /// A map's value, after its key.
    Paired,
    /// One more item.
    Another,
}

/// A value whose items are written.
#[derive(Clone, Copy)]
pub struct WrittenValue {
    pub kind: Kind,
    pub turn: Turn,
}

impl WrittenValue {
    /// After one more item.
    #[must_use]
    #[inline(always)]
    pub fn after_item(self) -> WrittenValue {
        WrittenValue {
            kind: self.kind,
            turn: turn_after(self.kind, self.turn),
        }
    }
}

/// What the text of an event depends on of those before it.
pub struct PagePlace {
    is_page: bool,
    columns: u32,
    column: u32,
    /// The open values from `free` on, the innermost first.
    open_values: [WrittenValue; ROOM],
    free: usize,
}

impl PagePlace {
    /// Before any frame.
    #[must_use]
    pub fn new() -> Self {
        PagePlace {
            is_page: false,
            columns: 0,
            column: 0,
            open_values: [WrittenValue {
                kind: Kind::Raw,
                turn: Turn::First,
            }; ROOM],
            free: ROOM,
        }
    }

    /// Whether the frame is a page.
    #[must_use]
    #[inline]
    pub fn is_page(&self) -> bool {
        self.is_page
    }

    /// Whether anything may be written of an event.
    #[inline]
    fn shows(&self, event: &Event<'_>) -> bool {
        match *event {
            Event::Text { .. }
            | Event::Count { .. }
            | Event::Leaf { .. }
            | Event::Null { .. }
            | Event::Empty { .. }
            | Event::Enter { .. }
            | Event::Leave { .. }
            | Event::Part { .. } => self.is_page,
            _ => false,
        }
    }

    #[inline]
    fn columns(&self) -> u32 {
        self.columns
    }

    /// The column of the cell that is open.
    #[must_use]
    #[inline]
    pub fn column(&self) -> u32 {
        self.column
    }

    /// Whether a cell of this column is the last of its row.
    #[must_use]
    #[inline(always)]
    pub fn is_last(&self, column: u32) -> bool {
        u64::from(column) + 1 == u64::from(self.columns)
    }

    /// The innermost open value.
    #[must_use]
    #[inline(always)]
    pub fn innermost(&self) -> Option<WrittenValue> {
        value_at(&self.open_values, self.free)
    }

    /// The open value around the innermost one.
    #[must_use]
    #[inline(always)]
    pub fn outer(&self) -> Option<WrittenValue> {
        value_at(&self.open_values, self.free + 1)
    }

    /// What comes before a cell of this column, or before an item of the open value.
    #[inline(always)]
    fn gap(&self, column: u32) -> Gap {
        match self.innermost() {
            None if column == 0 => Gap::Nothing,
            None => Gap::Bar,
            Some(open) => gap_at(open.turn),
        }
    }

    /// Whether a row ends after a cell of this column, which no item of an open value is.
    #[inline(always)]
    fn ends_row(&self, column: u32) -> bool {
        if self.free < ROOM {
            return false;
        }
        self.is_last(column)
    }

    /// Whether a row ends after the innermost open value, which no item of another one is.
    #[inline]
    fn ends_row_after_innermost(&self) -> bool {
        if self.free + 1 < ROOM {
            return false;
        }
        self.is_last(self.column)
    }

    /// Goes to the place after an event.
    #[inline(always)]
    pub fn pass(&mut self, event: &Event<'_>) {
        match *event {
            Event::Int { field, value } => self.pass_int(field, value),
            Event::Count { field, count } => self.pass_count(field, count),
            Event::Leaf { column, .. } | Event::Null { column, .. } | Event::Empty { column, .. } =>
                self.pass_item(column),
            Event::Enter { column, kind, .. } => self.enter(column, kind),
            Event::Leave { .. } => self.leave(),
            Event::Part { column, last, .. } => self.pass_part(column, last),
            Event::End { .. } => self.start(false),
            _ => {}
        }
    }

    /// Goes to the begin of a result, which is a page or not.
    fn start(&mut self, is_page: bool) {
        self.is_page = is_page;
        self.columns = 0;
        self.column = 0;
        self.free = ROOM;
    }

    #[inline]
    fn pass_int(&mut self, field: Field, value: i32) {
        if let Field::ResultKind = field {
            if value == ROWS {
                self.start(true);
            }
        }
    }

    #[inline]
    fn pass_count(&mut self, field: Field, count: u32) {
        if let Field::Columns = field {
            self.columns = count;
        }
    }

    /// Goes to the place after a cell of this column, or after an item of the open value.
    #[inline(always)]
    fn pass_item(&mut self, column: u32) {
        self.column = column;
        self.count_item();
    }

    #[inline]
    fn pass_part(&mut self, column: u32, last: bool) {
        self.column = column;
        if last {
            self.count_item();
        }
    }

    /// Goes to the place after an item of the open value, if there is one.
    #[inline(always)]
    fn count_item(&mut self) {
        if self.free < ROOM {
            self.open_values[self.free] = self.open_values[self.free].after_item();
        }
    }

    /// Goes into a value of this kind, an item of the one that was open.
    #[inline]
    fn enter(&mut self, column: u32, kind: Kind) {
        self.pass_item(column);
        self.kit_push(kind);
    }

    #[inline]
    fn kit_push(&mut self, kind: Kind) {
        if self.free == 0 {
            return;
        }
        self.free -= 1;
        self.open_values[self.free] = WrittenValue {
            kind,
            turn: Turn::First,
        };
    }

    #[inline]
    fn leave(&mut self) {
        if self.free < ROOM {
            self.free += 1;
        }
    }
}

impl<W: Target> TextWriter<LinePen<'_, W>> {
    /// Takes what is written of an event of a page, goes to the place after it, also at a fault, and passes all on.
    fn put_whole_page_part(
        &mut self,
        place: &mut PagePlace,
        event: &Event<'_>,
    ) -> Result<(), SinkFault> {
        self.put_page_part(place, event)?;
        self.flush()
    }
}

impl<P: Pen> TextWriter<P> {
    /// Takes what is written of an event of a page, and goes to the place after it, also at a fault.
    #[inline(always)]
    pub fn put_page_part(
        &mut self,
        place: &mut PagePlace,
        event: &Event<'_>,
    ) -> Result<(), SinkFault> {
        if !place.is_page() {
            place.pass(event);
            return Ok(());
        }
        match *event {
            Event::Leaf {
                column,
                ref scalar,
                ..
            } => self.put_leaf(place, column, scalar),
            Event::Null { column, .. } => self.put_name_item(place, column, "null"),
            Event::Empty { column, .. } => self.put_name_item(place, column, "empty"),
            Event::Enter { column, kind, .. } => self.put_enter(place, column, kind),
            Event::Leave { .. } => self.put_leave(place),
            _ => self.put_other_part(place, event),
        }
    }

    /// Takes what is written of an event within a page, and goes to the place after it, also at a fault.
    #[inline(never)]
    fn put_other_part(&mut self, place: &mut PagePlace, event: &Event<'_>) -> Result<(), SinkFault> {
        let written = self.put_event_part(place, event);
        place.pass(event);
        written
    }

    #[inline(always)]
    fn put_event_part(&mut self, place: &PagePlace, event: &Event<'_>) -> Result<(), SinkFault> {
        match *event {
            Event::Text { field, text } => self.put_text_part(place, field, text),
            Event::Count { field, count } => self.put_count_part(place, field, count),
            Event::Leaf {
                column,
                ref scalar,
                ..
            } => self.put_value(place, column, scalar),
            Event::Null { column, .. } => self.put_named(place, column, "null"),
            Event::Empty { column, .. } => self.put_named(place, column, "empty"),
            Event::Enter { column, kind, .. } => self.put_opening(place, column, kind),
            Event::Leave { .. } => self.put_closing(place),
            Event::Part {
                column,
                offset,
                bytes,
                last,
                ..
            } => self.put_content_part(place, column, offset, bytes, last),
            _ => Ok(()),
        }
    }

    fn put_text_part(
        &mut self,
        place: &PagePlace,
        field: Field,
        text: &str,
    ) -> Result<(), SinkFault> {
        match field {
            Field::ColumnName => self.put_column_line(text),
            _ => Ok(()),
        }
    }

    fn put_column_line(&mut self, name: &str) -> Result<(), SinkFault> {
        self.put(b"column ")?;
        self.put_quoted(name)?;
        self.put(b"\n")
    }

    fn put_count_part(
        &mut self,
        place: &PagePlace,
        field: Field,
        count: u32,
    ) -> Result<(), SinkFault> {
        match field {
            Field::Rows => self.put_page_line(place.columns(), count),
            _ => Ok(()),
        }
    }

    fn put_page_line(&mut self, columns: u32, rows: u32) -> Result<(), SinkFault> {
        self.put(b"page ")?;
        self.put_number(u64::from(columns))?;
        self.put(b" columns ")?;
        self.put_number(u64::from(rows))?;
        self.put(b" rows\n")
    }

    /// Takes a cell or an item that has no items, with what comes before and after it, and goes to the place after it,
    /// also at a fault.
    #[inline(always)]
    fn put_leaf(
        &mut self,
        place: &mut PagePlace,
        column: u32,
        scalar: &Scalar<'_>,
    ) -> Result<(), SinkFault> {
        match *scalar {
            Scalar::Int(number) => self.put_number_item(place, column, i64::from(number)),
            Scalar::Smallint(number) => self.put_small_item(place, column, i64::from(number)),
            Scalar::Tinyint(number) => self.put_small_item(place, column, i64::from(number)),
            Scalar::Bigint(number) | Scalar::Counter(number) | Scalar::Timestamp(number) => {
                self.put_long_item(place, column, number)
            }
            Scalar::Varchar(text) | Scalar::Ascii(text) => self.put_text_item(place, column, text),
            Scalar::Boolean(value) => self.put_boolean_item(place, column, value),
            _ => self.put_any_item(place, column, scalar),
        }
    }

    /// The same of a number of a kind that is seldom seen.
    #[inline(never)]
    fn put_small_item(
        &mut self,
        place: &mut PagePlace,
        column: u32,
        number: i64,
    ) -> Result<(), SinkFault> {
        self.put_number_item(place, column, number)
    }

    /// The same of a number that most often has at most eight digits, in line where it is taken.
    #[inline(always)]
    fn put_number_item(
        &mut self,
        place: &mut PagePlace,
        column: u32,
        number: i64,
    ) -> Result<(), SinkFault> {
        let gap = place.gap(column);
        let ends_row = place.ends_row(column);
        place.pass_item(column);
        self.put_short_item(gap, number, ends_row)
    }

    /// The same of a number that most often has more than eight digits.
    #[inline(never)]
    fn put_long_item(
        &mut self,
        place: &mut PagePlace,
        column: u32,
        number: i64,
    ) -> Result<(), SinkFault> {
        let gap = place.gap(column);
        let ends_row = place.ends_row(column);
        place.pass_item(column);
        self.put_item(gap, number, ends_row)
    }

    /// The same of a text.
    #[inline(never)]
    fn put_text_item(
        &mut self,
        place: &mut PagePlace,
        column: u32,
        text: &str,
    ) -> Result<(), SinkFault> {
        let gap = place.gap(column);
        let ends_row = place.ends_row(column);
        place.pass_item(column);
        self.put_text(gap, text, ends_row)
    }

    /// The same of any scalar.
    #[inline(never)]
    fn put_any_item(
        &mut self,
        place: &mut PagePlace,
        column: u32,
        scalar: &Scalar<'_>,
    ) -> Result<(), SinkFault> {
        let written = self.put_value(place, column, scalar);
        place.pass_item(column);
        written
    }

    /// The same of a truth value.
    #[inline(never)]
    fn put_boolean_item(
        &mut self,
        place: &mut PagePlace,
        column: u32,
        value: bool,
    ) -> Result<(), SinkFault> {
        let written = self.put_truth(place, column, value);
        place.pass_item(column);
        written
    }

    /// The same of a name in place of a value.
    #[inline(never)]
    fn put_name_item(
        &mut self,
        place: &mut PagePlace,
        column: u32,
        name: &str,
    ) -> Result<(), SinkFault> {
        let written = self.put_named(place, column, name);
        place.pass_item(column);
        written
    }

    /// Takes the begin of a value with items, and goes into it, also at a fault.
    #[inline(always)]
    fn put_enter(&mut self, place: &mut PagePlace, column: u32, kind: Kind) -> Result<(), SinkFault> {
        let written = self.put_opening(place, column, kind);
        place.enter(column, kind);
        written
    }

    /// Takes the end of the innermost open value, and goes out of it, also at a fault.
    #[inline(always)]
    fn put_leave(&mut self, place: &mut PagePlace) -> Result<(), SinkFault> {
        let written = self.put_closing(place);
        place.leave();
        written
    }

    /// Takes a number as decimal digits, behind a gap, and where a row ends, its end.
    #[inline(always)]
    fn put_item(&mut self, gap: Gap, number: i64, ends_row: bool) -> Result<(), SinkFault> {
        if number >= 0 {
            if self.takes_item(gap, number.unsigned_abs(), ends_row) {
                return Ok(());
            }
        }
        self.put_item_in_parts(gap, number, ends_row)
    }

    /// The same, where a number of more than eight digits has no code in line.
    #[inline(always)]
    fn put_short_item(&mut self, gap: Gap, number: i64, ends_row: bool) -> Result<(), SinkFault> {
        if number < SHORT as i64 {
            self.put_item(gap, number, ends_row)
        } else {
            self.put_item_in_parts(gap, number, ends_row)
        }
    }

    /// The same, one part after the other.
    #[inline(never)]
    fn put_item_in_parts(&mut self, gap: Gap, number: i64, ends_row: bool) -> Result<(), SinkFault> {
        self.put_gap(gap)?;
        self.put_signed(number)?;
        self.put_row_end(ends_row)
    }

    /// Takes a gap.
    #[inline(always)]
    fn put_gap(&mut self, gap: Gap) -> Result<(), SinkFault> {
        match gap {
            Gap::Nothing => Ok(()),
            Gap::Bar => self.put(b" | "),
            Gap::Colon => self.put(b": "),
            Gap::Comma => self.put(b", "),
        }
    }

    /// Takes a text in quotes, behind a gap, and where a row ends, its end.
    #[inline(always)]
    fn put_text(&mut self, gap: Gap, text: &str, ends_row: bool) -> Result<(), SinkFault> {
        if self.takes_text(gap, text, ends_row) {
            return Ok(());
        }
        self.put_text_in_parts(gap, text, ends_row)
    }

    /// The same, one part after the other.
    #[inline(never)]
    fn put_text_in_parts(&mut self, gap: Gap, text: &str, ends_row: bool) -> Result<(), SinkFault> {
        self.put_gap(gap)?;
        self.put_quoted(text)?;
        self.put_row_end(ends_row)
    }

    /// Takes a cell or an item that has no items, with what comes before and after it.
    #[inline(always)]
    fn put_value(
        &mut self,
        place: &PagePlace,
        column: u32,
        scalar: &Scalar<'_>,
    ) -> Result<(), SinkFault> {
        self.put_before(place, column)?;
        self.put_any_cell(scalar)?;
        self.put_row_end(place.ends_row(column))
    }

    /// Takes a truth value, with what comes before and after it.
    #[inline(always)]
    fn put_truth(&mut self, place: &PagePlace, column: u32, value: bool) -> Result<(), SinkFault> {
        self.put_before(place, column)?;
        self.put_boolean(value)?;
        self.put_row_end(place.ends_row(column))
    }

    /// Takes a name in place of a value, with what comes before and after it.
    #[inline]
    fn put_named(&mut self, place: &PagePlace, column: u32, name: &str) -> Result<(), SinkFault> {
        self.put_before(place, column)?;
        self.put_str(name)?;
        self.put_row_end(place.ends_row(column))
    }

    /// Takes what comes before a cell of this column, or before an item of the open value.
    #[inline(always)]
    fn put_before(&mut self, place: &PagePlace, column: u32) -> Result<(), SinkFault> {
        match place.innermost() {
            None if column == 0 => Ok(()),
            None => self.put(b" | "),
            Some(open) => self.put_separator(open.turn),
        }
    }

    /// Takes what comes before an item of an open value.
    #[inline(always)]
    fn put_separator(&mut self, turn: Turn) -> Result<(), SinkFault> {
        match turn {
            Turn::First => Ok(()),
            Turn::Paired => self.put(b": "),
            Turn::Another => self.put(b", "),
        }
    }

    /// Takes the end of a row, where one ends.
    #[inline(always)]
    fn put_row_end(&mut self, ends: bool) -> Result<(), SinkFault> {
        if ends { self.put(b"\n") } else { Ok(()) }
    }

    #[inline(always)]
    fn put_opening(&mut self, place: &PagePlace, column: u32, kind: Kind) -> Result<(), SinkFault> {
        self.put_before(place, column)?;
        self.put(opening(kind).as_bytes())
    }

    #[inline(always)]
    fn put_closing(&mut self, place: &PagePlace) -> Result<(), SinkFault> {
        let Some(open) = place.innermost() else {
            return Ok(());
        };
        self.put(closing(open.kind).as_bytes())?;
        self.put_row_end(place.ends_row_after_innermost())
    }

    /// Takes a part of a long content, which begins with `0x`.
    fn put_content_part(
        &mut self,
        place: &PagePlace,
        column: u32,
        offset: u32,
        bytes: &[u8],
        last: bool,
    ) -> Result<(), SinkFault> {
        self.put_content_start(place, column, offset)?;
        self.put_hex(bytes)?;
        self.put_content_end(place, column, last)
    }

    fn put_content_start(
        &mut self,
        place: &PagePlace,
        column: u32,
        offset: u32,
    ) -> Result<(), SinkFault> {
        if offset > 0 {
            return Ok(());
        }
        self.put_before(place, column)?;
        self.put(b"0x")
    }

    fn put_content_end(
        &mut self,
        place: &PagePlace,
        column: u32,
        last: bool,
    ) -> Result<(), SinkFault> {
        if last {
            self.put_row_end(place.ends_row(column))
        } else {
            Ok(())
        }
    }
}

/// The open value that is this many after the first.
#[inline(always)]
fn value_at(values: &[WrittenValue], at: usize) -> Option<WrittenValue> {
    values.get(at).copied()
}

/// What comes before an item of an open value.
#[inline(always)]
fn gap_at(turn: Turn) -> Gap {
    match turn {
        Turn::First => Gap::Nothing,
        Turn::Paired => Gap::Colon,
        Turn::Another => Gap::Comma,
    }
}

/// What comes before the items of a value of this kind.
#[must_use]
#[inline]
pub fn opening(kind: Kind) -> &'static str {
    match kind {
        Kind::List => "[",
        Kind::Set | Kind::Map => "{",
        _ => "(",
    }
}

/// What comes after the items of a value of this kind.
#[must_use]
#[inline]
pub fn closing(kind: Kind) -> &'static str {
    match kind {
        Kind::List => "]",
        Kind::Set | Kind::Map => "}",
        _ => ")",
    }
}

/// What comes next after an item of a value of this kind.
#[inline(always)]
fn turn_after(kind: Kind, turn: Turn) -> Turn {
    match (kind, turn) {
        (Kind::Map, Turn::First | Turn::Another) => Turn::Paired,
        _ => Turn::Another,
    }
}
