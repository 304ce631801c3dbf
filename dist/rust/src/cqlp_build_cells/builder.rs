// Written by dist/erase from crates/cqlp_build_cells/src/builder.rt.
//! Cells, built of their events.

use crate::cqlp_build_cells::error::CellError;
use crate::cqlp_build_cells::held::{CellEvents, Fault};
use crate::cqlp_build_cells::step::{own, scalar_size};
use crate::cqlp_grammar::Event;
use crate::cqlp_kind::Kind;
use crate::cqlp_type::{TypeTree, check_type};
use crate::cqlp_value::Value;

/// What a builder may hold of one cell.
#[derive(Clone, Copy, Debug, PartialEq, Eq)]
pub struct CellLimits {
    /// How many events.
    pub events: u32,
    /// How many bytes of texts, blobs and other scalars that have no length of their own.
    pub bytes: u32,
}

/// Builds the values of cells of their events, one cell after the other. Section 6 of `native_protocol_v4.spec`.
///
/// It takes what a decoder says of one cell, in that order, and owns what it holds: for each event as much as an event has, and the
/// bytes of its scalar. So no count that a peer sends decides how much memory it asks for, and the limits bound it. A page of any
/// size is altered cell by cell:
///
/// ```text
/// cells.take(&event)?;
/// if ends_cell(&event) {
///     let value = cells.finish(Some(&columns[column].tree))?;
///     writer.cell(&value)?;
/// }
/// ```
///
/// What it does not build are scalars in parts, which come where the limits of the decoder ask for parts.
pub struct CellBuilder {
    held: CellEvents,
    /// The row and the column of the cell under way.
    place: Option<(u32, u32)>,
    limits: CellLimits,
    /// How many bytes of contents may still come.
    room: usize,
}

impl CellBuilder {
    /// A builder between cells, which asks for no memory yet.
    #[must_use]
    pub fn new(limits: CellLimits) -> CellBuilder {
        CellBuilder {
            held: CellEvents::new(),
            place: None,
            limits,
            room: limits.bytes as usize,
        }
    }

    /// Takes the next event of the cell under way, or the first one of a cell.
    ///
    /// # Errors
    ///
    /// [`CellError::Misplaced`] at an event that is none of a cell, or of another row or column than the cell under way, and between
    /// cells at the end of a value. [`CellError::InParts`] at a part of a scalar. [`CellError::TooManyEvents`] where as many events as
    /// the limits allow are held; else [`CellError::TooManyBytes`] where the scalar has more bytes than are left of the limit.
    /// [`CellError::NoMemory`] where memory was refused. After each of these the builder is as it was.
    pub fn take(&mut self, event: &Event<'_>) -> Result<(), CellError> {
        if !self.is_of(event) {
            return Err(CellError::Misplaced);
        }
        if is_part(event) {
            return Err(CellError::InParts);
        }
        self.hold(event)
    }

    /// The value of this type whose events were taken, or of a cell without a type. It is between cells then.
    ///
    /// # Errors
    ///
    /// [`CellError::Unformed`] where [`check_type`] says that the type is not formed, whatever the events are. Else
    /// [`CellError::NoValue`] where the events are those of no value of the type, so where the cell has not ended, and
    /// [`CellError::NoMemory`] where memory was refused.
    pub fn finish(&mut self, of: Option<&TypeTree>) -> Result<Value, CellError> {
        let value = self.build(of);
        self.clear();
        value
    }

    /// Forgets what it holds of a cell, and is between cells. The room that it has asked for is kept.
    pub fn clear(&mut self) {
        self.held.items.clear();
        self.place = None;
        self.room = self.limits.bytes as usize;
    }

    /// Whether an event is of the cell under way, or the first of a cell.
    fn is_of(&self, event: &Event<'_>) -> bool {
        match (self.place, event) {
            (Some(_), Event::Leave { .. }) => true,
            (None, _) => place_of(event).is_some(),
            (Some(place), _) => match place_of(event) {
                Some(other) => other.0 == place.0 && other.1 == place.1,
                None => false,
            },
        }
    }

    /// An event comes that is of the cell.
    fn hold(&mut self, event: &Event<'_>) -> Result<(), CellError> {
        if self.place.is_none() {
            self.held.items.clear();
        }
        if self.held.items.len() >= self.limits.events as usize {
            return Err(CellError::TooManyEvents);
        }
        let size = content_size(event);
        if size > self.room {
            return Err(CellError::TooManyBytes);
        }
        let Ok(step) = own(event) else {
            return Err(CellError::NoMemory);
        };
        if self.held.items.push_back(step).is_err() {
            return Err(CellError::NoMemory);
        }
        if let Some(place) = place_of(event) {
            self.place = Some(place);
        }
        self.room -= size;
        Ok(())
    }

    /// The value of this type whose events were taken.
    fn build(&mut self, of: Option<&TypeTree>) -> Result<Value, CellError> {
        if self.place.is_none() {
            self.held.items.clear();
        }
        match of {
            None => self.held.whole(&TypeTree::Plain(Kind::Raw)),
            Some(tree) => {
                if check_type(tree).formed {
                    self.held.whole(tree)
                } else {
                    Err(CellError::Unformed)
                }
            }
        }
    }
}

impl CellEvents {
    /// The value of this type whose events are those that are held, or of a cell without a type where that is a plain `Raw`.
    ///
    /// # Errors
    ///
    /// [`CellError::NoValue`] where the events are those of no value of the type, and [`CellError::NoMemory`] where memory was refused.
    pub(crate) fn whole(&mut self, tree: &TypeTree) -> Result<Value, CellError> {
        self.fault = None;
        let value = self.value(0, tree);
        let over = self.is_over();
        self.check(over);
        match self.fault {
            None => Ok(value),
            Some(why) => Err(refusal(why)),
        }
    }
}

/// Why there is no value.
fn refusal(why: Fault) -> CellError {
    match why {
        Fault::NoValue => CellError::NoValue,
        Fault::NoMemory => CellError::NoMemory,
    }
}

/// Whether nothing of its cell comes after an event: a value at level 0, or the end of one; not the beginning of one with items.
#[must_use]
pub fn ends_cell(event: &Event<'_>) -> bool {
    match *event {
        Event::Leaf { level, .. }
        | Event::Null { level, .. }
        | Event::Empty { level, .. }
        | Event::Leave { level, .. } => level == 0,
        Event::Part { level, last, .. } => level == 0 && last,
        _ => false,
    }
}

/// The row and the column that an event names.
fn place_of(event: &Event<'_>) -> Option<(u32, u32)> {
    match *event {
        Event::Leaf { row, column, .. }
        | Event::Null { row, column, .. }
        | Event::Empty { row, column, .. }
        | Event::Enter { row, column, .. }
        | Event::Part { row, column, .. } => Some((row, column)),
        _ => None,
    }
}

/// Whether it is a part of a scalar.
fn is_part(event: &Event<'_>) -> bool {
    matches!(event, Event::Part { .. })
}

/// How many bytes of an event the limit counts.
fn content_size(event: &Event<'_>) -> usize {
    match event {
        Event::Leaf { scalar, .. } => scalar_size(scalar),
        _ => 0,
    }
}
