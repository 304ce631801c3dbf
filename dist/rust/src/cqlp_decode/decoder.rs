// Written by dist/erase from crates/cqlp_decode/src/decoder.rt.
//! The decoder of a stream of frames.

use crate::cqlp_decode::advance::{EventAdvance, EventOutline, ScalarCell};
use crate::cqlp_decode::field_loop::take_fields;
use crate::cqlp_decode::given::{GiveError, GiveReason, GivenUse};
use crate::cqlp_decode::item_loop::take_items;
use crate::cqlp_decode::list_loop::take_lists;
use crate::cqlp_decode::page_loop::take_cells;
use crate::cqlp_decode::parts::Parts;
use crate::cqlp_decode::progress::{StreamProgress, StreamStage};
use crate::cqlp_decode::step::{Capacity, FaultAfter, Held, Step};
use crate::cqlp_cell::{CellItem, CellReader};
use crate::cqlp_grammar::{Event, Finish, Sink};
use crate::cqlp_note::{Asked, BadLimits, Field, IoFault, Limits, NoMemory, Partial, Prim, Source};
use crate::cqlp_type::{TypeItem, TypeReader, TypeTable};

error! {
/// Why a decoder could not be made.
#[derive(Clone, Copy, Debug, PartialEq, Eq)]
pub enum NewError {
    /// A limit is out of its range.
    #[error(transparent)]
    BadLimits(BadLimits),
    /// One of the four requests for memory was refused; what the others gave is free again.
    #[error("no memory")]
    NoMemory,
}
}

/// Reads a stream of frames, one event per call, from pieces of any size. All its memory is taken when it is made, and is
/// as large as its limits say for as long as it lives.
pub struct Decoder {
    progress: StreamProgress,
    parts: Parts,
}

impl Decoder {
    /// A decoder at the start of a stream, with room for one content of the greatest length that the limits allow, for
    /// the types of one metadata, for their nesting, and for that of a cell's values: four requests for memory, and the
    /// only ones.
    ///
    /// # Errors
    ///
    /// Limits out of their ranges, and memory that is refused.
    #[cfg_attr(not(feature = "cli"), inline)]
    pub fn new(limits: Limits) -> Result<Self, NewError> {
        Self::asked(limits, false)
    }

    /// The same, for a lenient reading, which takes what nodes and drivers send against the standard, and goes on:
    ///
    /// - A content that its type does not have, by its length or by its bytes, is emitted as [`Event::Leaf`] with
    ///   [`Scalar::Raw`](crate::cqlp_kind::Scalar::Raw), all its bytes.
    /// - The bytes that a tuple or a user-defined value has after its last field are emitted as [`Event::Part`] before its
    ///   `Leave`, at the level of its fields, in parts of at most `cell` bytes whose offsets begin at 0.
    /// - A type option of an id that no kind has is emitted as [`Kind::Raw`](crate::cqlp_kind::Kind::Raw), and has no parameters.
    ///
    /// All else is read as by a decoder that `new` makes.
    ///
    /// # Errors
    ///
    /// As [`Decoder::new`].
    #[cfg_attr(not(feature = "cli"), inline)]
    pub fn lenient(limits: Limits) -> Result<Self, NewError> {
        Self::asked(limits, true)
    }

    #[cfg_attr(not(feature = "cli"), inline)]
    fn asked(limits: Limits, lenient: bool) -> Result<Self, NewError> {
        if let Err(bad) = limits.check() {
            return Err(NewError::BadLimits(bad));
        }
        match Self::with_room(Asked::new(&limits, lenient)) {
            Ok(decoder) => Ok(decoder),
            Err(NoMemory) => Err(NewError::NoMemory),
        }
    }

    #[cfg_attr(not(feature = "cli"), inline)]
    fn with_room(limits: Asked) -> Result<Self, NoMemory> {
        let partial = Partial::new(limits.text.max(limits.cell))?;
        let table = TypeTable::new(limits.entries)?;
        let types = TypeReader::asked(&limits)?;
        let cells = CellReader::asked(&limits)?;
        let progress = StreamProgress::new(limits);
        let parts = Parts {
            partial,
            types,
            cells,
            table,
            given: None,
        };
        Ok(Decoder { progress, parts })
    }
}

impl Decoder {
    /// The next event that the input leads to. The caller hands in the bytes after those that were used, and goes on
    /// until more are wanted. A refusal is final: each later call says it again.
    ///
    /// **Call until [`Step::More`], not while bytes are left: the end of a frame, and of an open value, takes one more call
    /// with no bytes.** A loop `while used < n` misses that event, or never ends. This one is right:
    ///
    /// ```text
    /// let mut used = 0;
    /// loop {
    ///     match decoder.next(&input[used..]) {
    ///         Step::Event { at, used: taken, event } => {
    ///             used += taken; // may be 0
    ///             // the event is here
    ///         }
    ///         Step::More { .. } => break, // all bytes are used: read more
    ///         Step::Refused(refusal) => return Err(refusal),
    ///     }
    /// }
    /// ```
    #[cfg_attr(not(feature = "cli"), inline)]
    #[must_use]
    pub fn next<'a>(&'a mut self, input: &'a [u8]) -> Step<'a> {
        if let Some(taken) = self.take_scalar(input) {
            return Step::Event {
                at: taken.at,
                used: taken.used,
                event: Event::Leaf {
                    row: taken.row,
                    column: taken.column,
                    level: 0,
                    scalar: taken.scalar,
                },
            };
        }
        match self.advance(input) {
            EventAdvance::More { used } => Step::More { used },
            EventAdvance::Refused(refusal) => Step::Refused(refusal),
            EventAdvance::Event { at, used, what } => Step::Event {
                at,
                used,
                event: self.lend(input, what),
            },
        }
    }

    /// Gives types for a page whose result has the flag No_metadata (0x04, section 4.2.5.2 of
    /// `native_protocol_v4.spec`): they wait for the first page that has it and as many columns as they are, type its
    /// cells, and type no other page unless they are given again. Given once a frame's header came, and taken back at its
    /// end, they type that frame's page or none. The table that was held before comes back. A table that is not taken
    /// comes back with the first reason against it, and nothing changes.
    ///
    /// # Errors
    ///
    /// The first reason against the table, which comes back with it: nothing changes.
    #[cfg_attr(not(feature = "cli"), inline)]
    pub fn give(&mut self, table: TypeTable) -> Result<Option<TypeTable>, GiveError> {
        if let Some(why) = self.reason(&table) {
            return Err(GiveError { why, table });
        }
        self.progress.given_use = GivenUse::Waiting;
        Ok(self.parts.given.replace(table))
    }

    /// Takes back the table that was given, if one is held and not in use. After a refusal none is in use.
    #[cfg_attr(not(feature = "cli"), inline)]
    pub fn take_given(&mut self) -> Option<TypeTable> {
        if self.is_in_use() {
            return None;
        }
        self.parts.given.take()
    }

    /// Begins another stream with the memory and the limits that it has, whatever became of the one before: it is what
    /// `new` makes of these limits. The table that is held comes back.
    #[cfg_attr(not(feature = "cli"), inline)]
    pub fn restart(&mut self) -> Option<TypeTable> {
        self.progress = StreamProgress::new(self.progress.limits);
        self.parts.partial.stop();
        self.parts.types.stop();
        self.parts.cells.stop();
        self.parts.table.clear();
        self.parts.given.take()
    }

    /// How the stream ends, if it ends after the bytes that were used.
    #[cfg_attr(not(feature = "cli"), inline)]
    #[must_use]
    pub fn finish(&self) -> Finish {
        self.progress.finish(&self.parts)
    }

    /// What is held of the stream: at most as many bytes as the greater of the limits on a text and on a cell, twice as
    /// many type options as their limit, since two tables are held, and as many levels as the limit on nesting.
    #[cfg_attr(not(feature = "cli"), inline)]
    #[must_use]
    pub fn held(&self) -> Held {
        Held {
            bytes: self.parts.partial.held(),
            entries: self.parts.table.len() + self.given_len(),
            levels: self.parts.types.held() + self.parts.cells.levels(),
        }
    }

    /// The places that the decoder has memory for. The limits alone say how many, at every moment: no length, count or
    /// type of the stream does.
    #[cfg_attr(not(feature = "cli"), inline)]
    #[must_use]
    pub fn capacity(&self) -> Capacity {
        Capacity {
            bytes: self.parts.partial.capacity(),
            entries: self.parts.table.capacity(),
            open_types: self.parts.types.capacity(),
            open_values: self.parts.cells.capacity(),
        }
    }

    /// Where the content that is held, whose bytes `held` counts, lies from the index `start` on: it stays there until the
    /// next call that reads on.
    #[cfg_attr(not(feature = "cli"), inline)]
    #[must_use]
    pub fn held_address(&self, start: usize) -> *const u8 {
        self.parts.partial.address(start)
    }

    /// Whether a content of a field or of a cell is gathered, of which more bytes are missing than one read of a run gives.
    #[cfg_attr(not(feature = "cli"), inline)]
    pub(crate) fn gathers(&self) -> bool {
        self.progress.refusal.is_none()
            && matches!(
                self.progress.stage,
                StreamStage::Field(_) | StreamStage::InCell(_)
            )
            && self.parts.partial.gathers_more(4096)
    }

    /// Reads the next bytes of the content that is gathered straight into the memory that holds it, by one call of the
    /// reader for up to 4,096 bytes. It does what `next` does of these bytes, which is to want more.
    pub(crate) fn read_content<R: Source>(&mut self, reader: &mut R) -> Result<usize, IoFault> {
        self.parts.partial.read_from(reader, 4096)
    }

    /// The types of the metadata begun last: those handed out since the field MetaFlags was. The table has room for as many as the limit
    /// `entries` allows.
    #[cfg_attr(not(feature = "cli"), inline)]
    #[must_use]
    pub fn table(&self) -> &TypeTable {
        &self.parts.table
    }

    /// How many type options the table has that the caller gave.
    #[cfg_attr(not(feature = "cli"), inline)]
    fn given_len(&self) -> u32 {
        match &self.parts.given {
            Some(table) => table.len(),
            None => 0,
        }
    }

    /// Why a table is not taken now, if so.
    #[cfg_attr(not(feature = "cli"), inline)]
    fn reason(&self, table: &TypeTable) -> Option<GiveReason> {
        if self.progress.refusal.is_some() {
            Some(GiveReason::Ended)
        } else if !self.progress.limits.types {
            Some(GiveReason::Off)
        } else if self.is_in_use() {
            Some(GiveReason::Busy)
        } else if !table.whole() {
            Some(GiveReason::Open)
        } else if table.len() > self.progress.limits.entries {
            Some(GiveReason::TooMany)
        } else if table.depth() > self.progress.limits.depth {
            Some(GiveReason::TooDeep)
        } else {
            None
        }
    }

    /// Whether a given table types the frame under way.
    #[cfg_attr(not(feature = "cli"), inline)]
    fn is_in_use(&self) -> bool {
        self.parts.given.is_some() && matches!(self.progress.given_use, GivenUse::InUse)
    }

    /// Takes the cell that is due, where it is a scalar and all its bytes lie in the input.
    #[inline]
    fn take_scalar<'a>(&mut self, input: &'a [u8]) -> Option<ScalarCell<'a>> {
        self.progress.take_scalar(&self.parts, input)
    }

    /// Hands events of the input to the sink that lie whole in it, as far as the loops over fields, over the cells of a page
    /// and over their items take them, and answers how many bytes of the input they take. It may stop before any of them:
    /// the next call is `next`, which decides what is left. At a sink's fault the event at which it failed was taken too.
    /// After a refusal nothing is handed out.
    ///
    /// # Errors
    ///
    /// The fault of the sink, with how many bytes the events before it and its own take.
    #[inline]
    pub fn hand_whole<S: Sink>(&mut self, input: &[u8], sink: &mut S) -> Result<usize, FaultAfter> {
        let used = match self.take_fields(input, sink) {
            Ok(used) => used,
            Err(fault) => return Err(fault),
        };
        let more = match self.take_cells(&input[used..], sink) {
            Ok(more) => more,
            Err(fault) => {
                let used = used + fault.used;
                return Err(FaultAfter { used });
            }
        };
        Ok(used + more)
    }

    /// Hands headers, fields and ends of frames to the sink, as far as the loop over them takes them, and answers how
    /// many bytes of the input they take.
    #[inline]
    fn take_fields<S: Sink>(&mut self, input: &[u8], sink: &mut S) -> Result<usize, FaultAfter> {
        if self.progress.is_in_page() {
            return Ok(0);
        }
        take_fields(&mut self.progress, &mut self.parts, input, sink)
    }

    /// Hands cells to the sink, as far as the loops over a page and over the items of its cells take them, and answers how
    /// many bytes of the input they take.
    #[inline]
    fn take_cells<S: Sink>(&mut self, input: &[u8], sink: &mut S) -> Result<usize, FaultAfter> {
        if !self.progress.is_in_page() {
            return Ok(0);
        }
        let mut used = match self.take_scalars(input, sink) {
            Ok(used) => used,
            Err(fault) => return Err(fault),
        };
        loop {
            let more = match self.take_turn(&input[used..], sink) {
                Ok(more) => more,
                Err(fault) => {
                    let used = used + fault.used;
                    return Err(FaultAfter { used });
                }
            };
            used += more;
            if more == 0 || !self.progress.is_cell_due() {
                return Ok(used);
            }
        }
    }

    /// Hands cells to the sink that are scalars, null or empty.
    #[inline]
    fn take_scalars<S: Sink>(&mut self, input: &[u8], sink: &mut S) -> Result<usize, FaultAfter> {
        take_cells(&mut self.progress, &self.parts, input, sink)
    }

    /// Hands cells to the sink that have items, and the items of the cell under way.
    #[inline]
    fn take_nested<S: Sink>(&mut self, input: &[u8], sink: &mut S) -> Result<usize, FaultAfter> {
        let due = self.progress.due_cell();
        let used = match take_lists(&mut self.progress, &mut self.parts, input, sink) {
            Ok(used) => used,
            Err(fault) => return Err(fault),
        };
        // Where the first cell was left unfinished, those after it are likely to be like it: then one loop goes over all.
        let counted = self.progress.is_in(due);
        let rest = &input[used..];
        let more = match take_items(&mut self.progress, &mut self.parts, counted, rest, sink) {
            Ok(more) => more,
            Err(fault) => {
                let used = used + fault.used;
                return Err(FaultAfter { used });
            }
        };
        Ok(used + more)
    }

    /// The same, and then cells that are scalars.
    #[inline]
    fn take_turn<S: Sink>(&mut self, input: &[u8], sink: &mut S) -> Result<usize, FaultAfter> {
        let used = match self.take_nested(input, sink) {
            Ok(used) => used,
            Err(fault) => return Err(fault),
        };
        if used == 0 || !self.progress.is_cell_due() {
            return Ok(used);
        }
        let more = match self.take_scalars(&input[used..], sink) {
            Ok(more) => more,
            Err(fault) => {
                let used = used + fault.used;
                return Err(FaultAfter { used });
            }
        };
        Ok(used + more)
    }

    /// The work of a call, with nothing borrowed in its result.
    #[cfg_attr(not(feature = "cli"), inline)]
    fn advance(&mut self, input: &[u8]) -> EventAdvance {
        self.progress.advance(&mut self.parts, input)
    }

    /// The event that `advance` made of this input.
    #[cfg_attr(not(feature = "cli"), inline)]
    fn lend<'a>(&'a self, input: &'a [u8], what: EventOutline) -> Event<'a> {
        match what {
            EventOutline::Frame(header) => Event::Frame(header),
            EventOutline::Holds(field, item) => event_with(
                field,
                self.parts.partial.lend(input, item),
            ),
            EventOutline::Option(part) => match part.lend(&self.parts.partial, input) {
                TypeItem::Node(kind) => Event::TypeNode(kind),
                TypeItem::Text(field, text) => Event::Text { field, text },
                TypeItem::Count(count) => Event::Count {
                    field: Field::Fields,
                    count,
                },
            },
            EventOutline::Cell(row, column, part) => event_in(
                row,
                column,
                part.lend(&self.parts.partial, input),
            ),
            EventOutline::End(extra) => Event::End { extra },
        }
    }
}

/// The event that a cell of this row and this column holds this.
fn event_in(row: u32, column: u32, part: CellItem<'_>) -> Event<'_> {
    match part {
        CellItem::Leaf { level, scalar } => Event::Leaf {
            row,
            column,
            level,
            scalar,
        },
        CellItem::Null { level } => Event::Null { row, column, level },
        CellItem::Empty { level } => Event::Empty { row, column, level },
        CellItem::Enter { level, kind, items } => Event::Enter {
            row,
            column,
            level,
            kind,
            items,
        },
        CellItem::Leave { level, items } => Event::Leave { level, items },
        CellItem::Part {
            level,
            offset,
            bytes,
            last,
        } => Event::Part {
            row,
            column,
            level,
            offset,
            bytes,
            last,
        },
    }
}

/// The event that a field holds a value.
#[inline(always)]
pub(crate) fn event_with(field: Field, value: Prim<'_>) -> Event<'_> {
    match value {
        Prim::Byte(value) => Event::Byte { field, value },
        Prim::Short(value) => Event::Short { field, value },
        Prim::Int(value) => Event::Int { field, value },
        Prim::Long(value) => Event::Long { field, value },
        Prim::Uuid(value) => Event::Uuid { field, value },
        Prim::Count(count) => Event::Count { field, count },
        Prim::Text(text) => Event::Text { field, text },
        Prim::Bytes(bytes) => Event::Bytes { field, bytes },
        Prim::Bound(value) => Event::Bound { field, value },
        Prim::Inet(address, port) => Event::Inet {
            field,
            address,
            port,
        },
    }
}
