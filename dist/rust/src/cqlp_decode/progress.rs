// Written by dist/erase from crates/cqlp_decode/src/progress.rt.
//! Where the reading of a stream is, and one step of it.

use crate::cqlp_decode::advance::{EventAdvance, EventOutline, ScalarCell};
use crate::cqlp_decode::given::GivenUse;
use crate::cqlp_decode::metadata::begin_metadata;
use crate::cqlp_decode::page::{CellCursor, find_page, page_table, serves};
use crate::cqlp_decode::parts::Parts;
use crate::cqlp_cell::{CellAdvance, CellReader, front_scalar};
use crate::cqlp_grammar::{Expected, Finish, Role, Upcoming, Want, fault_in};
use crate::cqlp_note::{self as note, Asked, Field, Header, Notation, Partial, Prim, Reason, Refusal};
use crate::cqlp_type::{TypeAdvance, TypeReader, TypeTable};

/// What is read now.
#[derive(Clone, Copy)]
pub enum StreamStage {
    Header,
    Field(Want),
    /// A type option that is not begun.
    BeforeType,
    /// A type option that is under way.
    InType,
    /// A cell that is not begun.
    BeforeCell(CellCursor),
    /// A cell that is under way.
    InCell(CellCursor),
    /// What is after the last field.
    Extra,
}

/// Where the reading of a stream is, but for the field, type option or cell that is under way.
pub struct StreamProgress {
    pub limits: Asked,
    /// The start of the frame under way.
    pub frame: u64,
    /// The first byte of what is read now.
    pub offset: u64,
    /// The end of the frame under way.
    pub stop: u64,
    pub stage: StreamStage,
    pub upcoming: Upcoming,
    pub header: [u8; 9],
    /// How many bytes of the header, or after the last field, have come.
    pub came: u64,
    pub refusal: Option<Refusal>,
    /// What the table that the caller gave is for.
    pub given_use: GivenUse,
}

impl StreamProgress {
    /// At the start of a stream.
    pub fn new(limits: Asked) -> Self {
        StreamProgress {
            limits,
            frame: 0,
            offset: 0,
            stop: 0,
            stage: StreamStage::Header,
            upcoming: Upcoming::new(),
            header: [0; 9],
            came: 0,
            refusal: None,
            given_use: GivenUse::Waiting,
        }
    }

    /// Takes the next step, as far as the input goes.
    #[cfg_attr(not(feature = "cli"), inline)]
    pub(crate) fn advance(&mut self, parts: &mut Parts, input: &[u8]) -> EventAdvance {
        if let Some(refusal) = self.refusal {
            return EventAdvance::Refused(refusal);
        }
        let advance = self.step(parts, input);
        if let EventAdvance::Refused(refusal) = advance {
            self.refusal = Some(refusal);
            self.given_use = self.given_use.ended();
        }
        advance
    }

    /// How the stream ends, if it ends here.
    #[cfg_attr(not(feature = "cli"), inline)]
    pub(crate) fn finish(&self, parts: &Parts) -> Finish {
        if let Some(refusal) = self.refusal {
            return Finish::Refused(refusal);
        }
        if self.is_between() {
            return Finish::Whole { bytes: self.offset };
        }
        Finish::Cut {
            frame_at: self.frame,
            bytes: self.bytes_used(parts),
        }
    }

    /// How many bytes of the stream have come.
    #[cfg_attr(not(feature = "cli"), inline)]
    fn bytes_used(&self, parts: &Parts) -> u64 {
        match self.stage {
            StreamStage::Header | StreamStage::Extra => self.offset + self.came,
            StreamStage::BeforeType | StreamStage::BeforeCell(_) => self.offset,
            StreamStage::Field(_) => self.offset + count_field_bytes(&parts.partial),
            StreamStage::InType => parts.types.offset() + count_field_bytes(&parts.partial),
            StreamStage::InCell(_) => parts.cells.bytes_used(&parts.partial),
        }
    }

    /// Whether the last frame has ended, and nothing of the next has come.
    fn is_between(&self) -> bool {
        matches!(self.stage, StreamStage::Header) && self.came == 0
    }

    /// Whether a cell is due or under way.
    #[inline]
    pub fn is_in_page(&self) -> bool {
        matches!(
            self.stage,
            StreamStage::BeforeCell(_) | StreamStage::InCell(_)
        )
    }

    /// Whether a cell is due that is not begun.
    #[inline(always)]
    pub fn is_cell_due(&self) -> bool {
        matches!(self.stage, StreamStage::BeforeCell(_))
    }

    /// The cell that is due and not begun, if there is one.
    #[inline(always)]
    pub fn due_cell(&self) -> Option<CellCursor> {
        match self.stage {
            StreamStage::BeforeCell(page) => Some(page),
            _ => None,
        }
    }

    /// Whether the cell under way is of the row and the column of this one.
    #[inline(always)]
    pub fn is_in(&self, cell: Option<CellCursor>) -> bool {
        match (cell, self.stage) {
            (Some(cell), StreamStage::InCell(page)) => {
                cell.row == page.row && cell.column == page.column
            }
            _ => false,
        }
    }

    /// The next step, where there was no refusal.
    #[cfg_attr(not(feature = "cli"), inline)]
    fn step(&mut self, parts: &mut Parts, input: &[u8]) -> EventAdvance {
        match self.stage {
            StreamStage::Header => self.advance_header(input),
            StreamStage::Field(want) => self.advance_field(parts, want, input),
            StreamStage::BeforeType => {
                self.begin_option(&mut parts.types);
                self.advance_option(parts, input)
            }
            StreamStage::InType => self.advance_option(parts, input),
            StreamStage::BeforeCell(page) => {
                self.begin_cell(page, &mut parts.cells);
                self.advance_cell(parts, page, input)
            }
            StreamStage::InCell(page) => self.advance_cell(parts, page, input),
            StreamStage::Extra => self.advance_extra(input),
        }
    }

    fn advance_header(&mut self, input: &[u8]) -> EventAdvance {
        if self.offset > 1 << 63 {
            return EventAdvance::Refused(Refusal {
                at: self.offset,
                why: Reason::StreamTooLong,
            });
        }
        let missing = 9 - self.came as usize;
        if input.len() < missing {
            self.keep_header(input);
            return EventAdvance::More { used: input.len() };
        }
        match Header::read(&self.complete_header(input), self.offset) {
            Err(refusal) => EventAdvance::Refused(refusal),
            Ok(header) => {
                let at = self.offset;
                self.enter(&header);
                EventAdvance::Event {
                    at,
                    used: missing,
                    what: EventOutline::Frame(header),
                }
            }
        }
    }

    /// Keeps bytes of a header of which more is to come.
    fn keep_header(&mut self, input: &[u8]) {
        let came = self.came as usize;
        self.header[came..came + input.len()].copy_from_slice(input);
        self.came += input.len() as u64;
    }

    /// The nine bytes of a header, of which the input has the last.
    fn complete_header(&self, input: &[u8]) -> [u8; 9] {
        let came = self.came as usize;
        let mut header = self.header;
        header[came..].copy_from_slice(&input[..9 - came]);
        header
    }

    /// Goes on after a header.
    pub(crate) fn enter(&mut self, header: &Header) {
        self.offset += 9;
        self.stop = self.offset + u64::from(header.length);
        self.came = 0;
        self.upcoming.begin(header);
        self.expect_next();
    }

    /// Goes on to what is due next in the message.
    #[inline(always)]
    pub fn expect_next(&mut self) {
        match self.upcoming.due() {
            Some(Expected::Field(want)) => self.stage = StreamStage::Field(*want),
            Some(Expected::Option) => self.stage = StreamStage::BeforeType,
            None => self.stage = StreamStage::Extra,
        }
        self.upcoming.pass();
    }

    #[cfg_attr(not(feature = "cli"), inline)]
    fn advance_field(
        &mut self,
        parts: &mut Parts,
        want: Want,
        input: &[u8],
    ) -> EventAdvance {
        self.ask(&mut parts.partial, want);
        let came = parts.partial.came();
        match parts.partial.advance(input) {
            note::FieldAdvance::More { used } => EventAdvance::More { used },
            note::FieldAdvance::Refused(refusal) => EventAdvance::Refused(refusal),
            note::FieldAdvance::Got { used, item } => {
                let value = parts.partial.lend(input, item);
                if let Some(why) = fault_in(want.role, value) {
                    return EventAdvance::Refused(Refusal {
                        at: self.offset,
                        why,
                    });
                }
                let at = self.offset;
                self.offset += came + used as u64;
                begin_metadata(want.role, &mut parts.table);
                self.follow(want.role, value, &parts.table, &parts.given);
                EventAdvance::Event {
                    at,
                    used,
                    what: EventOutline::Holds(want.field, item),
                }
            }
        }
    }

    /// Sees that the field has begun.
    #[cfg_attr(not(feature = "cli"), inline)]
    pub(crate) fn ask(&self, partial: &mut Partial, want: Want) {
        if !partial.is_under_way() {
            let limit = limit_on(&self.limits, want.notation);
            partial.begin(want.notation, limit, self.offset, self.stop);
        }
    }

    /// Goes on after a field: with the cells of a page, which a given table may type, or with what is due next in the
    /// message.
    #[inline(always)]
    pub(crate) fn follow(
        &mut self,
        role: Role,
        value: Prim<'_>,
        table: &TypeTable,
        given: &Option<TypeTable>,
    )
    {
        let served = serves(role, given, self.given_use);
        self.given_use = self.given_use.with_page(served);
        if let Some(page) = find_page(&self.limits, role, value, table, given, served) {
            self.stage = StreamStage::BeforeCell(page);
            return;
        }
        self.upcoming.follow(role, value);
        self.expect_next();
    }

    /// Takes the cell that is due, where it is a scalar and all its bytes lie in the input.
    #[inline]
    pub(crate) fn take_scalar<'a>(
        &mut self,
        parts: &Parts,
        input: &'a [u8],
    ) -> Option<ScalarCell<'a>> {
        let StreamStage::BeforeCell(page) = self.stage else {
            return None;
        };
        if parts.partial.held() > 0 {
            return None;
        }
        if let Some(_) = self.refusal {
            return None;
        }
        let table = page_table(page.columns, &parts.table, &parts.given);
        let kind = page.kind(table);
        let room = self.stop - self.offset;
        let Some(front) = front_scalar(&self.limits, kind, room, input) else {
            return None;
        };
        let taken = ScalarCell {
            at: self.offset,
            used: front.used,
            row: page.row,
            column: page.column,
            scalar: front.scalar,
        };
        self.offset += front.used as u64;
        self.after_cell(page, table);
        Some(taken)
    }

    /// Goes on after a cell: with the next cell of its page, or with what is due next in the message.
    #[inline(always)]
    pub(crate) fn after_cell(&mut self, page: CellCursor, table: &TypeTable) {
        match page.next(table) {
            Some(page) => self.stage = StreamStage::BeforeCell(page),
            None => self.expect_next(),
        }
    }

    /// Begins the cell of a page that is due.
    #[inline(always)]
    pub(crate) fn begin_cell(&mut self, page: CellCursor, cells: &mut CellReader) {
        cells.begin(page.node(), self.offset, self.stop);
        self.stage = StreamStage::InCell(page);
    }

    /// Begins the type option that is due.
    #[cfg_attr(not(feature = "cli"), inline)]
    fn begin_option(&mut self, types: &mut TypeReader) {
        types.begin(self.offset, self.stop);
        self.stage = StreamStage::InType;
    }

    #[cfg_attr(not(feature = "cli"), inline)]
    fn advance_option(&mut self, parts: &mut Parts, input: &[u8]) -> EventAdvance {
        match parts
            .types
            .advance(&mut parts.partial, &mut parts.table, input)
        {
            TypeAdvance::More { used } => EventAdvance::More { used },
            TypeAdvance::Refused(refusal) => {
                self.stage = StreamStage::Extra;
                self.refusal = Some(refusal);
                EventAdvance::Refused(refusal)
            }
            TypeAdvance::Done => unreachable!(),
            TypeAdvance::Item { at, used, item } => {
                let event = EventAdvance::Event {
                    at,
                    used,
                    what: EventOutline::Option(item),
                };
                let offset = parts.types.offset();
                if !parts.types.done() {
                    return event;
                }
                parts.types.stop();
                self.end_option(offset);
                event
            }
        }
    }

    /// Goes on after a type option that ends at an offset.
    fn end_option(&mut self, offset: u64) {
        self.offset = offset;
        self.expect_next();
    }

    #[cfg_attr(not(feature = "cli"), inline)]
    fn advance_cell(
        &mut self,
        parts: &mut Parts,
        page: CellCursor,
        input: &[u8],
    ) -> EventAdvance {
        let table = page_table(page.columns, &parts.table, &parts.given);
        match parts.cells.advance(&mut parts.partial, table, input) {
            CellAdvance::More { used } => EventAdvance::More { used },
            CellAdvance::Refused(refusal) => {
                self.stage = StreamStage::Extra;
                EventAdvance::Refused(refusal)
            }
            CellAdvance::Done => unreachable!(),
            CellAdvance::Item { at, used, item } => {
                let event = EventAdvance::Event {
                    at,
                    used,
                    what: EventOutline::Cell(page.row, page.column, item),
                };
                if !parts.cells.done() {
                    return event;
                }
                self.end_cell(page, &mut parts.cells, table);
                event
            }
        }
    }

    /// Goes on after a cell that is whole.
    #[inline(always)]
    pub(crate) fn end_cell(
        &mut self,
        page: CellCursor,
        cells: &mut CellReader,
        table: &TypeTable,
    )
    {
        self.offset = cells.offset();
        cells.stop();
        self.after_cell(page, table);
    }

    fn advance_extra(&mut self, input: &[u8]) -> EventAdvance {
        let extra = self.stop - self.offset;
        let used = (extra - self.came).min(input.len() as u64);
        if self.came + used < extra {
            self.came += used;
            return EventAdvance::More {
                used: used as usize,
            };
        }
        let at = self.stop;
        self.end_frame();
        EventAdvance::Event {
            at,
            used: used as usize,
            what: EventOutline::End(extra as u32),
        }
    }

    /// Ends the frame under way. A header is read next.
    #[inline(always)]
    pub(crate) fn end_frame(&mut self) {
        self.frame = self.stop;
        self.offset = self.stop;
        self.came = 0;
        self.stage = StreamStage::Header;
        self.given_use = self.given_use.ended();
    }
}

/// How many bytes of the field under way have come.
#[cfg_attr(not(feature = "cli"), inline)]
fn count_field_bytes(partial: &Partial) -> u64 {
    if partial.is_under_way() {
        partial.came()
    } else {
        0
    }
}

/// The most bytes of a content in this notation.
#[inline(always)]
pub fn limit_on(limits: &Asked, notation: Notation) -> u32 {
    match notation {
        Notation::Text16 | Notation::Text32 => limits.text,
        Notation::Bytes16 | Notation::Bytes32 | Notation::Bound | Notation::Content(_) => {
            limits.cell
        }
        Notation::Byte
        | Notation::Short
        | Notation::Int
        | Notation::Long
        | Notation::Uuid
        | Notation::Count16
        | Notation::Count32
        | Notation::Inet => 0,
    }
}
