// Written by dist/erase from crates/cqlp_text/src/events.rt.
//! Events as lines.

use crate::cqlp_text::line_pen::LinePen;
use crate::cqlp_text::names::{field_name, kind_name, opcode_name};
use crate::cqlp_text::pen::Pen;
use crate::cqlp_text::text_writer::TextWriter;
use crate::cqlp_text::word::Word;
use crate::cqlp_grammar::{Event, SinkFault};
use crate::cqlp_kind::{Kind, Scalar};
use crate::cqlp_note::{Address, BoundValue, Field, Header, Target};

/// Appends the line of an event at an offset. A fault is the writer's own.
///
/// # Errors
///
/// The fault of the target.
#[inline]
pub fn event_line<W: Target>(at: u64, event: &Event<'_>, w: &mut W) -> Result<(), SinkFault> {
    let mut writer = TextWriter::over(w);
    let written = writer.put_whole_event(at, event);
    let _ = writer.into_target();
    written
}

impl<W: Target> TextWriter<LinePen<'_, W>> {
    /// Takes the line of an event at an offset, and passes all on.
    #[inline]
    fn put_whole_event(&mut self, at: u64, event: &Event<'_>) -> Result<(), SinkFault> {
        self.put_event(at, event)?;
        self.flush()
    }
}

impl<P: Pen> TextWriter<P> {
    /// Takes the line of an event at an offset.
    #[inline]
    pub fn put_event(&mut self, at: u64, event: &Event<'_>) -> Result<(), SinkFault> {
        self.put_number(at)?;
        self.put_event_words(event)?;
        self.put(b"\n")
    }

    #[inline]
    fn put_event_words(&mut self, event: &Event<'_>) -> Result<(), SinkFault> {
        match *event {
            Event::Frame(header) => self.put_header_words(header),
            Event::Byte { field, value } => self.put_natural(" Byte ", field, u64::from(value)),
            Event::Short { field, value } => self.put_natural(" Short ", field, u64::from(value)),
            Event::Int { field, value } => self.put_integer(" Int ", field, i64::from(value)),
            Event::Long { field, value } => self.put_integer(" Long ", field, value),
            Event::Uuid { field, value } => self.put_field(" Uuid ", field, Word::Uuid(value)),
            Event::Count { field, count } => self.put_natural(" Count ", field, u64::from(count)),
            Event::Text { field, text } => self.put_field(" Text ", field, Word::Quoted(text)),
            Event::Bytes { field, bytes } => self.put_field(
                " Bytes ",
                field,
                bytes.map_or(Word::Name("null"), Word::Hex),
            ),
            Event::Bound { field, value } => self.put_field(" Bound ", field, bound_word(value)),
            Event::Inet {
                field,
                address,
                port,
            } => self.put_inet_words(field, address, port),
            Event::TypeNode(kind) => self.put_node_words(kind),
            Event::Leaf {
                row,
                column,
                level,
                scalar,
            } => self.put_leaf_words(row, column, level, &scalar),
            Event::Null { row, column, level } => self.put_place(" Null ", row, column, level),
            Event::Empty { row, column, level } => self.put_place(" Empty ", row, column, level),
            Event::Enter {
                row,
                column,
                level,
                kind,
                items,
            } => self.put_enter_words(row, column, level, kind, items),
            Event::Leave { level, items } => self.put_leave_words(level, items),
            Event::Part {
                row,
                column,
                level,
                offset,
                bytes,
                last,
            } => self.put_part_words(row, column, level, offset, bytes, last),
            Event::End { extra } => self.put_end_words(extra),
        }
    }

    /// Takes the words of a field that is a number without a sign.
    #[inline(always)]
    fn put_natural(&mut self, notation: &str, field: Field, value: u64) -> Result<(), SinkFault> {
        self.put_field(notation, field, Word::Number(value))
    }

    /// The same of a number with a sign.
    #[inline(always)]
    fn put_integer(&mut self, notation: &str, field: Field, value: i64) -> Result<(), SinkFault> {
        self.put_field(notation, field, Word::Signed(value))
    }

    /// Takes the words of a field: how it is written, between spaces, its name, and its value.
    #[inline(always)]
    fn put_field(&mut self, notation: &str, field: Field, value: Word<'_>) -> Result<(), SinkFault> {
        self.put_str(notation)?;
        self.put_field_name(field)?;
        self.put(b" ")?;
        self.put_word(value)
    }

    fn put_inet_words(&mut self, field: Field, address: Address, port: i32) -> Result<(), SinkFault> {
        self.put(b" Inet ")?;
        self.put_field_name(field)?;
        self.put(b" ")?;
        self.put_address(address)?;
        self.put(b" ")?;
        self.put_int(port)
    }

    #[inline(always)]
    fn put_node_words(&mut self, kind: Kind) -> Result<(), SinkFault> {
        self.put(b" TypeNode ")?;
        self.put_kind_name(kind)
    }

    /// Takes the words of a value's place: its name, between spaces, its row, its column and its level.
    #[inline(always)]
    fn put_place(&mut self, name: &str, row: u32, column: u32, level: u32) -> Result<(), SinkFault> {
        self.put_str(name)?;
        self.put_count(row)?;
        self.put(b" ")?;
        self.put_count(column)?;
        self.put(b" ")?;
        self.put_count(level)
    }

    #[inline(always)]
    fn put_leaf_words(
        &mut self,
        row: u32,
        column: u32,
        level: u32,
        scalar: &Scalar<'_>,
    ) -> Result<(), SinkFault> {
        self.put_place(" Leaf ", row, column, level)?;
        self.put(b" ")?;
        self.put_cell(scalar)
    }

    #[inline(always)]
    fn put_enter_words(
        &mut self,
        row: u32,
        column: u32,
        level: u32,
        kind: Kind,
        items: u32,
    ) -> Result<(), SinkFault> {
        self.put_place(" Enter ", row, column, level)?;
        self.put(b" ")?;
        self.put_kind_name(kind)?;
        self.put(b" ")?;
        self.put_count(items)
    }

    #[inline(always)]
    fn put_leave_words(&mut self, level: u32, items: u32) -> Result<(), SinkFault> {
        self.put(b" Leave ")?;
        self.put_count(level)?;
        self.put(b" ")?;
        self.put_count(items)
    }

    fn put_part_words(
        &mut self,
        row: u32,
        column: u32,
        level: u32,
        offset: u32,
        bytes: &[u8],
        last: bool,
    ) -> Result<(), SinkFault> {
        self.put_place(" Part ", row, column, level)?;
        self.put(b" ")?;
        self.put_count(offset)?;
        self.put(b" ")?;
        self.put_part_place(last)?;
        self.put(b" ")?;
        self.put_hex_text(bytes)
    }

    #[inline(always)]
    fn put_end_words(&mut self, extra: u32) -> Result<(), SinkFault> {
        self.put(b" End ")?;
        self.put_count(extra)
    }

    fn put_header_words(&mut self, header: Header) -> Result<(), SinkFault> {
        self.put_words(&[
            Word::Name("Frame"),
            Word::Name(direction(header.response)),
            Word::Digits(header.flags),
            Word::Signed(i64::from(header.stream)),
            Word::Name(opcode_name(header.opcode)),
            Word::Number(u64::from(header.length)),
        ])
    }

    fn put_field_name(&mut self, field: Field) -> Result<(), SinkFault> {
        self.put(field_name(field).as_bytes())
    }

    #[inline]
    fn put_kind_name(&mut self, kind: Kind) -> Result<(), SinkFault> {
        self.put(kind_name(kind).as_bytes())
    }

    #[inline]
    fn put_part_place(&mut self, last: bool) -> Result<(), SinkFault> {
        self.put(part_place(last).as_bytes())
    }
}

fn direction(response: bool) -> &'static str {
    if response { "response" } else { "request" }
}

fn part_place(last: bool) -> &'static str {
    if last { "last" } else { "more" }
}

fn bound_word(value: BoundValue<'_>) -> Word<'_> {
    match value {
        BoundValue::Null => Word::Name("null"),
        BoundValue::Unset => Word::Name("unset"),
        BoundValue::Bytes(bytes) => Word::Hex(bytes),
    }
}
