// Written by dist/erase from crates/cqlp_note/src/partial.rt.
//! A field out of pieces of any size.

use crate::cqlp_note::advance::{ContentPlace, FieldAdvance, FieldOutline, FieldStage, Push};
use crate::cqlp_note::field::Notation;
use crate::cqlp_note::front::FieldFront;
use crate::cqlp_note::gathered::GatheredContent;
use crate::cqlp_note::head::{
    ContentForm, Head, Stop, Wanted, read_array as first, read_head, read_natural, read_short,
};
use crate::cqlp_note::prim::{BoundValue, Primitive};
use crate::cqlp_note::refusal::{NoMemory, Reason, Refusal};
use crate::cqlp_note::streams::{IoFault, Source};
use crate::cqlp_note::utf8::is_text;

/// Reads fields, one at a time. A content that lies whole in one piece is lent from there; one that does not is
/// gathered in a buffer, which is reserved once.
pub struct Partial {
    stage: FieldStage,
    wanted: Wanted,
    front: FieldFront,
    content: GatheredContent,
}

impl Partial {
    /// With room for contents of up to `room` bytes, and no field under way. This is the one call that takes memory;
    /// the error is that it was refused.
    #[cfg_attr(not(feature = "cli"), inline)]
    pub fn new(room: u32) -> Result<Self, NoMemory> {
        Ok(Partial {
            stage: FieldStage::Idle,
            wanted: Wanted {
                notation: Notation::Byte,
                limit: 0,
                at: 0,
                room: 0,
            },
            front: FieldFront::new(),
            content: GatheredContent::new(room)?,
        })
    }

    /// Begins a field whose first byte is at the offset `at` of the stream, in a container that ends at `end`. Its
    /// content may have up to `limit` bytes.
    #[cfg_attr(not(feature = "cli"), inline)]
    pub(crate) fn begin(&mut self, notation: Notation, limit: u32, at: u64, end: u64) {
        self.wanted = Wanted {
            notation,
            limit,
            at,
            room: end - at,
        };
        self.front = FieldFront::new();
        self.content.clear();
        self.stage = FieldStage::Front;
    }

    /// Ends the field under way, whole or not, if there is one, and forgets its content. The memory stays.
    #[cfg_attr(not(feature = "cli"), inline)]
    pub fn stop(&mut self) {
        self.stage = FieldStage::Idle;
        self.content.clear();
    }

    /// Takes the next bytes of the field that is under way. A content that lies whole in them is lent from them. No
    /// byte after the field is used; a field that is made or refused has ended.
    #[cfg_attr(not(feature = "cli"), inline)]
    pub(crate) fn push<'a>(&'a mut self, input: &'a [u8]) -> Push<'a> {
        match self.advance(input) {
            FieldAdvance::More { used } => Push::More { used },
            FieldAdvance::Got { used, item } => Push::Got {
                used,
                prim: self.lend(input, item),
            },
            FieldAdvance::Refused(refusal) => Push::Refused(refusal),
        }
    }

    /// The value of an item that `advance` made of this input.
    #[cfg_attr(not(feature = "cli"), inline)]
    pub(crate) fn lend<'a>(&'a self, input: &'a [u8], item: FieldOutline) -> Primitive<'a> {
        match item {
            FieldOutline::Plain(prim) => prim,
            FieldOutline::Content { form, lies } => {
                let bytes = match lies {
                    ContentPlace::InInput { start, len } => &input[start..start + len],
                    ContentPlace::InBuffer => self.content.as_slice(),
                };
                form.prim(bytes)
            }
        }
    }

    /// Does what `push` does, but says where a content lies in place of lending it, so that a reader around this one
    /// can go on before it lends.
    #[cfg_attr(not(feature = "cli"), inline)]
    pub(crate) fn advance(&mut self, input: &[u8]) -> FieldAdvance {
        if self.is_fresh() {
            // A number that lies whole in the input is most of all fields.
            match self.wanted.notation {
                Notation::Byte if self.has_whole(1, input) => {
                    return self.end_plain(1, Primitive::Byte(u8::from_be_bytes(first(input))));
                }
                Notation::Short if self.has_whole(2, input) => {
                    return self.end_plain(2, Primitive::Short(u16::from_be_bytes(first(input))));
                }
                Notation::Count16 if self.has_whole(2, input) => {
                    return self.end_plain(
                        2,
                        Primitive::Count(u16::from_be_bytes(first(input)).into()),
                    );
                }
                Notation::Int if self.has_whole(4, input) => {
                    return self.end_plain(4, Primitive::Int(i32::from_be_bytes(first(input))));
                }
                Notation::Long if self.has_whole(8, input) => {
                    return self.end_plain(8, Primitive::Long(i64::from_be_bytes(first(input))));
                }
                _ => {}
            }
            if let Some((start, len, form)) = self.find_content(input) {
                return self.end_content(start, len, form);
            }
            if let Some(prim) = self.find_null(input) {
                return self.end_plain(4, prim);
            }
        }
        // Bound to a name, so that the answers above are not made in the place in memory that this one wants.
        let advance = self.advance_by_piece(input);
        advance
    }

    /// Whether no byte of the field that is under way has come.
    #[inline(always)]
    fn is_fresh(&self) -> bool {
        matches!(self.stage, FieldStage::Front) && self.front.is_empty()
    }

    /// Whether a field of this many bytes fits its container and lies whole in the input.
    #[inline(always)]
    fn has_whole(&self, size: usize, input: &[u8]) -> bool {
        size as u64 <= self.wanted.room && size <= input.len()
    }

    /// Ends the field by a value without content, of this many bytes.
    #[inline(always)]
    fn end_plain(&mut self, used: usize, prim: Primitive<'static>) -> FieldAdvance {
        self.stage = FieldStage::Idle;
        let item = FieldOutline::Plain(prim);
        FieldAdvance::Got { used, item }
    }

    /// The null of a field that lies whole in the input, or that its value is not set.
    #[inline(always)]
    fn find_null(&self, input: &[u8]) -> Option<Primitive<'static>> {
        if !self.has_whole(4, input) {
            return None;
        }
        match self.wanted.notation {
            Notation::Bytes32 => match read_natural(input) {
                Some(_) => None,
                None => Some(Primitive::Bytes(None)),
            },
            Notation::Bound => match i32::from_be_bytes(first(input)) {
                -1 => Some(Primitive::Bound(BoundValue::Null)),
                -2 => Some(Primitive::Bound(BoundValue::Unset)),
                _ => None,
            },
            _ => None,
        }
    }

    /// Where the content of the field begins, how long it is, and what is made of it, if it lies whole in the input and
    /// may be there.
    #[inline(always)]
    fn find_content(&self, input: &[u8]) -> Option<(usize, u32, ContentForm)> {
        let (start, len, form) = read_content_head(self.wanted.notation, input)?;
        if self.has_content(start, len, form, input) {
            Some((start, len, form))
        } else {
            None
        }
    }

    /// Whether a content of this length, after this many bytes, is within the limit, fits its container, lies whole in
    /// the input, and may be there.
    #[inline(always)]
    fn has_content(&self, start: usize, len: u32, form: ContentForm, input: &[u8]) -> bool {
        let used = start + len as usize;
        len <= self.wanted.limit
            && used as u64 <= self.wanted.room
            && used <= input.len()
            && form.accepts(&input[start..used])
    }

    /// Ends the field by a content of this length in the input, after this many bytes.
    #[inline(always)]
    fn end_content(&mut self, start: usize, len: u32, form: ContentForm) -> FieldAdvance {
        self.stage = FieldStage::Idle;
        let size = len as usize;
        let lies = ContentPlace::InInput { start, len: size };
        let item = FieldOutline::Content { form, lies };
        FieldAdvance::Got {
            used: start + size,
            item,
        }
    }

    /// Does what `advance` does, whatever has come of the field.
    #[inline(never)]
    fn advance_by_piece(&mut self, input: &[u8]) -> FieldAdvance {
        match self.stage {
            FieldStage::Idle => unreachable!(),
            FieldStage::Front => self.read_front(input),
            FieldStage::Content { len, form } if self.content.is_empty() => {
                self.take_content(0, len, form, input)
            }
            FieldStage::Content { len, form } => {
                let missing = (len - self.content.len()) as usize;
                if input.len() < missing {
                    self.content.append(input);
                    return FieldAdvance::More { used: input.len() };
                }
                self.content.append(&input[..missing]);
                self.stage = FieldStage::Idle;
                if !form.accepts(self.content.as_slice()) {
                    return self.refuse(Reason::BadUtf8);
                }
                let lies = ContentPlace::InBuffer;
                let item = FieldOutline::Content { form, lies };
                FieldAdvance::Got {
                    used: missing,
                    item,
                }
            }
        }
    }

    /// Reads the front of the field, of which some bytes may have come.
    #[cfg_attr(not(feature = "cli"), inline)]
    fn read_front(&mut self, input: &[u8]) -> FieldAdvance {
        match read_head_of_pieces(self.wanted, &self.front, input) {
            Ok(Head::Whole { used, prim }) => {
                self.stage = FieldStage::Idle;
                let used = used - self.front.len();
                let item = FieldOutline::Plain(prim);
                FieldAdvance::Got { used, item }
            }
            Ok(Head::Content { after, len, form }) => {
                let start = after - self.front.len();
                self.take_content(start, len, form, input)
            }
            Err(Stop::Wanting) => {
                self.stage = FieldStage::Front;
                self.front = self.front.with(input);
                FieldAdvance::More { used: input.len() }
            }
            Err(Stop::Refused(why)) => self.refuse(why),
        }
    }

    /// Takes a content, of which nothing came before `start` in the input.
    #[cfg_attr(not(feature = "cli"), inline)]
    fn take_content(
        &mut self,
        start: usize,
        len: u32,
        form: ContentForm,
        input: &[u8],
    ) -> FieldAdvance {
        let rest = &input[start..];
        let size = len as usize;
        if rest.len() < size {
            self.front = self.front.with(&input[..start]);
            self.content.append(rest);
            self.stage = FieldStage::Content { len, form };
            return FieldAdvance::More { used: input.len() };
        }
        if !form.accepts(&rest[..size]) {
            return self.refuse(Reason::BadUtf8);
        }
        self.stage = FieldStage::Idle;
        let used = start + size;
        let lies = ContentPlace::InInput { start, len: size };
        let item = FieldOutline::Content { form, lies };
        FieldAdvance::Got { used, item }
    }

    /// Whether a content is gathered, some of which has come, and more than this many bytes of it are missing.
    #[cfg_attr(not(feature = "cli"), inline)]
    #[must_use]
    pub fn gathers_more(&self, most: usize) -> bool {
        match self.stage {
            FieldStage::Content { len, .. } if !self.content.is_empty() => {
                let missing = (len - self.content.len()) as usize;
                most < missing
            }
            _ => false,
        }
    }

    /// Reads the next bytes of the content that is gathered straight into the buffer, by one call of the reader for up
    /// to `most` bytes. It does what `advance` does of these bytes, which is to want more.
    pub(crate) fn read_from<R: Source>(&mut self, reader: &mut R, most: usize) -> Result<usize, IoFault> {
        match self.stage {
            FieldStage::Idle => unreachable!(),
            FieldStage::Front => unreachable!(),
            FieldStage::Content { .. } => self.content.read_from(reader, most),
        }
    }

    /// Ends the field by a refusal.
    #[cfg_attr(not(feature = "cli"), inline)]
    fn refuse(&mut self, why: Reason) -> FieldAdvance {
        self.stage = FieldStage::Idle;
        self.content.clear();
        FieldAdvance::Refused(Refusal {
            at: self.wanted.at,
            why,
        })
    }

    /// Whether a field is under way.
    #[cfg_attr(not(feature = "cli"), inline)]
    #[must_use]
    pub fn is_under_way(&self) -> bool {
        !matches!(self.stage, FieldStage::Idle)
    }

    /// How many bytes of the field that is under way have come.
    #[cfg_attr(not(feature = "cli"), inline)]
    #[must_use]
    pub fn came(&self) -> u64 {
        match self.stage {
            FieldStage::Idle => 0,
            FieldStage::Front => self.front.len() as u64,
            FieldStage::Content { .. } => self.front.len() as u64 + self.content.len() as u64,
        }
    }

    /// Where the content that the buffer holds lies from the index `start` on. The buffer lies in one place for as long as
    /// the reader lives, wherever that is moved, and what is in it stays until the next call that changes the reader.
    #[cfg_attr(not(feature = "cli"), inline)]
    #[must_use]
    pub fn address(&self, start: usize) -> *const u8 {
        self.content.address(start)
    }

    /// How many bytes the buffer holds.
    #[cfg_attr(not(feature = "cli"), inline)]
    #[must_use]
    pub fn held(&self) -> u32 {
        self.content.len()
    }

    /// How many bytes of a content its memory has places for: the room, for as long as it lives.
    #[cfg_attr(not(feature = "cli"), inline)]
    #[must_use]
    pub fn capacity(&self) -> usize {
        self.content.capacity()
    }
}

impl ContentForm {
    /// What such a content is.
    pub(crate) fn prim<'a>(self, bytes: &'a [u8]) -> Primitive<'a> {
        match self {
            // The bytes are text, which `accepts` found out.
            ContentForm::Text => Primitive::Text(unsafe { core::str::from_utf8_unchecked(bytes) }),
            ContentForm::Bytes => Primitive::Bytes(Some(bytes)),
            ContentForm::Bound => Primitive::Bound(BoundValue::Bytes(bytes)),
        }
    }

    /// Whether these bytes may be in such a content.
    #[inline]
    pub(crate) fn accepts(self, bytes: &[u8]) -> bool {
        match self {
            ContentForm::Text => is_text(bytes),
            ContentForm::Bytes | ContentForm::Bound => true,
        }
    }
}

/// Reads the front of a field of which the first bytes came before.
fn read_head_of_pieces(wanted: Wanted, front: &FieldFront, input: &[u8]) -> Result<Head, Stop> {
    if front.as_slice().is_empty() {
        read_head(wanted, input)
    } else {
        read_head(wanted, front.with(input).as_slice())
    }
}

/// Where the content of a field begins, how long it is, and what is made of it.
#[inline(always)]
pub(crate) fn read_content_head(
    notation: Notation,
    input: &[u8],
) -> Option<(usize, u32, ContentForm)> {
    match notation {
        Notation::Text16 if input.len() >= 2 => Some((2, read_short(input), ContentForm::Text)),
        Notation::Bytes16 if input.len() >= 2 => Some((2, read_short(input), ContentForm::Bytes)),
        Notation::Text32 if input.len() >= 4 => Some((4, read_natural(input)?, ContentForm::Text)),
        Notation::Bytes32 if input.len() >= 4 => Some((
            4,
            read_natural(input)?,
            ContentForm::Bytes,
        )),
        Notation::Bound if input.len() >= 4 => Some((4, read_natural(input)?, ContentForm::Bound)),
        _ => None,
    }
}
