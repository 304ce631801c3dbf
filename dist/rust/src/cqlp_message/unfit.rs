// Written by dist/erase from crates/cqlp_message/src/unfit.rt.
//! Why a frame has no spelling.

use crate::cqlp_message::frame::Frame;
use crate::cqlp_message::tally::Tally;
use crate::cqlp_note::Header;

error! {
/// Why no bytes spell a frame: the first of these that holds. Sections 2 to 4 of `native_protocol_v4.spec`.
#[derive(Clone, Copy, Debug, PartialEq, Eq)]
pub enum Unfit {
    /// A request with a tracing id or with warnings.
    #[error("a request has a tracing id or warnings")]
    Direction,
    /// A flag, a code, a kind or a name, and the parts that it announces, disagree; or as many specs as columns are not
    /// there; or a type of a kind with parameters has none; or the flag of compression is set, or one that no batch has.
    #[error("the parts are not those that are announced")]
    Parts,
    /// A \[short\] count above 65,535, or an \[int\] count above 2,147,483,647, but for those in cells.
    #[error("there are too many items")]
    TooManyItems,
    /// A \[string\] or \[short bytes\] above 65,535 bytes, or a longer field above 2,147,483,647, but for those in cells.
    #[error("a text is too long")]
    TextTooLong,
    /// There are not as many cells as rows times columns. Of a page that is written cell by cell: it is none, or holds cells.
    #[error("a page has too few cells or too many")]
    RowShape,
    /// A cell is no value of its column's type.
    #[error("a cell is not of its column's type")]
    CellType,
    /// The body has more than 268,435,456 bytes.
    #[error("the body is too long")]
    BodyTooLong,
}
}

impl Frame {
    /// How many bytes it has, with its header and nothing after its parts; or why no bytes spell it.
    ///
    /// # Errors
    ///
    /// The first reason, as [`Frame::unfit`] gives it.
    pub fn measure(&self) -> Result<u32, Unfit> {
        let tally = self.frame_tally()?;
        if !self.message.has_its_cells() {
            return Err(Unfit::RowShape);
        }
        if !tally.cells {
            return Err(Unfit::CellType);
        }
        if tally.size > u64::from(Header::LONGEST_BODY) {
            return Err(Unfit::BodyTooLong);
        }
        Ok(tally.size as u32 + 9)
    }

    /// Why no bytes spell it, or None where some do.
    #[must_use]
    pub fn unfit(&self) -> Option<Unfit> {
        match self.measure() {
            Ok(_) => None,
            Err(why) => Some(why),
        }
    }

    /// How many bytes it has, with its header and nothing after its parts.
    pub(crate) fn len(&self) -> u32 {
        let Ok(len) = self.measure() else {
            unreachable!()
        };
        len
    }

    /// Its header, where its body has this many bytes.
    #[must_use]
    pub fn header(&self, length: u32) -> Header {
        Header {
            response: self.message.is_response(),
            flags: self.flags,
            stream: self.stream,
            opcode: self.message.opcode(),
            length,
        }
    }

    /// What is found of its parts; or the first that holds of `Direction`, `Parts`, `TooManyItems` and `TextTooLong`.
    pub(crate) fn frame_tally(&self) -> Result<Tally, Unfit> {
        if !self.is_directed() {
            return Err(Unfit::Direction);
        }
        if !self.agrees() {
            return Err(Unfit::Parts);
        }
        let tally = self.tally();
        if !tally.counts {
            return Err(Unfit::TooManyItems);
        }
        if !tally.texts {
            return Err(Unfit::TextTooLong);
        }
        self.read_numbers();
        Ok(tally)
    }

    /// Reads the numbers of its header, which are so in the ranges of their types.
    #[inline(always)]
    fn read_numbers(&self) {
        let _flags = self.flags;
        let _stream = self.stream;
    }

    /// What is found of its parts.
    fn tally(&self) -> Tally {
        let mut tally = Tally::new();
        self.walk(&mut tally);
        tally
    }
}
