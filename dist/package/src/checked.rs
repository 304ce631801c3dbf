//! Calls whose sources ask something of their caller, in a form that asks nothing. Written by hand, and not proved.
use crate::cqlp_encode::{LentError, encode_page};
use crate::cqlp_kind::{Kind, Scalar, scalar};
use crate::cqlp_message::Frame;
use crate::cqlp_note::{Header, Reason, Refusal, Target};
use crate::cqlp_value::Value;

impl Header {
    /// The header that nine bytes are, or the first fault of them, whose offset is counted from the first of them: the version
    /// (at 0), the flag 01 (1), the opcode (4), its direction (4), the length (5).
    ///
    /// # Errors
    ///
    /// `BadVersion`, `Compressed`, `BadOpcode`, `BadDirection` and `BadLength`, in this order.
    pub fn from_bytes(bytes: &[u8; 9]) -> Result<Header, Refusal> {
        Header::read(bytes, 0)
    }

    /// The nine bytes of the header, which [`Header::from_bytes`] takes for this header again; None where it is not
    /// [`lawful`](Header::lawful).
    #[must_use]
    pub fn to_bytes(&self) -> Option<[u8; 9]> {
        self.lawful().then(|| self.write())
    }
}

impl Kind {
    /// The id of its type option; None of [`Kind::Raw`], which has no type option.
    #[must_use]
    pub fn option_id(self) -> Option<u16> {
        (self != Kind::Raw).then(|| self.id())
    }
}

impl<'a> Scalar<'a> {
    /// The scalar of this kind that these bytes spell, all of them; None of a kind whose values have items. Section 6 of
    /// `native_protocol_v4.spec`.
    ///
    /// # Errors
    ///
    /// `BadSize` where no scalar of the kind has this many bytes, and where there are none; else `BadUtf8` for a varchar that is
    /// not UTF-8, and `BadScalar` for an ascii with a byte above 7F, a time past the end of a day or a timeuuid that is not of
    /// version 1.
    #[inline]
    #[must_use]
    pub fn from_bytes(kind: Kind, bytes: &'a [u8]) -> Option<Result<Scalar<'a>, Reason>> {
        if !kind.is_scalar() {
            None
        } else if bytes.is_empty() {
            Some(Err(Reason::BadSize))
        } else {
            Some(scalar(kind, bytes))
        }
    }
}

/// Writes a page whose rows the caller holds, and answers how many bytes its frame has: what [`encode`](crate::frame::encode) writes of the
/// `frame` that holds their cells, which this one does not. It takes no memory. Section 4.2.5.2 of `native_protocol_v4.spec`.
///
#[cfg_attr(feature = "std", doc = "```")]
#[cfg_attr(not(feature = "std"), doc = "```ignore")]
/// use cqlp::OfStd;
/// use cqlp::frame::{Atom, Frame, Message, Metadata, Rows, Value, encode_rows};
///
/// let meta = Metadata { flags: 4, columns: 2, paging: None, table: None, specs: None };
/// let frame = Frame::plain(1, Message::Rows(Rows { meta, rows: 3, cells: vec![] }));
/// let raw = |byte| Value::Leaf(Atom::Raw(vec![byte]));
/// let rows: Vec<Vec<Value>> = (0..3).map(|row| vec![raw(row), Value::Null]).collect();
///
/// let mut target = OfStd::new(Vec::new());
/// let written = encode_rows(&frame, &rows, &mut target)?;
/// assert_eq!(target.into_inner().len(), written as usize);
/// # Ok::<(), cqlp::frame::LentError>(())
/// ```
///
/// # Errors
///
/// [`LentError::Unfit`] where the frame is no page, or none whose rows and cells these are, before anything is written.
/// [`LentError::Changed`] where `as_ref` lends other cells the second time. [`LentError::Write`] at the first call of the target that fails
/// or takes nothing.
pub fn encode_rows<R: AsRef<[Value]>, W: Target>(frame: &Frame, rows: &[R], target: &mut W) -> Result<u32, LentError> {
    let cells = || rows.iter().flat_map(|row| row.as_ref());
    encode_page(frame, cells(), cells(), target)
}
