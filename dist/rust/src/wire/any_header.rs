//! Headers of any version.

use crate::cqlp_message::Frame;
use crate::cqlp_note::{Header, Refusal};
use crate::kit_std::alloc::AllocError;

/// The last version whose frames follow each other without anything around them. In version 5 segments with checksums do, once a
/// connection is set up.
const LAST_FRAMED: u8 = 4;

/// The header of a frame, of whatever version it is, with nothing refused: what a proxy needs of a frame that it does not read, and a
/// server to answer one. Section 2 of `native_protocol_v4.spec`, and of that of each other version.
///
/// ```
/// use cqlp::wire::AnyHeader;
///
/// // OPTIONS of version 5, under the stream id 7.
/// let header = AnyHeader::read(&[5, 0, 0, 7, 5, 0, 0, 0, 0]).unwrap();
/// assert_eq!((header.version, header.stream, header.to_header().is_err()), (5, 7, true));
/// assert_eq!(header.version_error()?.stream, 7);
/// # Ok::<(), cqlp::memory::AllocError>(())
/// ```
#[derive(Clone, Copy, Debug, PartialEq, Eq, Hash)]
pub struct AnyHeader {
    /// The version: the first byte without its highest bit.
    pub version: u8,
    /// Whether the frame is a response: the highest bit of the first byte.
    pub is_response: bool,
    /// The flags.
    pub flags: u8,
    /// The stream id, of one byte in the versions 1 and 2, and of two in the others.
    pub stream: i16,
    /// The number of the opcode, which may be none of version 4.
    pub opcode: u8,
    /// The bytes of the body, which may be more than version 4 allows.
    pub length: u32,
}

impl AnyHeader {
    /// The bytes that a header has at most.
    pub const LONGEST: usize = 9;

    /// How many bytes a header has whose first byte is this: 8 in the versions 1 and 2, and 9 in the others.
    #[must_use]
    pub const fn size_of(first: u8) -> usize {
        if matches!(first & 0x7f, 1 | 2) { 8 } else { Self::LONGEST }
    }

    /// The header that these bytes begin with. None where they are fewer than it has.
    #[must_use]
    pub fn read(bytes: &[u8]) -> Option<AnyHeader> {
        let first = *bytes.first()?;
        let (stream, [opcode, a, b, c, d]) = match (Self::size_of(first), bytes) {
            (8, &[_, _, id, ref rest @ ..]) => (i16::from(id as i8), *rest.first_chunk()?),
            (9, &[_, _, high, low, ref rest @ ..]) => (i16::from_be_bytes([high, low]), *rest.first_chunk()?),
            _ => return None,
        };
        let length = u32::from_be_bytes([a, b, c, d]);
        Some(AnyHeader { version: first & 0x7f, is_response: first & 0x80 != 0, flags: bytes[1], stream, opcode, length })
    }

    /// How many bytes it has.
    #[must_use]
    pub fn size(&self) -> usize {
        Self::size_of(self.version)
    }

    /// Whether the next frame follows the body: in the versions 1 to 4.
    #[must_use]
    pub fn is_framed(&self) -> bool {
        (1..=LAST_FRAMED).contains(&self.version)
    }

    /// Whether the body is compressed.
    #[must_use]
    pub fn is_compressed(&self) -> bool {
        self.flags & crate::names::header_flag::COMPRESSION != 0
    }

    /// The header of version 4, which a decoder takes.
    ///
    /// # Errors
    ///
    /// As [`Header::from_bytes`].
    pub fn to_header(&self) -> Result<Header, Refusal> {
        Header::from_bytes(&self.nine_bytes())
    }

    /// What a server answers to it where its version is not 4: the ERROR by which drivers try version 4, as [`Frame::version_error`].
    ///
    /// # Errors
    ///
    /// Memory that is refused.
    pub fn version_error(&self) -> Result<Frame, AllocError> {
        let mut bytes = self.nine_bytes();
        if self.size() < Self::LONGEST {
            bytes[2] = bytes[3];
        }
        Frame::version_error(&bytes)
    }

    /// Its bytes, as a header of nine.
    fn nine_bytes(&self) -> [u8; 9] {
        let direction = if self.is_response { 0x80 } else { 0 };
        let [high, low] = self.stream.to_be_bytes();
        let [a, b, c, d] = self.length.to_be_bytes();
        [self.version | direction, self.flags, high, low, self.opcode, a, b, c, d]
    }
}
