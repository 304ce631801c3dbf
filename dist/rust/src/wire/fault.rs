//! What goes wrong between a socket and a message.

use core::error::Error;
use core::fmt;

use crate::cqlp_build::BuildError;
use crate::cqlp_decode::NewError;
use crate::cqlp_encode::{EncodeError, PageError};
use crate::cqlp_message::Unfit;
use crate::cqlp_note::{BadLimits, NoMemory, Refusal};
use crate::cqlp_session::{AnswerError, BeginError, ServerRefusal, SlotsOrMemory, Stray};
use crate::cqlp_text::reason_name;
use crate::kit_std::alloc::AllocError;
use crate::rows::{BindFault, RowError, WriteFault};
use crate::wire::any_header::AnyHeader;

/// Why a message is not sent, or what came is no message.
#[derive(Clone, Debug, PartialEq, Eq)]
#[non_exhaustive]
pub enum WireError {
    /// A frame whose header is none of version 4, or compressed.
    Foreign {
        /// Its header.
        header: AnyHeader,
        /// Why it is none.
        why: Refusal,
    },
    /// A frame longer than those that are gathered.
    TooLong {
        /// Its header.
        header: AnyHeader,
        /// The bytes that a body may have.
        longest: u32,
    },
    /// The decoder refuses the frame.
    Refused(Refusal),
    /// The bytes end before the frame does.
    Cut,
    /// The frame passes the limits of what builds it, or memory was refused.
    Build(BuildError),
    /// No bytes spell the frame.
    Unfit(Unfit),
    /// The message is no request, so that a client does not send it.
    NoRequest,
    /// No request may begin now.
    Begin(BeginError),
    /// A response that answers nothing.
    Stray(Stray),
    /// A request that may not come now.
    Refusal(ServerRefusal),
    /// A response that answers no request.
    Answer(AnswerError),
    /// The cells of a page are not those that were announced.
    Page(PageError),
    /// A row that came is none of the type that is wanted, or the frame is no page.
    Row(RowError),
    /// A row to be sent is none of the page's columns.
    Bind(BindFault),
    /// More slots than a connection has stream ids, or none.
    Slots,
    /// A limit of a decoder is out of its range.
    Limits(BadLimits),
    /// Memory was refused.
    NoMemory,
}

impl fmt::Display for WireError {
    fn fmt(&self, f: &mut fmt::Formatter<'_>) -> fmt::Result {
        match self {
            WireError::Foreign { header, .. } if header.is_compressed() && header.version == 4 => {
                write!(f, "the body under the stream id {} is compressed: the driver's compression has to be off", header.stream)
            }
            WireError::Foreign { header, why } => write!(
                f,
                "no header of version 4: {}, version {}, stream id {}, opcode {:#04x}",
                reason_name(why.why),
                header.version,
                header.stream,
                header.opcode
            ),
            WireError::TooLong { header, longest } => {
                write!(f, "a body of {} bytes, where {longest} are held: a greater limit, or pages of fewer rows, would do", header.length)
            }
            WireError::Cut => f.write_str("the bytes end before the frame does"),
            WireError::Refused(why) => why.fmt(f),
            WireError::Build(why) => why.fmt(f),
            WireError::Unfit(why) => why.fmt(f),
            WireError::NoRequest => f.write_str("the message is no request"),
            WireError::Begin(why) => why.fmt(f),
            WireError::Stray(why) => why.fmt(f),
            WireError::Refusal(why) => why.fmt(f),
            WireError::Answer(why) => why.fmt(f),
            WireError::Page(why) => why.fmt(f),
            WireError::Row(why) => why.fmt(f),
            WireError::Bind(why) => why.fmt(f),
            WireError::Limits(why) => why.fmt(f),
            WireError::Slots => f.write_str("a connection has 1 to 32,768 slots"),
            WireError::NoMemory => f.write_str("memory was refused"),
        }
    }
}

impl Error for WireError {
    fn source(&self) -> Option<&(dyn Error + 'static)> {
        Some(match self {
            WireError::Foreign { why, .. } | WireError::Refused(why) => why,
            WireError::Build(why) => why,
            WireError::Unfit(why) => why,
            WireError::Begin(why) => why,
            WireError::Stray(why) => why,
            WireError::Refusal(why) => why,
            WireError::Answer(why) => why,
            WireError::Page(why) => why,
            WireError::Row(why) => why,
            WireError::Bind(why) => why,
            WireError::Limits(why) => why,
            _ => return None,
        })
    }
}

/// Makes a fault of each of these errors.
macro_rules! from {
    ($($error:ty => $made:expr;)+) => {$(
        impl From<$error> for WireError {
            fn from(why: $error) -> WireError {
                $made(why)
            }
        }
    )+};
}

from! {
    Refusal => WireError::Refused;
    BuildError => WireError::Build;
    BeginError => WireError::Begin;
    Stray => WireError::Stray;
    ServerRefusal => WireError::Refusal;
    AnswerError => WireError::Answer;
    RowError => WireError::Row;
    BindFault => WireError::Bind;
    WriteFault => |why| match why {
        WriteFault::Row(why) => WireError::Bind(why),
        WriteFault::Page(why) => why.into(),
    };
    PageError => |why| match why {
        PageError::Unfit(why) => WireError::Unfit(why),
        PageError::Write { .. } => WireError::NoMemory,
        why => WireError::Page(why),
    };
    EncodeError => |why| match why {
        EncodeError::Unfit(why) => WireError::Unfit(why),
        EncodeError::Write { .. } => WireError::NoMemory,
    };
    NoMemory => |_| WireError::NoMemory;
    AllocError => |_| WireError::NoMemory;
    NewError => |why| match why {
        NewError::BadLimits(why) => WireError::Limits(why),
        _ => WireError::NoMemory,
    };
    SlotsOrMemory => |why| match why {
        SlotsOrMemory::BadSlots => WireError::Slots,
        _ => WireError::NoMemory,
    };
}
