// Written by dist/erase from crates/cqlp_capture/src/event.rt.
//! What calls of a reader return of a capture.

use crate::cqlp_capture::file::SectionForm;
use crate::cqlp_capture::interfaces::TableChange;
use crate::cqlp_capture::place::Place;
use crate::cqlp_capture::refusal::CaptureRefusal;

/// An interface on which packets were captured.
#[derive(Clone, Copy, Debug, PartialEq, Eq)]
pub struct InterfaceHead {
    /// The number by which packets of its section name it: how many the section has before it. A pcap file has one.
    pub number: u32,
    /// The link type of its packets, as the registry of LINKTYPE_ values has it: 1 is Ethernet.
    pub link: u16,
    /// How many bytes of a packet were captured at most, 0 where nothing is said. Nothing is checked against it.
    pub snap_length: u32,
}

/// A packet, before its bytes.
#[derive(Clone, Copy, Debug, PartialEq, Eq)]
pub struct PacketHead {
    /// The number of its interface in this section.
    pub interface: u32,
    /// The link type of that interface.
    pub link: u16,
    /// When it was captured, in nanoseconds since 1970-01-01 00:00:00 UTC; `None` where the file does not say so, as of a
    /// simple packet of pcapng. A pcap file's times all fit.
    pub time: Option<u64>,
    /// How many of its bytes the file has, at most the caller's limit.
    pub captured: u32,
    /// How many bytes it had, by the file's word: fewer than were captured is not refused.
    pub original: u32,
}

/// Why a block, an interface or a packet cannot be read. It is passed over, and the reading goes on after it.
#[derive(Clone, Copy, Debug, PartialEq, Eq, PartialOrd, Ord, Hash)]
pub enum SkipReason {
    /// A block of a packet that has fewer bytes than its kind has to have.
    ShortBlock,
    /// An option of an interface that would reach beyond its block, or whose length is not the one that its kind has. No time of the
    /// interface's packets can be read.
    BadOptionLength,
    /// The times of an interface are in units other than a second over a power of ten from 0 to 9.
    UnknownTimeUnit,
    /// Times of an interface that would begin before 1970.
    NegativeTimeOffset,
    /// An interface beyond the caller's limit.
    TooManyInterfaces,
    /// A packet of an interface that the section does not have, or that is beyond the caller's limit.
    UnknownInterface,
    /// A packet of an interface whose times cannot be read.
    UnreadInterface,
    /// A packet whose time is 2^64 nanoseconds or more.
    TimeTooLarge,
    /// A packet of which more bytes were captured than its block has.
    PacketBeyondBlock,
    /// A packet of which more bytes were captured than the caller's limit.
    PacketTooLong,
}

/// An event of a capture.
#[derive(Clone, Copy, Debug, PartialEq, Eq)]
pub enum CaptureEvent<'a> {
    /// A section of this form begins, with no interfaces yet. A pcap file is one.
    Section(SectionForm),
    /// An interface of the section, before all packets that name it.
    Interface(InterfaceHead),
    /// A packet begins, whose bytes are next.
    Packet(PacketHead),
    /// All captured bytes of the packet that began, which ends here.
    Data(&'a [u8]),
    /// Something cannot be read, and is passed over.
    Skipped(SkipReason),
}

/// An event without its bytes.
#[derive(Clone, Copy)]
pub(crate) enum EventOutline {
    Section(SectionForm),
    Interface(InterfaceHead),
    Packet(PacketHead),
    /// The bytes that were wanted.
    Data,
    Skipped(SkipReason),
}

/// What the bytes that were wanted say: an event at an offset, or none; where the reading is after it, and what becomes
/// of the section's interfaces.
#[derive(Clone, Copy)]
pub(crate) struct Emission {
    pub at: u64,
    pub what: Option<EventOutline>,
    pub place: Place,
    pub change: TableChange,
}

/// What one call makes of the input.
#[derive(Clone, Copy, Debug, PartialEq, Eq)]
pub enum CaptureStep<'a> {
    /// An event, whose first byte is at this offset of the file. This many bytes of the input were used.
    Event {
        /// The offset of its first byte in the file.
        at: u64,
        /// How many bytes of the input were used, up to the end of the event.
        used: usize,
        /// The event, whose bytes are lent from the input or from the reader.
        event: CaptureEvent<'a>,
    },
    /// All of the input was used, and more is wanted.
    More {
        /// How many bytes of the input were used: all of them.
        used: usize,
    },
    /// The file is refused, here and at every later call; nothing was used.
    Refused(CaptureRefusal),
}

/// How a file ends.
#[derive(Clone, Copy, Debug, PartialEq, Eq)]
pub enum CaptureEnd {
    /// After its last packet or block, or after its header, at this offset.
    Whole {
        /// How many bytes the file has.
        bytes: u64,
    },
    /// Within its header, a record or a block, which began at the offset `at`, after this many bytes.
    Cut {
        /// The offset in the file of the header, the record or the block that is not whole.
        at: u64,
        /// How many bytes the file has, those of the unfinished part among them.
        bytes: u64,
    },
    /// It was refused before its end, for this reason.
    Refused(CaptureRefusal),
}
