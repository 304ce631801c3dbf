// Written by dist/erase from crates/cqlp_capture/src/pcapng.rt.
//! What the bytes of a pcapng file say.

use crate::cqlp_capture::block::{Block, BlockKind, EitherLength, may_have_length};
use crate::cqlp_capture::emission::{read_next, refuse, skip};
use crate::cqlp_capture::event::{Emission, EventOutline, InterfaceHead, PacketHead, SkipReason};
use crate::cqlp_capture::file::{ByteOrder, SectionForm};
use crate::cqlp_capture::interfaces::{KnownInterface, TableChange};
use crate::cqlp_capture::place::{FARTHEST, Place, Stage};
use crate::cqlp_capture::refusal::{CaptureReason, CaptureRefusal};

/// That these bytes, up to this offset, are all of a packet.
#[inline(always)]
pub(crate) fn read_data(end: u64, offset: u64, stage: Stage) -> Result<Emission, CaptureRefusal> {
    Ok(Emission {
        at: offset,
        what: Some(EventOutline::Data),
        place: Place { offset: end, stage },
        change: TableChange::Keep,
    })
}

/// What the length of the first block says. Section 4.1 of draft-ietf-opsawg-pcapng.
pub(crate) fn read_section_length(bytes: &[u8]) -> Result<Emission, CaptureRefusal> {
    read_next(8, Stage::SectionBody(read_either_length(bytes, 0)))
}

/// The length at this index.
fn read_either_length(bytes: &[u8], index: usize) -> EitherLength {
    EitherLength {
        big_endian: ByteOrder::BigEndian.read_u32(bytes, index),
        little_endian: ByteOrder::LittleEndian.read_u32(bytes, index),
    }
}

/// What the numbers of a section's header say, the first of which is at this offset. Section 4.1.
pub(crate) fn read_section_body(
    offset: u64,
    lengths: EitherLength,
    bytes: &[u8],
) -> Result<Emission, CaptureRefusal> {
    let Some(order) = ByteOrder::of_magic(ByteOrder::BigEndian.read_u32(bytes, 0)) else {
        return refuse(offset, CaptureReason::UnknownByteOrder);
    };
    let block = Block {
        order,
        start: offset - 8,
        length: lengths.in_order(order),
        interface: None,
    };
    if !may_have_length(BlockKind::Section.least_length(), block.length) {
        return refuse(offset - 4, CaptureReason::BadBlockLength);
    }
    let minor = order.read_u16(bytes, 6);
    if order.read_u16(bytes, 4) != 1 || (minor != 0 && minor != 2) {
        return refuse(offset + 4, CaptureReason::UnknownVersion);
    }
    read_section(block)
}

/// That a section begins with this block.
fn read_section(block: Block) -> Result<Emission, CaptureRefusal> {
    let offset = block.start + 24;
    Ok(Emission {
        at: block.start,
        what: Some(EventOutline::Section(SectionForm::Pcapng(block.order))),
        place: Place {
            offset,
            stage: block.passing(offset, block.end()),
        },
        change: TableChange::Forget,
    })
}

/// What the type and the length of a block say that begins at this offset. Section 3.1.
#[inline]
pub(crate) fn read_block_head(
    offset: u64,
    order: ByteOrder,
    bytes: &[u8],
) -> Result<Emission, CaptureRefusal> {
    if offset > FARTHEST {
        return refuse(offset, CaptureReason::FileTooLong);
    }
    let kind = BlockKind::of_type(order.read_u32(bytes, 0));
    if let BlockKind::Section = kind {
        return read_next(offset + 8, Stage::SectionBody(read_either_length(bytes, 4)));
    }
    let block = Block {
        order,
        start: offset,
        length: order.read_u32(bytes, 4),
        interface: None,
    };
    if !may_have_length(kind.lawful_length(), block.length) {
        return refuse(offset + 4, CaptureReason::BadBlockLength);
    }
    if block.length < kind.least_length() {
        return skip(offset + 8, block, SkipReason::ShortBlock);
    }
    read_block(kind, block)
}

/// What is read in a block of this kind.
#[inline]
fn read_block(kind: BlockKind, block: Block) -> Result<Emission, CaptureRefusal> {
    let offset = block.start + 8;
    let stage = match kind {
        BlockKind::Interface => Stage::InterfaceBody(block),
        BlockKind::Packet => Stage::PacketBody(block),
        BlockKind::EnhancedPacket => Stage::EnhancedBody(block),
        BlockKind::SimplePacket => Stage::SimpleBody(block),
        BlockKind::Section | BlockKind::Other => block.passing(offset, block.end()),
    };
    read_next(offset, stage)
}

/// What the numbers of an interface say. Section 4.2.
pub(crate) fn read_interface_body(
    offset: u64,
    block: Block,
    bytes: &[u8],
) -> Result<Emission, CaptureRefusal> {
    let order = block.order;
    let interface = KnownInterface {
        link: order.read_u16(bytes, 0),
        snap_length: order.read_u32(bytes, 4),
        unit: Some(1_000),
        offset: 0,
    };
    read_description(offset + 8, block, interface)
}

/// That this is what is known of an interface, up to this offset.
fn read_description(
    offset: u64,
    block: Block,
    interface: KnownInterface,
) -> Result<Emission, CaptureRefusal> {
    let block = Block {
        order: block.order,
        start: block.start,
        length: block.length,
        interface: Some(interface),
    };
    read_next(offset, block.at_option(offset))
}

/// What the code and the length of an option say. Sections 3.5 and 4.2.
pub(crate) fn read_option_head(
    offset: u64,
    block: Block,
    bytes: &[u8],
) -> Result<Emission, CaptureRefusal> {
    let code = block.order.read_u16(bytes, 0);
    let size = block.order.read_u16(bytes, 2);
    let end = block.end();
    if code == 0 {
        return read_next(offset + 4, block.passing(offset + 4, end));
    }
    if offset + 4 + filled_up(size) > end {
        return skip_option(offset + 4, block, SkipReason::BadOptionLength);
    }
    read_option(offset, block, code, size)
}

/// What an option of this code and this length says, which lies in its block.
fn read_option(offset: u64, block: Block, code: u16, size: u16) -> Result<Emission, CaptureRefusal> {
    match (code, size) {
        (9, 1) => read_next(offset + 4, Stage::TimeUnit(block)),
        (14, 8) => read_next(offset + 4, Stage::TimeOffset(block)),
        (9 | 14, _) => skip_option(offset + 4, block, SkipReason::BadOptionLength),
        _ => read_next(
            offset + 4,
            block.passing(offset + 4, offset + 4 + filled_up(size)),
        ),
    }
}

/// That an option of this block's interface cannot be read, so that no time of its packets can be; what is left from this offset on
/// is passed over.
fn skip_option(offset: u64, block: Block, why: SkipReason) -> Result<Emission, CaptureRefusal> {
    skip(offset, block.untimed(), why)
}

/// How many bytes are taken by a number of them that are filled up to 32 bits.
fn filled_up(size: u16) -> u64 {
    (size as u64 + 3) / 4 * 4
}

/// What the value of if_tsresol says. Section 4.2.
pub(crate) fn read_time_unit(
    offset: u64,
    block: Block,
    bytes: &[u8],
) -> Result<Emission, CaptureRefusal> {
    let Some(unit) = read_unit(bytes[0]) else {
        return skip_option(offset + 4, block, SkipReason::UnknownTimeUnit);
    };
    match block.interface {
        Some(interface) => read_description(
            offset + 4,
            block,
            KnownInterface {
                link: interface.link,
                snap_length: interface.snap_length,
                unit: Some(unit),
                offset: interface.offset,
            },
        ),
        None => read_next(offset + 4, block.at_option(offset + 4)),
    }
}

/// How many nanoseconds a unit of time is, by this byte of if_tsresol.
fn read_unit(exponent: u8) -> Option<u32> {
    match exponent {
        0 => Some(1_000_000_000),
        1 => Some(100_000_000),
        2 => Some(10_000_000),
        3 => Some(1_000_000),
        4 => Some(100_000),
        5 => Some(10_000),
        6 => Some(1_000),
        7 => Some(100),
        8 => Some(10),
        9 => Some(1),
        _ => None,
    }
}

/// What the value of if_tsoffset says. Section 4.2.
pub(crate) fn read_time_offset(
    offset: u64,
    block: Block,
    bytes: &[u8],
) -> Result<Emission, CaptureRefusal> {
    let seconds = block.order.read_u64(bytes, 0);
    if seconds >= 0x8000_0000_0000_0000 {
        return skip_option(offset + 8, block, SkipReason::NegativeTimeOffset);
    }
    match block.interface {
        Some(interface) => read_description(
            offset + 8,
            block,
            KnownInterface {
                link: interface.link,
                snap_length: interface.snap_length,
                unit: interface.unit,
                offset: seconds,
            },
        ),
        None => read_next(offset + 8, block.at_option(offset + 8)),
    }
}

/// What the numbers of a packet say, whose interface has this number. Section 4.3 and appendix A.
#[inline]
pub(crate) fn read_enhanced_body(
    limit: u32,
    known: &[KnownInterface],
    number: u32,
    offset: u64,
    block: Block,
    bytes: &[u8],
) -> Result<Emission, CaptureRefusal> {
    let order = block.order;
    let Some(interface) = known.get(number as usize).copied() else {
        return skip(offset + 20, block, SkipReason::UnknownInterface);
    };
    let Some(unit) = interface.unit else {
        return skip(offset + 20, block, SkipReason::UnreadInterface);
    };
    let units = order.read_u32(bytes, 4) as u64 * 0x1_0000_0000 + order.read_u32(bytes, 8) as u64;
    let Some(time) = captured_time(unit, interface.offset, units) else {
        return skip(offset + 20, block, SkipReason::TimeTooLarge);
    };
    let packet = enhanced_packet(number, order, interface, time, bytes);
    read_within(limit, offset + 20, block, packet)
}

/// The enhanced packet that has these numbers, if its interface is known and its time can be read.
#[inline]
pub(crate) fn read_enhanced(
    known: &[KnownInterface],
    order: ByteOrder,
    bytes: &[u8],
) -> Option<PacketHead> {
    let number = order.read_u32(bytes, 0);
    let interface = known.get(number as usize).copied()?;
    let unit = interface.unit?;
    let units = order.read_u32(bytes, 4) as u64 * 0x1_0000_0000 + order.read_u32(bytes, 8) as u64;
    let time = captured_time(unit, interface.offset, units)?;
    Some(enhanced_packet(number, order, interface, time, bytes))
}

/// The packet that has these numbers, whose interface has this number, and whose time is so many nanoseconds.
#[inline]
fn enhanced_packet(
    number: u32,
    order: ByteOrder,
    interface: KnownInterface,
    time: u64,
    bytes: &[u8],
) -> PacketHead {
    PacketHead {
        interface: number,
        link: interface.link,
        time: Some(time),
        captured: order.read_u32(bytes, 12),
        original: order.read_u32(bytes, 16),
    }
}

/// That a packet begins, whose bytes are at this offset, if they lie in the block and the limit allows as many.
#[inline]
fn read_within(
    limit: u32,
    offset: u64,
    block: Block,
    packet: PacketHead,
) -> Result<Emission, CaptureRefusal> {
    if packet.captured as u64 > room_after(block, offset) {
        return skip(offset, block, SkipReason::PacketBeyondBlock);
    }
    if packet.captured > limit {
        return skip(offset, block, SkipReason::PacketTooLong);
    }
    read_packet(offset, block, packet)
}

/// How many bytes a block has from this offset on to its second length.
#[inline]
pub(crate) fn room_after(block: Block, offset: u64) -> u64 {
    block.end() - offset
}

/// A time of so many units, each of so many nanoseconds, after this many seconds, in nanoseconds, if that is less than 2^64.
#[inline]
fn captured_time(unit: u32, seconds: u64, units: u64) -> Option<u64> {
    let since = units.checked_mul(unit as u64)?;
    let begin = seconds.checked_mul(1_000_000_000)?;
    since.checked_add(begin)
}

/// That a packet begins, whose bytes are at this offset.
#[inline]
fn read_packet(offset: u64, block: Block, packet: PacketHead) -> Result<Emission, CaptureRefusal> {
    Ok(Emission {
        at: block.start,
        what: Some(EventOutline::Packet(packet)),
        place: Place {
            offset,
            stage: Stage::BlockData(block, packet.captured),
        },
        change: TableChange::Keep,
    })
}

/// What the number of a simple packet says. Section 4.4.
pub(crate) fn read_simple_body(
    limit: u32,
    known: &[KnownInterface],
    offset: u64,
    block: Block,
    bytes: &[u8],
) -> Result<Emission, CaptureRefusal> {
    let Some(interface) = known.get(0).copied() else {
        return skip(offset + 4, block, SkipReason::UnknownInterface);
    };
    let original = block.order.read_u32(bytes, 0);
    let captured = captured_size(interface, original, room_after(block, offset + 4));
    let packet = PacketHead {
        interface: 0,
        link: interface.link,
        time: None,
        captured,
        original,
    };
    read_within(limit, offset + 4, block, packet)
}

/// How many bytes of a simple packet were captured that had so many, where its block has room for so many.
fn captured_size(interface: KnownInterface, original: u32, room: u64) -> u32 {
    let snapped = if interface.snap_length == 0 {
        original
    } else {
        original.min(interface.snap_length)
    };
    if room < snapped as u64 {
        room as u32
    } else {
        snapped
    }
}

/// What the second length of a block says, and that an interface is known once its block was read. Section 3.1.
#[inline]
pub(crate) fn read_block_end(
    limit: u32,
    known: &[KnownInterface],
    offset: u64,
    block: Block,
    bytes: &[u8],
) -> Result<Emission, CaptureRefusal> {
    if block.order.read_u32(bytes, 0) != block.length {
        return refuse(offset, CaptureReason::UnequalBlockLengths);
    }
    let stage = Stage::BlockHead(block.order);
    let Some(interface) = block.interface else {
        return read_next(offset + 4, stage);
    };
    let number = known.len() as u32;
    let place = Place {
        offset: offset + 4,
        stage,
    };
    if number >= limit {
        return Ok(Emission {
            at: block.start,
            what: Some(EventOutline::Skipped(SkipReason::TooManyInterfaces)),
            place,
            change: TableChange::Keep,
        });
    }
    Ok(Emission {
        at: block.start,
        what: Some(EventOutline::Interface(InterfaceHead {
            number,
            link: interface.link,
            snap_length: interface.snap_length,
        })),
        place,
        change: TableChange::Add(interface),
    })
}
