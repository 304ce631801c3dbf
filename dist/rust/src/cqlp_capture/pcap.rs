// Written by dist/erase from crates/cqlp_capture/src/pcap.rt.
//! What the bytes of a pcap file say.

use crate::cqlp_capture::emission::{read_next, refuse};
use crate::cqlp_capture::event::{Emission, EventOutline, InterfaceHead, PacketHead, SkipReason};
use crate::cqlp_capture::file::{ByteOrder, FileForm, Fraction, SectionForm};
use crate::cqlp_capture::interfaces::{KnownInterface, TableChange};
use crate::cqlp_capture::place::{FARTHEST, Place, RecordForm, Stage};
use crate::cqlp_capture::refusal::{CaptureReason, CaptureRefusal};

/// What the first four bytes of a file say. Section 4 of draft-ietf-opsawg-pcap, and section 4.1 of
/// draft-ietf-opsawg-pcapng.
pub(crate) fn read_magic(bytes: &[u8]) -> Result<Emission, CaptureRefusal> {
    let magic = ByteOrder::BigEndian.read_u32(bytes, 0);
    if magic >> 16 == 0x1F8B {
        return refuse(0, CaptureReason::Gzip);
    }
    if magic == 0x0A0D_0D0A {
        return read_next(4, Stage::SectionLength);
    }
    match FileForm::of_magic(magic) {
        Some(form) => Ok(Emission {
            at: 0,
            what: Some(EventOutline::Section(SectionForm::Pcap(form))),
            place: Place {
                offset: 4,
                stage: Stage::FileHead(form),
            },
            change: TableChange::Keep,
        }),
        None => refuse(0, CaptureReason::UnknownMagic),
    }
}

/// What the rest of the file's header says. Section 4 of draft-ietf-opsawg-pcap.
pub(crate) fn read_file_head(form: FileForm, bytes: &[u8]) -> Result<Emission, CaptureRefusal> {
    let order = form.order;
    if order.read_u16(bytes, 0) != 2 || order.read_u16(bytes, 2) != 4 {
        return refuse(4, CaptureReason::UnknownVersion);
    }
    let link = (order.read_u32(bytes, 16) % 65_536) as u16;
    let snap_length = order.read_u32(bytes, 12);
    Ok(Emission {
        at: 4,
        what: Some(EventOutline::Interface(InterfaceHead {
            number: 0,
            link,
            snap_length,
        })),
        place: Place {
            offset: 24,
            stage: Stage::RecordHead(RecordForm { form, link }),
        },
        change: TableChange::Add(KnownInterface {
            link,
            snap_length,
            unit: Some(unit_of(form.fraction)),
            offset: 0,
        }),
    })
}

/// What the header of a record says that begins at this offset. Section 5 of draft-ietf-opsawg-pcap.
pub(crate) fn read_record_head(
    limit: u32,
    offset: u64,
    record_form: RecordForm,
    bytes: &[u8],
) -> Result<Emission, CaptureRefusal> {
    if offset > FARTHEST {
        return refuse(offset, CaptureReason::FileTooLong);
    }
    let packet = read_packet(record_form, bytes);
    if packet.captured > limit {
        return skip_record(offset, packet.captured, record_form);
    }
    Ok(Emission {
        at: offset,
        what: Some(EventOutline::Packet(packet)),
        place: Place {
            offset: offset + 16,
            stage: Stage::Data(record_form, packet.captured),
        },
        change: TableChange::Keep,
    })
}

/// The packet of the record that has this header.
#[inline]
pub(crate) fn read_packet(record_form: RecordForm, bytes: &[u8]) -> PacketHead {
    let form = record_form.form;
    let order = form.order;
    PacketHead {
        interface: 0,
        link: record_form.link,
        time: Some(time_of(form, order.read_u32(bytes, 0), order.read_u32(bytes, 4))),
        captured: order.read_u32(bytes, 8),
        original: order.read_u32(bytes, 12),
    }
}

/// That a packet is too long, of which so many bytes were captured.
fn skip_record(
    offset: u64,
    captured: u32,
    record_form: RecordForm,
) -> Result<Emission, CaptureRefusal> {
    Ok(Emission {
        at: offset,
        what: Some(EventOutline::Skipped(SkipReason::PacketTooLong)),
        place: Place {
            offset: offset + 16,
            stage: Stage::Rest(record_form, offset, captured),
        },
        change: TableChange::Keep,
    })
}

/// What is read after the next bytes, at this offset, of a packet that is passed over.
pub(crate) fn read_rest(
    offset: u64,
    record_form: RecordForm,
    start: u64,
    left: u32,
) -> Result<Emission, CaptureRefusal> {
    let count = left.min(64);
    let stage = match left - count {
        0 => Stage::RecordHead(record_form),
        left => Stage::Rest(record_form, start, left),
    };
    read_next(offset + count as u64, stage)
}

/// So many seconds and fractions of one, in nanoseconds.
#[inline]
fn time_of(form: FileForm, seconds: u32, fraction: u32) -> u64 {
    seconds as u64 * 1_000_000_000 + fraction as u64 * unit_of(form.fraction) as u64
}

/// How many nanoseconds a fraction counts.
#[inline]
fn unit_of(fraction: Fraction) -> u32 {
    match fraction {
        Fraction::Microseconds => 1_000,
        Fraction::Nanoseconds => 1,
    }
}
