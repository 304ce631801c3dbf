// Written by dist/erase from crates/cqlp_decode/src/field_loop.rt.
//! Headers, fields and ends of frames, handed straight to a sink.
//!
//! The loop takes each header, field and end that lies whole in the input. It leaves all else to `Decoder::next`, which
//! alone decides it: a type option, a cell, a cut, and each refusal; and so it does an \[inet\], which few messages have.
//! It may, since it is proved to hand out what the reading of the bytes says, and to be where that does: no rule
//! is here alone. What follows a field, and where a message goes on, is found by the functions by which `next` does.

use crate::cqlp_decode::decoder::event_with;
use crate::cqlp_decode::metadata::begin_metadata;
use crate::cqlp_decode::page_loop::Handed;
use crate::cqlp_decode::parts::Parts;
use crate::cqlp_decode::progress::{StreamProgress, StreamStage, limit_on};
use crate::cqlp_decode::step::FaultAfter;
use crate::cqlp_grammar::{Event, Role, Sink, SinkFault, Want, fault_in};
use crate::cqlp_kind::content::read_array;
use crate::cqlp_note::{Asked, Field, Header, Notation, front_field};

/// Hands what is due to the sink, as far as the loop takes it, and answers how many bytes of the input it takes.
pub(crate) fn take_fields<S: Sink>(
    progress: &mut StreamProgress,
    parts: &mut Parts,
    input: &[u8],
    sink: &mut S,
) -> Result<usize, FaultAfter> {
    if progress.refusal.is_some() {
        return Ok(0);
    }
    let mut used = 0;
    loop {
        match progress.hand_due(parts, &input[used..], sink) {
            Handed::Left => return Ok(used),
            Handed::Taken(taken) => used += taken,
            Handed::Fault(taken) => {
                let used = used + taken;
                return Err(FaultAfter { used });
            }
        }
    }
}

/// Hands the field at the front of the input to the sink, if all its bytes are there and it is lawful. It begins at an
/// offset, and has room for this many bytes.
#[inline(always)]
fn hand_plain<S: Sink>(
    limits: &Asked,
    notation: Notation,
    field: Field,
    room: u64,
    at: u64,
    input: &[u8],
    sink: &mut S,
) -> Handed {
    // An arm for each notation, so that each has code of its own.
    match notation {
        Notation::Bound => hand_front(limits, Notation::Bound, field, room, at, input, sink),
        Notation::Text16 => hand_front(limits, Notation::Text16, field, room, at, input, sink),
        Notation::Text32 => hand_front(limits, Notation::Text32, field, room, at, input, sink),
        Notation::Bytes16 => hand_front(limits, Notation::Bytes16, field, room, at, input, sink),
        Notation::Bytes32 => hand_front(limits, Notation::Bytes32, field, room, at, input, sink),
        Notation::Byte => hand_front(limits, Notation::Byte, field, room, at, input, sink),
        Notation::Short => hand_front(limits, Notation::Short, field, room, at, input, sink),
        Notation::Count16 => hand_front(limits, Notation::Count16, field, room, at, input, sink),
        Notation::Int => hand_front(limits, Notation::Int, field, room, at, input, sink),
        Notation::Long => hand_front(limits, Notation::Long, field, room, at, input, sink),
        Notation::Uuid => hand_front(limits, Notation::Uuid, field, room, at, input, sink),
        Notation::Count32 => hand_front(limits, Notation::Count32, field, room, at, input, sink),
        Notation::Inet | Notation::Content(_) => Handed::Left,
    }
}

/// The same of a field of this notation.
#[inline(always)]
fn hand_front<S: Sink>(
    limits: &Asked,
    notation: Notation,
    field: Field,
    room: u64,
    at: u64,
    input: &[u8],
    sink: &mut S,
) -> Handed {
    let Some(whole) = front_field(notation, limit_on(limits, notation), room, input) else {
        return Handed::Left;
    };
    match sink.take(at, &event_with(field, whole.value)) {
        Ok(()) => Handed::Taken(whole.used),
        Err(SinkFault) => Handed::Fault(whole.used),
    }
}

impl StreamProgress {
    /// Hands what is due to the sink, if the loop takes it.
    #[inline(always)]
    fn hand_due<S: Sink>(
        &mut self,
        parts: &mut Parts,
        input: &[u8],
        sink: &mut S,
    ) -> Handed {
        match self.stage {
            StreamStage::Field(want) => match want.role {
                Role::Alone => self.hand_alone(parts, want, input, sink),
                _ => self.hand_field(parts, want, input, sink),
            },
            StreamStage::Header => self.hand_header(input, sink),
            StreamStage::Extra => self.hand_end(input, sink),
            StreamStage::BeforeType
            | StreamStage::InType
            | StreamStage::BeforeCell(_)
            | StreamStage::InCell(_) => Handed::Left,
        }
    }

    /// Hands the header at the front of the input to the sink, if it lies whole there and is lawful.
    #[inline(always)]
    fn hand_header<S: Sink>(&mut self, input: &[u8], sink: &mut S) -> Handed {
        if self.came > 0 || self.offset > 1 << 63 || input.len() < 9 {
            return Handed::Left;
        }
        let Ok(header) = Header::read(&read_array(input), self.offset) else {
            return Handed::Left;
        };
        let at = self.offset;
        self.enter(&header);
        match sink.take(at, &Event::Frame(header)) {
            Ok(()) => Handed::Taken(9),
            Err(SinkFault) => Handed::Fault(9),
        }
    }

    /// Hands the end of the frame to the sink, if the bytes before it are there.
    #[inline(always)]
    fn hand_end<S: Sink>(&mut self, input: &[u8], sink: &mut S) -> Handed {
        let extra = self.stop - self.offset;
        let missing = extra - self.came;
        if (input.len() as u64) < missing {
            return Handed::Left;
        }
        let at = self.stop;
        self.end_frame();
        let used = missing as usize;
        match sink.take(
            at,
            &Event::End {
                extra: extra as u32,
            },
        ) {
            Ok(()) => Handed::Taken(used),
            Err(SinkFault) => Handed::Fault(used),
        }
    }

    /// Hands the field that is due to the sink, from whose value nothing follows, if no byte of it has come and it lies
    /// whole in the input.
    #[inline(always)]
    fn hand_alone<S: Sink>(
        &mut self,
        parts: &Parts,
        want: Want,
        input: &[u8],
        sink: &mut S,
    ) -> Handed {
        if parts.partial.is_under_way() || parts.partial.held() > 0 {
            return Handed::Left;
        }
        let Want {
            field,
            notation,
            ..
        } = want;
        let at = self.offset;
        let room = self.stop - at;
        match hand_plain(&self.limits, notation, field, room, at, input, sink) {
            Handed::Left => Handed::Left,
            Handed::Taken(used) => {
                self.offset += used as u64;
                self.expect_next();
                Handed::Taken(used)
            }
            Handed::Fault(used) => {
                self.offset += used as u64;
                self.expect_next();
                Handed::Fault(used)
            }
        }
    }

    /// Hands the field that is due to the sink, if no byte of it has come, it lies whole in the input and is lawful.
    #[inline(always)]
    fn hand_field<S: Sink>(
        &mut self,
        parts: &mut Parts,
        want: Want,
        input: &[u8],
        sink: &mut S,
    ) -> Handed {
        if parts.partial.is_under_way() || parts.partial.held() > 0 {
            return Handed::Left;
        }
        let limit = limit_on(&self.limits, want.notation);
        let room = self.stop - self.offset;
        let Some(whole) = front_field(want.notation, limit, room, input) else {
            return Handed::Left;
        };
        let used = whole.used;
        let value = whole.value;
        if let Some(_) = fault_in(want.role, value) {
            return Handed::Left;
        }
        let at = self.offset;
        self.offset += used as u64;
        begin_metadata(want.role, &mut parts.table);
        self.follow(want.role, value, &parts.table, &parts.given);
        match sink.take(at, &event_with(want.field, value)) {
            Ok(()) => Handed::Taken(used),
            Err(SinkFault) => Handed::Fault(used),
        }
    }
}
