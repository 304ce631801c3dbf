// Written by dist/erase from crates/cqlp_build/src/frames.rt.
//! Frames.

use crate::kit_std::prelude::{String, Vec};
use crate::cqlp_build::held::{FrameEvents, has_flag};
use crate::cqlp_build::lists::Wanted;
use crate::cqlp_message::Frame;
use crate::cqlp_note::{Field, Header};

impl FrameEvents {
    /// Takes the frame of this header.
    pub fn frame(&mut self, header: &Header) -> Frame {
        self.check(!has_flag(header.flags, 0x01));
        let tracing = self.tracing_if(announces(header, 0x02));
        let warnings = self.warnings_if(announces(header, 0x08));
        let payload = self.payload_if(has_flag(header.flags, 0x04));
        let message = self.message(header.opcode);
        Frame {
            flags: header.flags,
            stream: header.stream,
            tracing,
            warnings,
            payload,
            message,
        }
    }

    /// Takes the id of a trace, if it is to be there.
    fn tracing_if(&mut self, there: bool) -> Option<[u8; 16]> {
        if there {
            Some(self.uuid(Field::TraceId))
        } else {
            None
        }
    }

    /// Takes the warnings, if they are to be there.
    fn warnings_if(&mut self, there: bool) -> Option<Vec<String>> {
        if there {
            Some(self.texts(Field::Warnings, Field::Warning))
        } else {
            None
        }
    }

    /// Takes the custom payload, if it is to be there.
    fn payload_if(&mut self, there: bool) -> Option<Vec<(String, Option<Vec<u8>>)>> {
        if there {
            Some(self.counted(Field::PayloadItems, Wanted::PLAIN))
        } else {
            None
        }
    }
}

/// Whether it is a response's, and has some of these flags.
fn announces(header: &Header, bits: u8) -> bool {
    header.opcode.is_response() && has_flag(header.flags, bits)
}
