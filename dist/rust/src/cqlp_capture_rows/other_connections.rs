// Written by dist/erase from crates/cqlp_capture_rows/src/other_connections.rt.
//! The other connections of a capture, of which the PREPAREDs are read.

use crate::cqlp_capture_rows::other_types::OtherTypes;
use crate::cqlp_capture_rows::prepared_frames::PreparedFrames;
use crate::cqlp_note::NoMemory;
use crate::cqlp_observer::{Heads, Heard, HeardStep, Unread};
use crate::cqlp_tcp_reassembly::StreamStep;
use crate::kit_std::alloc::{AllocError};
use crate::kit_std::collections::BTreeMap;

/// Where the frames of the responses of other connections begin and end, by the connections' numbers, and the frames that may be PREPAREDs.
/// Memory is taken for each connection as it begins, and for the bytes of such a frame as they come.
pub(crate) struct OtherConnections {
    heads: BTreeMap<u64, Heads>,
    frames: PreparedFrames,
}

impl OtherConnections {
    /// No connections.
    pub(crate) fn new() -> Result<Self, AllocError> {
        Ok(OtherConnections {
            heads: BTreeMap::new(),
            frames: PreparedFrames::new()?,
        })
    }

    /// The connection with this number begins. Where memory is refused, nothing changes.
    pub(crate) fn begin(&mut self, number: u64) -> Result<(), AllocError> {
        match self.heads.insert(number, Heads::new(true, false)) {
            Ok(_) => Ok(()),
            Err(_) => Err(AllocError),
        }
    }

    /// Takes what the responses of a connection deliver, with their bytes: what is known of statements changes by that.
    pub(crate) fn hear(
        &mut self,
        number: u64,
        step: StreamStep,
        bytes: &[u8],
        others: &mut OtherTypes,
    ) -> Result<(), NoMemory> {
        match self.heads.get_mut(&number) {
            Some(heads) => hear_in(heads, &mut self.frames, others, number, step, bytes),
            None => Ok(()),
        }
    }

    /// The connection with this number leaves.
    pub(crate) fn leave(&mut self, number: u64) {
        let _ = self.heads.remove(&number);
        let _ = self.frames.end(number);
    }
}

/// Takes what the responses of this connection deliver.
fn hear_in(
    heads: &mut Heads,
    frames: &mut PreparedFrames,
    others: &mut OtherTypes,
    number: u64,
    step: StreamStep,
    bytes: &[u8],
) -> Result<(), NoMemory> {
    match step {
        StreamStep::Began { syn } => {
            *heads = Heads::new(true, syn);
            let _ = frames.end(number);
            Ok(())
        }
        StreamStep::Payload { from, .. } => {
            hear_bytes(heads, frames, others, number, from == 0, bytes)
        }
        StreamStep::Held { begins, .. } => {
            hear_bytes(heads, frames, others, number, begins, bytes)
        }
        StreamStep::Gap { length, .. } => {
            let _ = heads.gap(length, None);
            let _ = frames.end(number);
            Ok(())
        }
        StreamStep::Ended | StreamStep::Reset => {
            let _ = heads.end();
            let _ = frames.end(number);
            Ok(())
        }
        StreamStep::Kept | StreamStep::Done => Ok(()),
    }
}

/// Takes bytes, the first of which begins a segment or not.
fn hear_bytes(
    heads: &mut Heads,
    frames: &mut PreparedFrames,
    others: &mut OtherTypes,
    number: u64,
    begins: bool,
    bytes: &[u8],
) -> Result<(), NoMemory> {
    let mut unread = Unread::new(bytes, begins);
    while unread.steps > 0 {
        let HeardStep { used, heard } = heads.take(unread.bytes, None, unread.begins);
        take_heard(frames, others, number, heard, &unread.bytes[..used])?;
        if is_done(heard) {
            return Ok(());
        }
        unread = unread.after(used);
    }
    Ok(())
}

/// Takes what bytes are.
fn take_heard(
    frames: &mut PreparedFrames,
    others: &mut OtherTypes,
    number: u64,
    heard: Heard,
    bytes: &[u8],
) -> Result<(), NoMemory> {
    match heard {
        Heard::Begins(header) => Ok(frames.begin(number, &header)?),
        Heard::Body => Ok(frames.grow(number, bytes)?),
        Heard::Ends(_) => match frames.end(number) {
            Some(frame) => others.learn(frame.bytes()),
            None => Ok(()),
        },
        Heard::Stray => {
            let _ = frames.end(number);
            Ok(())
        }
        Heard::More => Ok(()),
    }
}

/// Whether nothing more is reported of a piece.
fn is_done(heard: Heard) -> bool {
    match heard {
        Heard::More => true,
        Heard::Begins(_) | Heard::Body | Heard::Ends(_) | Heard::Stray => false,
    }
}
