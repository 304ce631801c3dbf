// Written by dist/erase from crates/cqlp_capture/src/reader.rt.
//! The reader of captures.

use crate::cqlp_capture::block::{Block, may_have_length};
use crate::cqlp_capture::event::{CaptureEnd, CaptureEvent, CaptureStep, EventOutline};
use crate::cqlp_capture::file::ByteOrder;
use crate::cqlp_capture::gathered::{BytesPlace, GatheredBytes};
use crate::cqlp_capture::interfaces::{InterfaceTable, TableChange};
use crate::cqlp_capture::limits::CaptureLimits;
use crate::cqlp_capture::pcap::read_packet;
use crate::cqlp_capture::pcapng::{read_enhanced, room_after};
use crate::cqlp_capture::place::{FARTHEST, Place, RecordForm, Stage};
use crate::cqlp_capture::refusal::{CaptureRefusal, NewReaderError};

/// What one step makes of the input.
#[derive(Clone, Copy)]
pub(crate) enum StepTaken {
    /// All of the input was used, and more is wanted.
    More,
    /// This many bytes of the input were used, and no event was emitted.
    Passed {
        used: usize,
    },
    /// An event at an offset, which ends after this many bytes of the input; the bytes that it is made of lie there.
    Event {
        at: u64,
        used: usize,
        what: EventOutline,
        lies: BytesPlace,
    },
    Refused(CaptureRefusal),
}

/// What one call makes of the input, with nothing borrowed.
#[derive(Clone, Copy)]
pub(crate) enum CaptureAdvance {
    /// All of the input was used, and more is wanted.
    More {
        used: usize,
    },
    /// An event at an offset, which ends after `used` bytes of the input; the bytes that it is made of lie there, in the input
    /// after its first `from` bytes.
    Event {
        at: u64,
        from: usize,
        used: usize,
        what: EventOutline,
        lies: BytesPlace,
    },
    Refused(CaptureRefusal),
}

/// Reads a capture file, pcap or pcapng, one event per call, from pieces of any size. All its memory is taken when it is
/// made: room for the bytes of one packet, as many as the caller's limit says, into which a packet is copied that does not
/// lie whole in a piece, and for as many interfaces.
pub struct CaptureReader {
    limits: CaptureLimits,
    place: Place,
    interfaces: InterfaceTable,
    gathered: GatheredBytes,
    refusal: Option<CaptureRefusal>,
}

impl CaptureReader {
    /// A reader at the start of a file, with room for a packet of the greatest length that the limits allow and for as many
    /// interfaces as they allow: two requests for memory, and the only ones.
    ///
    /// # Errors
    ///
    /// Limits out of their ranges, and memory that is refused.
    #[cfg_attr(not(feature = "cli"), inline)]
    pub fn new(limits: CaptureLimits) -> Result<Self, NewReaderError> {
        if !limits.is_in_range() {
            return Err(NewReaderError::BadLimits);
        }
        let Ok(gathered) = GatheredBytes::new(limits.packet as usize) else {
            return Err(NewReaderError::NoMemory);
        };
        let Ok(interfaces) = InterfaceTable::new(limits.interfaces as usize) else {
            return Err(NewReaderError::NoMemory);
        };
        Ok(CaptureReader {
            limits,
            place: Place {
                offset: 0,
                stage: Stage::Magic,
            },
            interfaces,
            gathered,
            refusal: None,
        })
    }
}

impl CaptureReader {
    /// The next event that the input leads to. The caller hands in the bytes after those that were used, and goes on
    /// until more are wanted. A refusal is final: each later call says it again.
    #[cfg_attr(not(feature = "cli"), inline)]
    #[must_use]
    pub fn next<'a>(&'a mut self, input: &'a [u8]) -> CaptureStep<'a> {
        match self.advance(input) {
            CaptureAdvance::More { used } => CaptureStep::More { used },
            CaptureAdvance::Refused(refusal) => CaptureStep::Refused(refusal),
            CaptureAdvance::Event {
                at,
                from,
                used,
                what,
                lies,
            } => CaptureStep::Event {
                at,
                used,
                event: self.lend(&input[from..], what, lies),
            },
        }
    }

    /// How the file ends, if it ends after the bytes that were used.
    #[cfg_attr(not(feature = "cli"), inline)]
    #[must_use]
    pub fn finish(&self) -> CaptureEnd {
        if let Some(refusal) = self.refusal {
            return CaptureEnd::Refused(refusal);
        }
        let pending = self.gathered.pending();
        let bytes = self.place.offset + pending as u64;
        if self.place.is_between() && pending == 0 {
            CaptureEnd::Whole { bytes }
        } else {
            let at = self.place.began();
            CaptureEnd::Cut { at, bytes }
        }
    }

    /// Begins anew, at the start of another file. The memory is kept.
    #[cfg_attr(not(feature = "cli"), inline)]
    pub fn restart(&mut self) {
        self.interfaces.apply(TableChange::Forget);
        self.gathered.clear();
        self.place = Place {
            offset: 0,
            stage: Stage::Magic,
        };
        self.refusal = None;
    }

    /// The bytes of a packet that the reader has memory for: the limit on a packet, for as long as it lives.
    #[cfg_attr(not(feature = "cli"), inline)]
    #[must_use]
    pub fn capacity(&self) -> usize {
        self.gathered.capacity()
    }

    /// The interfaces that the reader has memory for: the limit on interfaces, for as long as it lives.
    #[cfg_attr(not(feature = "cli"), inline)]
    #[must_use]
    pub fn interface_capacity(&self) -> usize {
        self.interfaces.capacity()
    }

    /// The work of a call, with nothing borrowed in its result.
    #[cfg_attr(not(feature = "cli"), inline)]
    fn advance(&mut self, input: &[u8]) -> CaptureAdvance {
        if let Some(refusal) = self.refusal {
            return CaptureAdvance::Refused(refusal);
        }
        self.go_ahead(input)
    }

    /// The steps of a call, of a file that was not refused.
    #[cfg_attr(not(feature = "cli"), inline)]
    fn go_ahead(&mut self, input: &[u8]) -> CaptureAdvance {
        let mut from = 0;
        loop {
            match self.take_step(&input[from..]) {
                StepTaken::Passed { used } => from += used,
                StepTaken::More => return CaptureAdvance::More { used: input.len() },
                StepTaken::Refused(refusal) => return CaptureAdvance::Refused(refusal),
                StepTaken::Event {
                    at,
                    used,
                    what,
                    lies,
                } => {
                    return CaptureAdvance::Event {
                        at,
                        from,
                        used: from + used,
                        what,
                        lies,
                    };
                }
            }
        }
    }

    /// One step, or as many as the input has bytes of those that are passed over.
    #[inline]
    fn take_step(&mut self, input: &[u8]) -> StepTaken {
        match self.place.stage {
            Stage::RecordHead(form) => self.take_record_head(form, input),
            Stage::Data(form, size) => self.take_data(form, size, input),
            Stage::BlockHead(order) => self.take_block_head(order, input),
            Stage::EnhancedBody(block) => self.take_enhanced_body(block, input),
            Stage::BlockData(block, size) => self.take_block_data(block, size, input),
            Stage::Pass(block, until) => self.pass(block, until, input),
            Stage::BlockEnd(block) => self.take_block_end(block, input),
            _ => {
                // As in `take_rare`. Both call it, so that it stays out of line.
                let step = self.take_bytes(input);
                step
            }
        }
    }

    /// The header of a record. Where it lies whole in the input, and its packet is within the limit, nothing is gathered.
    #[inline]
    fn take_record_head(&mut self, form: RecordForm, input: &[u8]) -> StepTaken {
        let offset = self.place.offset;
        if self.gathered.pending() != 0 || input.len() < 16 || offset > FARTHEST {
            return self.take_rare(input);
        }
        let packet = read_packet(form, &input[..16]);
        if packet.captured > self.limits.packet {
            return self.take_rare(input);
        }
        self.gathered.clear();
        self.place = Place {
            offset: offset + 16,
            stage: Stage::Data(form, packet.captured),
        };
        StepTaken::Event {
            at: offset,
            used: 16,
            what: EventOutline::Packet(packet),
            lies: BytesPlace::InInput { len: 16 },
        }
    }

    /// The bytes of a record's packet. Where they lie whole in the input, nothing is gathered.
    #[inline]
    fn take_data(&mut self, form: RecordForm, size: u32, input: &[u8]) -> StepTaken {
        let used = size as usize;
        if self.gathered.pending() != 0 || input.len() < used {
            return self.take_rare(input);
        }
        let offset = self.place.offset;
        self.gathered.clear();
        self.place = Place {
            offset: offset + size as u64,
            stage: Stage::RecordHead(form),
        };
        StepTaken::Event {
            at: offset,
            used,
            what: EventOutline::Data,
            lies: BytesPlace::InInput { len: used },
        }
    }

    /// The type and the length of a block. Where they lie whole in the input, and are those of an enhanced packet, which has the type 6 and at
    /// least 32 bytes, nothing is gathered.
    #[inline]
    fn take_block_head(&mut self, order: ByteOrder, input: &[u8]) -> StepTaken {
        let start = self.place.offset;
        if self.gathered.pending() != 0 || input.len() < 8 || start > FARTHEST {
            return self.take_rare(input);
        }
        let bytes = &input[..8];
        let length = order.read_u32(bytes, 4);
        if order.read_u32(bytes, 0) != 6 || !may_have_length(32, length) {
            return self.take_rare(input);
        }
        self.gathered.clear();
        self.place = Place {
            offset: start + 8,
            stage: Stage::EnhancedBody(Block {
                order,
                start,
                length,
                interface: None,
            }),
        };
        StepTaken::Passed { used: 8 }
    }

    /// The numbers of an enhanced packet. Where they lie whole in the input, and the packet can be read, nothing is gathered.
    #[inline]
    fn take_enhanced_body(&mut self, block: Block, input: &[u8]) -> StepTaken {
        if self.gathered.pending() != 0 || input.len() < 20 {
            return self.take_rare(input);
        }
        let Some(packet) = read_enhanced(self.interfaces.known(), block.order, &input[..20]) else {
            return self.take_rare(input);
        };
        let offset = self.place.offset + 20;
        if packet.captured as u64 > room_after(block, offset)
            || packet.captured > self.limits.packet
        {
            return self.take_rare(input);
        }
        self.gathered.clear();
        self.place = Place {
            offset,
            stage: Stage::BlockData(block, packet.captured),
        };
        StepTaken::Event {
            at: block.start,
            used: 20,
            what: EventOutline::Packet(packet),
            lies: BytesPlace::InInput { len: 20 },
        }
    }

    /// The bytes of a block's packet. Where they lie whole in the input, nothing is gathered.
    #[inline]
    fn take_block_data(&mut self, block: Block, size: u32, input: &[u8]) -> StepTaken {
        let used = size as usize;
        if self.gathered.pending() != 0 || input.len() < used {
            return self.take_rare(input);
        }
        let at = self.place.offset;
        let end = at + size as u64;
        self.gathered.clear();
        self.place = Place {
            offset: end,
            stage: block.passing(end, block.end()),
        };
        StepTaken::Event {
            at,
            used,
            what: EventOutline::Data,
            lies: BytesPlace::InInput { len: used },
        }
    }

    /// The second length of a block. Where it lies whole in the input and equals the first, and the block is about no interface, nothing is
    /// gathered.
    #[inline]
    fn take_block_end(&mut self, block: Block, input: &[u8]) -> StepTaken {
        if self.gathered.pending() != 0 || input.len() < 4 {
            return self.take_rare(input);
        }
        let None = block.interface else {
            return self.take_rare(input);
        };
        if block.order.read_u32(&input[..4], 0) != block.length {
            return self.take_rare(input);
        }
        self.gathered.clear();
        self.place = Place {
            offset: self.place.offset + 4,
            stage: Stage::BlockHead(block.order),
        };
        StepTaken::Passed { used: 4 }
    }

    /// One step that is not usual, out of line. The answer is copied out of a variable of its own: what a call writes through a pointer
    /// stays in memory, and the answers of the usual steps would be there with it.
    #[inline]
    fn take_rare(&mut self, input: &[u8]) -> StepTaken {
        let step = self.take_bytes(input);
        step
    }

    /// One step of any kind, whose bytes may come in pieces.
    #[cfg_attr(not(feature = "cli"), inline)]
    fn take_bytes(&mut self, input: &[u8]) -> StepTaken {
        let Some(found) = self.gathered.gather(self.place.stage.wanted(), input) else {
            return StepTaken::More;
        };
        let bytes = self.gathered.lend(input, found.lies);
        match self
            .place
            .read(&self.limits, self.interfaces.known(), bytes)
        {
            Ok(emission) => {
                self.place = emission.place;
                self.interfaces.apply(emission.change);
                match emission.what {
                    None => StepTaken::Passed { used: found.used },
                    Some(what) => StepTaken::Event {
                        at: emission.at,
                        used: found.used,
                        what,
                        lies: found.lies,
                    },
                }
            }
            Err(refusal) => {
                self.gathered.clear();
                self.refusal = Some(refusal);
                StepTaken::Refused(refusal)
            }
        }
    }

    /// Passes over bytes of a block up to an offset, as many as the input has.
    #[cfg_attr(not(feature = "cli"), inline)]
    fn pass(&mut self, block: Block, until: u64, input: &[u8]) -> StepTaken {
        self.gathered.clear();
        if input.is_empty() {
            return StepTaken::More;
        }
        let left = until - self.place.offset;
        let used = left.min(input.len() as u64) as usize;
        let offset = self.place.offset + used as u64;
        self.place = Place {
            offset,
            stage: block.passing(offset, until),
        };
        StepTaken::Passed { used }
    }

    /// The event that `advance` made of this input.
    #[cfg_attr(not(feature = "cli"), inline)]
    fn lend<'a>(&'a self, input: &'a [u8], what: EventOutline, lies: BytesPlace) -> CaptureEvent<'a> {
        match what {
            EventOutline::Section(form) => CaptureEvent::Section(form),
            EventOutline::Interface(interface) => CaptureEvent::Interface(interface),
            EventOutline::Packet(packet) => CaptureEvent::Packet(packet),
            EventOutline::Data => CaptureEvent::Data(self.gathered.lend(input, lies)),
            EventOutline::Skipped(why) => CaptureEvent::Skipped(why),
        }
    }
}
