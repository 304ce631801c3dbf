// Written by dist/erase from crates/cqlp_compose/src/composer.rt.
//! The events of one frame, and its bytes.

use crate::kit_std::prelude::{KitVec, Vec};
use crate::cqlp_compose::memory::VecTarget;
use crate::cqlp_build::{BuildError, BuildLimits, FrameBuilder};
use crate::cqlp_encode::encode;
use crate::cqlp_grammar::Event;
use crate::cqlp_message::Frame;

/// Gathers the events of one frame, and writes the bytes of the frame that has them. Its header need not say how long its body is.
///
/// It owns what it holds: for each field as much as an event has, and the field's bytes, within the limits. A caller that makes a frame of
/// events need not know the type of its message:
///
/// ```text
/// composer.take(&Event::Frame(header))?;
/// composer.take(&Event::Text { field: Field::Query, text: "SELECT now() FROM system.local" })?;
/// composer.take(&Event::Short { field: Field::Consistency, value: 1 })?;
/// composer.take(&Event::Byte { field: Field::QueryFlags, value: 0 })?;
/// let bytes = composer.write()?;
/// ```
pub struct Composer {
    builder: FrameBuilder,
    /// Whether the end came.
    ended: bool,
}

impl Composer {
    /// A composer that no event came to, which asks for no memory yet.
    #[must_use]
    pub fn new(limits: BuildLimits) -> Composer {
        Composer {
            builder: FrameBuilder::new(limits),
            ended: false,
        }
    }

    /// Takes the next event of the frame: its header, then its fields, and its end, which need not come. The length in the header is not looked
    /// at, nor how many bytes the end says that there were after the last field.
    ///
    /// # Errors
    ///
    /// Those of [`FrameBuilder::take`], after which it is as it was: [`BuildError::Misplaced`] also after the end, and never
    /// [`BuildError::NoFrame`].
    pub fn take(&mut self, event: &Event<'_>) -> Result<(), BuildError> {
        if self.ended {
            return Err(BuildError::Misplaced);
        }
        match event {
            Event::End { extra } => self.end(*extra),
            _ => self.pass(event),
        }
    }

    /// A header or a field comes, or what is neither.
    fn pass(&mut self, event: &Event<'_>) -> Result<(), BuildError> {
        match self.builder.take(event) {
            // It is none, since no frame is built before its end.
            Ok(built) => {
                drop(built);
                Ok(())
            }
            Err(why) => Err(why),
        }
    }

    /// The end comes.
    fn end(&mut self, extra: u32) -> Result<(), BuildError> {
        let _ = extra;
        if self.builder.is_between() {
            return Err(BuildError::Misplaced);
        }
        self.ended = true;
        Ok(())
    }

    /// How many bytes of texts and contents may still come.
    #[must_use]
    pub fn room(&self) -> usize {
        self.builder.room()
    }

    /// The frame that has these events.
    ///
    /// # Errors
    ///
    /// Those of [`FrameBuilder::close`].
    pub fn close(self) -> Result<Frame, BuildError> {
        let Composer {
            mut builder,
            ended: _,
        } = self;
        builder.close()
    }

    /// Which of these events is the first that does not fit, counted from the header, which is 0, as [`FrameBuilder::misfit`] answers it. Where all fit it
    /// is how many came, without the end.
    ///
    /// # Errors
    ///
    /// [`BuildError::NoMemory`] where memory was refused.
    pub fn misfit(self) -> Result<usize, BuildError> {
        let Composer {
            mut builder,
            ended: _,
        } = self;
        builder.misfit()
    }

    /// Writes the frame that has these events: 9 to 268,435,465 bytes.
    ///
    /// # Errors
    ///
    /// Those of [`FrameBuilder::close`]; [`BuildError::NoMemory`] also where memory was refused for the bytes.
    pub fn write(self) -> Result<Vec<u8>, BuildError> {
        match self.close() {
            Ok(frame) => written(&frame),
            Err(why) => Err(why),
        }
    }
}

/// The bytes of a frame.
fn written(frame: &Frame) -> Result<Vec<u8>, BuildError> {
    let Ok(len) = frame.measure() else {
        unreachable!()
    };
    let Ok(room) = Vec::kit_with_capacity(len as usize) else {
        return Err(BuildError::NoMemory);
    };
    let mut target = VecTarget::new(room);
    match encode(frame, &mut target) {
        Ok(_) => Ok(target.into_bytes()),
        Err(_) => Err(BuildError::NoMemory),
    }
}
