// Written by dist/erase from crates/cqlp_observer/src/pairing.rt.
//! Which requests wait for their responses, and which responses for their requests.

use crate::cqlp_observer::frame_record::MessageRecord;
use crate::cqlp_observer::message::SeenMessage;
use crate::cqlp_observer::paired::Paired;
use crate::kit_std::alloc::{AllocError};
use crate::kit_std::collections::VecDeque;

/// The messages of one connection that wait for the other of their exchange: requests for their responses, and responses that came before
/// their requests.
///
/// It takes the frames of both directions in the order in which they ended, and reports of each request which response it has: the next under
/// its stream id, or the one before it under that id, if that still waits and the request was begun no later by the capture's times. It has no
/// limit of its own: who calls it says of each message whether there is room for one more. It has memory for at most four times as many messages as
/// wait, and none where none does.
pub struct Pairing<T> {
    /// The messages that wait, the one under the least stream id first.
    waiting: VecDeque<MessageRecord<T>>,
}

/// What becomes of the next message.
#[derive(Clone, Copy)]
pub(crate) enum Fate {
    /// It is an event, which is reported at once.
    IsReported,
    /// It and the one that waits under its stream id are a request and its response.
    Meets,
    /// It waits, in the place of the one under its stream id, if one does.
    Waits,
    /// It is reported alone, since none waits under its stream id and there is no room.
    IsOvertaken,
}

impl<T> Pairing<T> {
    /// No message waits. Takes no memory.
    ///
    /// # Errors
    ///
    /// None: callers need not know that.
    pub fn new() -> Result<Self, AllocError> {
        Ok(Pairing {
            waiting: VecDeque::new(),
        })
    }

    /// How many messages wait.
    #[inline(always)]
    #[must_use]
    pub fn len(&self) -> usize {
        self.waiting.len()
    }

    /// Whether none waits.
    #[must_use]
    pub fn is_empty(&self) -> bool {
        self.waiting.len() == 0
    }

    /// Where the message under a stream id waits, or where it would.
    #[inline(always)]
    pub(crate) fn place(&self, id: i16) -> Result<usize, usize> {
        place_in(&self.waiting, id)
    }

    /// The message that waits under the stream id of a place.
    #[inline(always)]
    pub(crate) fn at(&self, place: Result<usize, usize>) -> Option<&MessageRecord<T>> {
        match place {
            Ok(at) => self.waiting.get(at),
            Err(_) => None,
        }
    }

    /// Whether `take` reports this message alone for want of room: none waits under its stream id, and there is no room for one more.
    #[must_use]
    pub fn overtakes(&self, message: &SeenMessage<T>, has_room: bool) -> bool {
        let place = self.place(message.stream());
        is_overtaken(fate_of(self.at(place), message, has_room))
    }

    /// Takes the next frame of either direction. If it and the one that waits under its stream id are a request and its response, that
    /// exchange is reported.
    ///
    /// Else it takes the place of that one, and what is reported is that the other of its exchange was not seen. Where none waits under its id, and there
    /// is no room for one more, it is itself reported alone.
    ///
    /// # Errors
    ///
    /// Memory that is refused: then the message is lost, and no other waits under its id.
    pub fn take(
        &mut self,
        message: SeenMessage<T>,
        has_room: bool,
    ) -> Result<Option<Paired<T>>, AllocError> {
        let place = self.place(message.stream());
        let mut reported = None;
        self.take_at(place, message, has_room, &mut reported)?;
        Ok(reported)
    }

    /// Takes the next frame as `take` does, whose place is known. What is reported is written where nothing is yet: it is large, and is moved as
    /// seldom as can be.
    #[inline(always)]
    pub(crate) fn take_at(
        &mut self,
        place: Result<usize, usize>,
        message: SeenMessage<T>,
        has_room: bool,
        reported: &mut Option<Paired<T>>,
    ) -> Result<(), AllocError> {
        if message.is_event() {
            *reported = Some(Paired::Event { event: message });
            return Ok(());
        }
        match place {
            Ok(at) => {
                self.meet(at, message, reported);
                Ok(())
            }
            Err(at) if has_room => {
                self.waiting.insert(at, MessageRecord::new(message))?;
                Ok(())
            }
            Err(_) => {
                report_alone(message, reported);
                Ok(())
            }
        }
    }

    /// Where no more frames come: the message under the least stream id, which waits no more. `None` once none waits.
    pub fn end(&mut self) -> Option<Paired<T>> {
        match self.waiting.pop_front() {
            Some(message) => Some(Paired::alone(message.into_message())),
            None => None,
        }
    }

    /// A message comes after the one at a place, which waited under its stream id.
    #[inline(always)]
    fn meet(&mut self, at: usize, second: SeenMessage<T>, reported: &mut Option<Paired<T>>) {
        if self.waiting[at].meets(&second) {
            let Some(first) = self.waiting.remove(at) else {
                return;
            };
            self.shrink();
            report_exchange(first.into_message(), second, reported);
        } else {
            let first = core::mem::replace(&mut self.waiting[at], MessageRecord::new(second));
            report_alone(first.into_message(), reported);
        }
    }

    /// Gives memory back, where no more than a quarter of it is needed.
    fn shrink(&mut self) {
        let len = self.waiting.len();
        if len <= self.waiting.capacity() / 4 {
            self.waiting.shrink_to(2 * len);
        }
    }
}

/// Reports a message that is in no exchange.
#[inline(always)]
fn report_alone<T>(message: SeenMessage<T>, reported: &mut Option<Paired<T>>) {
    *reported = Some(Paired::alone(message));
}

/// Reports a request and its response, whichever came first.
#[inline(always)]
fn report_exchange<T>(first: SeenMessage<T>, second: SeenMessage<T>, reported: &mut Option<Paired<T>>) {
    if first.is_request() {
        *reported = Some(Paired::Exchange {
            request: first,
            response: second,
        });
    } else {
        *reported = Some(Paired::Exchange {
            request: second,
            response: first,
        });
    }
}

/// Where the message under a stream id waits, or where it would.
#[inline(always)]
fn place_in<T>(
    waiting: &VecDeque<MessageRecord<T>>,
    id: i16,
) -> Result<usize, usize> {
    waiting.binary_search_by_key(&id, |message| message.stream())
}

/// What becomes of a message after the one that waits under its stream id, if one does, where there is room for one more that waits, or none.
#[inline(always)]
pub(crate) fn fate_of<T>(
    first: Option<&MessageRecord<T>>,
    message: &SeenMessage<T>,
    has_room: bool,
) -> Fate {
    if message.is_event() {
        return Fate::IsReported;
    }
    match first {
        Some(first) => fate_after(first, message),
        None => fate_alone(has_room),
    }
}

/// What becomes of a message after one that waits under its stream id.
#[inline(always)]
fn fate_after<T>(first: &MessageRecord<T>, second: &SeenMessage<T>) -> Fate {
    if first.meets(second) {
        Fate::Meets
    } else {
        Fate::Waits
    }
}

/// What becomes of a message under whose stream id none waits.
#[inline(always)]
fn fate_alone(has_room: bool) -> Fate {
    if has_room {
        Fate::Waits
    } else {
        Fate::IsOvertaken
    }
}

/// Whether a message is reported alone for want of room.
fn is_overtaken(fate: Fate) -> bool {
    match fate {
        Fate::IsOvertaken => true,
        Fate::IsReported | Fate::Meets | Fate::Waits => false,
    }
}
