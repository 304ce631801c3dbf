//! The client's side of a connection, without its socket.

use core::fmt;
#[cfg(feature = "std")]
use std::io::{self, ErrorKind, Read, Write};

use crate::cqlp_decode::Decoder;
use crate::cqlp_encode::encode;
use crate::cqlp_grammar::SinkFault;
use crate::cqlp_message::{Frame, Message};
use crate::cqlp_note::Header;
use crate::cqlp_session::{ClientOf, ReplyOf, RequestKind, Ticket};
use crate::rows::{FromRow, RowError, RowSink};
use crate::wire::fault::WireError;
use crate::wire::frames::Outbox;
use crate::wire::inbox::{Arrival, Inbox};

/// A response that came.
#[derive(Clone, Copy, Debug, PartialEq, Eq)]
#[non_exhaustive]
pub enum Response<C> {
    /// The reply to a request, with what the request carries.
    Reply {
        /// The header of the reply.
        header: Header,
        /// What was asked.
        kind: RequestKind,
        /// What [`ClientSide::ask`] was given with the request.
        carried: C,
    },
    /// An EVENT, for which a REGISTER asked.
    Event {
        /// Its header.
        header: Header,
    },
}

/// The client's side of a connection: requests become bytes to send, as many at a time as there are slots, and the bytes that come become
/// replies, each with what its request carries. It does no input or output, so that the same code serves a socket that waits, one that
/// does not, and a runtime with tasks:
///
/// ```
/// use cqlp::frame::{Message, QueryParams};
/// use cqlp::wire::{ClientSide, Response};
/// use cqlp::{Consistency, Header, Opcode};
///
/// let mut client = ClientSide::new(128)?;
/// client.ask(Message::startup(), "startup")?;
/// // stream.write_all(client.outbox().bytes()).await?;
/// let count = client.outbox().bytes().len();
/// client.outbox().sent(count);
///
/// // let count = stream.read(client.inbox().room()?).await?; client.inbox().filled(count);
/// client.inbox().push(&[0x84, 0, 0, 0, 2, 0, 0, 0, 0])?;
/// while let Some(heard) = client.hear()? {
///     let Response::Reply { header, carried, .. } = heard else { continue };
///     assert_eq!((header.opcode, carried, client.frame().len()), (Opcode::Ready, "startup", 9));
/// }
/// client.ask(Message::query("SELECT now() FROM system.local", QueryParams::new(Consistency::One)), "now")?;
/// # Ok::<(), cqlp::wire::WireError>(())
/// ```
pub struct ClientSide<C> {
    core: ClientOf<C>,
    inbox: Inbox,
    outbox: Outbox,
    /// What the request carries whose reply is heard as it comes.
    heard_in_part: Option<C>,
}

impl<C> fmt::Debug for ClientSide<C> {
    fn fmt(&self, f: &mut fmt::Formatter<'_>) -> fmt::Result {
        f.debug_struct("ClientSide").field("inbox", &self.inbox).finish_non_exhaustive()
    }
}

impl<C> ClientSide<C> {
    /// A connection on which nothing was sent, with so many slots: how many requests may be open at a time, 1 to 32,768. Replies of all
    /// lengths that version 4 allows are gathered.
    ///
    /// # Errors
    ///
    /// [`WireError::Slots`] and [`WireError::NoMemory`].
    pub fn new(slots: u16) -> Result<ClientSide<C>, WireError> {
        ClientSide::with_longest(slots, Header::LONGEST_BODY)
    }

    /// The same, where replies with bodies of more than `longest` bytes are an error.
    ///
    /// # Errors
    ///
    /// As [`ClientSide::new`].
    pub fn with_longest(slots: u16, longest: u32) -> Result<ClientSide<C>, WireError> {
        Ok(ClientSide { core: ClientOf::new(slots)?, inbox: Inbox::new(longest), outbox: Outbox::default(), heard_in_part: None })
    }

    /// What came and was not heard yet.
    pub fn inbox(&mut self) -> &mut Inbox {
        &mut self.inbox
    }

    /// What was asked and not sent yet.
    pub fn outbox(&mut self) -> &mut Outbox {
        &mut self.outbox
    }

    /// Makes a request, whose bytes are in the outbox then. The reply comes with `carried`.
    ///
    /// # Errors
    ///
    /// [`WireError::NoRequest`] and [`WireError::Unfit`] of a message that is none; [`WireError::Begin`] where all slots are taken, or no
    /// such request may come now; and [`WireError::NoMemory`], after which the connection is of no more use.
    pub fn ask(&mut self, message: Message, carried: C) -> Result<Ticket, WireError> {
        let kind = RequestKind::from_opcode(message.opcode()).ok_or(WireError::NoRequest)?;
        let mut frame = Frame::plain(0, message);
        if let Some(why) = frame.unfit() {
            return Err(WireError::Unfit(why));
        }
        let ticket = self.core.begin(kind, carried).map_err(|refused| refused.why)?;
        frame.stream = ticket.id;
        encode(&frame, &mut self.outbox)?;
        Ok(ticket)
    }

    /// Gives up a request, whose reply is passed over then. Answers whether it was open, and may be given up.
    pub fn cancel(&mut self, ticket: Ticket) -> bool {
        self.core.cancel(ticket)
    }

    /// The next response that came whole. None where more has to come.
    ///
    /// # Errors
    ///
    /// [`WireError::Foreign`], [`WireError::TooLong`] and [`WireError::Stray`]. The connection is of no more use then.
    pub fn hear(&mut self) -> Result<Option<Response<C>>, WireError> {
        loop {
            let Some(header) = next_header(&mut self.inbox)? else { return Ok(None) };
            match self.core.reply(&header)? {
                ReplyOf::Answer { kind, carried, .. } => return Ok(Some(Response::Reply { header, kind, carried })),
                ReplyOf::ServerEvent => return Ok(Some(Response::Event { header })),
                ReplyOf::Dropped { .. } => {}
            }
        }
    }

    /// The bytes of the response that was heard last, its header first: until more is heard or received.
    #[must_use]
    pub fn frame(&self) -> &[u8] {
        self.inbox.bytes_of_last()
    }

    /// The next reply as its bytes come, of any size: its rows go to a sink, and nothing of it is gathered. None where more has to come,
    /// else what its request carries. The decoder is one that reads nothing else; where pages come without metadata, it is given the
    /// types of the columns, and the sink their names. Events and replies to requests that were given up are passed over.
    ///
    /// # Errors
    ///
    /// As [`ClientSide::hear`]; and [`WireError::Row`], as [`RowSink::feed`]: of the errors only [`RowError::Server`], for an ERROR, leaves
    /// the connection as it was.
    pub fn hear_rows<T, F>(&mut self, decoder: &mut Decoder, rows: &mut RowSink<T, F>) -> Result<Option<C>, WireError>
    where
        T: for<'a> FromRow<'a>,
        F: FnMut(T) -> Result<(), SinkFault>,
    {
        loop {
            let is_new = !self.inbox.is_passing();
            let Some(Arrival::Passing(header)) = self.inbox.advance(|_| false) else { return Ok(None) };
            if is_new {
                let header = header.to_header().map_err(|why| WireError::Foreign { header, why })?;
                if let ReplyOf::Answer { carried, .. } = self.core.reply(&header)? {
                    self.heard_in_part = Some(carried);
                }
            }
            if self.heard_in_part.is_none() {
                continue;
            }
            rows.feed(decoder, self.inbox.bytes_of_last())?;
            if self.inbox.is_passing() {
                continue;
            }
            let carried = self.heard_in_part.take();
            return match &rows.head().error {
                Some((code, message)) => Err(RowError::Server { code: *code, message: message.clone() }.into()),
                None => Ok(carried),
            };
        }
    }
}

/// With the socket: each call sends what was asked, and waits.
#[cfg(feature = "std")]
impl<C> ClientSide<C> {
    /// The next response, as [`hear`](ClientSide::hear). None where the connection ends between two frames.
    ///
    /// # Errors
    ///
    /// Those of [`ClientSide::hear`] and of the stream, and `UnexpectedEof` where it ends within a frame.
    pub fn wait(&mut self, stream: &mut (impl Read + Write)) -> io::Result<Option<Response<C>>> {
        self.wait_by(stream, Self::hear)
    }

    /// The next reply, as [`hear_rows`](ClientSide::hear_rows). None where the connection ends between two frames.
    ///
    /// # Errors
    ///
    /// Those of [`ClientSide::hear_rows`] and of the stream, and `UnexpectedEof` where it ends within a frame.
    pub fn wait_rows<T, F>(
        &mut self,
        stream: &mut (impl Read + Write),
        decoder: &mut Decoder,
        rows: &mut RowSink<T, F>,
    ) -> io::Result<Option<C>>
    where
        T: for<'a> FromRow<'a>,
        F: FnMut(T) -> Result<(), SinkFault>,
    {
        self.wait_by(stream, |side| side.hear_rows(decoder, rows))
    }

    fn wait_by<T>(
        &mut self,
        stream: &mut (impl Read + Write),
        mut hear: impl FnMut(&mut Self) -> Result<Option<T>, WireError>,
    ) -> io::Result<Option<T>> {
        self.outbox.send(&mut *stream)?;
        loop {
            if let Some(heard) = hear(self).map_err(io::Error::other)? {
                return Ok(Some(heard));
            }
            match self.inbox.receive(&mut *stream) {
                Ok(0) if self.inbox.rest().is_empty() && !self.inbox.is_passing() => return Ok(None),
                Ok(0) => return Err(ErrorKind::UnexpectedEof.into()),
                Ok(_) => {}
                Err(fault) if fault.kind() == ErrorKind::Interrupted => {}
                Err(fault) => return Err(fault),
            }
        }
    }
}

/// The header of the next frame, once all of it came.
pub(crate) fn next_header(inbox: &mut Inbox) -> Result<Option<Header>, WireError> {
    // A header that is refused does not wait for its body.
    match inbox.advance(|header| header.to_header().is_ok()) {
        None => Ok(None),
        Some(Arrival::Frame(header)) => Ok(Some(header.to_header()?)),
        Some(Arrival::Passing(header)) => match header.to_header() {
            Ok(_) => Err(WireError::TooLong { header, longest: inbox.longest() }),
            Err(why) => Err(WireError::Foreign { header, why }),
        },
    }
}
