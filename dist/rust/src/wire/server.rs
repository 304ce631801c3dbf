//! The server's side of a connection, without its socket.

use alloc::string::ToString;
use core::fmt;
#[cfg(feature = "std")]
use std::io::{self, ErrorKind, Read, Write};

use crate::cqlp_encode::encode;
#[cfg(feature = "std")]
use crate::cqlp_message::Unfit;
use crate::cqlp_message::{Frame, Message, Spec};
use crate::cqlp_session::Server;
use crate::names::ErrorCode;
use crate::rows::RowWriter;
#[cfg(feature = "std")]
use crate::rows::{ToRow, row_size};
use crate::wire::client::next_header;
use crate::wire::fault::WireError;
use crate::wire::frames::{FrameReader, Outbox};
use crate::wire::inbox::Inbox;

/// The server's side of a connection: the bytes that come become requests, and replies become bytes to send. It does no input or output.
/// A request that is refused gets its ERROR, by which drivers of other versions try version 4, and the connection is to be closed once
/// that is sent.
///
/// ```
/// use cqlp::frame::{Frame, Message};
/// use cqlp::wire::ServerSide;
///
/// let mut server = ServerSide::new(1 << 20)?;
/// server.inbox().push(&Frame::plain(3, Message::startup()).to_bytes()?)?;
/// while let Some(request) = server.hear()? {
///     assert_eq!(request.message, Message::startup());
///     server.answer(&Frame::plain(request.stream, Message::Ready))?;
/// }
/// assert_eq!(server.outbox().bytes(), [0x84, 0, 0, 3, 2, 0, 0, 0, 0]);
/// # Ok::<(), cqlp::wire::WireError>(())
/// ```
pub struct ServerSide {
    core: Server,
    reader: FrameReader,
    inbox: Inbox,
    outbox: Outbox,
}

impl fmt::Debug for ServerSide {
    fn fmt(&self, f: &mut fmt::Formatter<'_>) -> fmt::Result {
        f.debug_struct("ServerSide").field("inbox", &self.inbox).finish_non_exhaustive()
    }
}

impl ServerSide {
    /// A connection on which nothing came. Requests with bodies of more than `longest` bytes are refused.
    ///
    /// # Errors
    ///
    /// Memory that is refused.
    pub fn new(longest: u32) -> Result<ServerSide, WireError> {
        const SLOTS: u16 = 32_768;
        let (core, reader) = (Server::new(SLOTS)?, FrameReader::new()?);
        Ok(ServerSide { core, reader, inbox: Inbox::new(longest), outbox: Outbox::default() })
    }

    /// What came and was not heard yet.
    pub fn inbox(&mut self) -> &mut Inbox {
        &mut self.inbox
    }

    /// What was answered and not sent yet.
    pub fn outbox(&mut self) -> &mut Outbox {
        &mut self.outbox
    }

    /// The next request that came whole. None where more has to come.
    ///
    /// # Errors
    ///
    /// Why the request is refused. Its ERROR is in the outbox then, to be sent before the connection is closed.
    pub fn hear(&mut self) -> Result<Option<Frame>, WireError> {
        let header = match next_header(&mut self.inbox) {
            Ok(Some(header)) => header,
            Ok(None) => return Ok(None),
            Err(why) => return Err(self.refuse(why)),
        };
        let accepted = self.core.accept(&header).map_err(WireError::from);
        match accepted.and_then(|_| self.reader.read(self.inbox.bytes_of_last())) {
            Ok(request) => Ok(Some(request)),
            Err(why) => {
                let error = Frame::plain(header.stream, protocol_error(&why));
                Err(self.end_by(&error, why))
            }
        }
    }

    /// Answers a request by a reply under its stream id.
    ///
    /// # Errors
    ///
    /// [`WireError::Answer`] where it answers none that is open, and [`WireError::Unfit`] where no bytes spell it.
    pub fn answer(&mut self, reply: &Frame) -> Result<(), WireError> {
        if let Some(why) = reply.unfit() {
            return Err(WireError::Unfit(why));
        }
        self.core.answer(reply.stream, reply.message.opcode())?;
        Ok(encode(reply, &mut self.outbox).map(drop)?)
    }

    /// Begins to answer a request by a page whose rows come one by one, each of which goes to the outbox: so a page of any size is sent
    /// with little of it held. `page` has no cells, and all rows together have `cells_len` bytes, as
    /// [`row_size`](crate::rows::row_size) counts them. `specs` are the columns, also where the page does not describe them.
    ///
    /// # Errors
    ///
    /// As [`ServerSide::answer`].
    pub fn answer_rows<'p>(&mut self, page: &'p Frame, specs: &'p [Spec], cells_len: u32) -> Result<RowWriter<'p>, WireError> {
        if let Some(why) = page.page_unfit(cells_len) {
            return Err(WireError::Unfit(why));
        }
        self.core.answer(page.stream, page.message.opcode())?;
        Ok(RowWriter::begin(page, specs, cells_len, &mut self.outbox)?)
    }

    /// Answers each request of a connection until the client ends it, and sends what is answered. `answer` is called with the connection
    /// and the request, and calls [`answer`](ServerSide::answer) or [`send_rows`](ServerSide::send_rows), at once or later.
    ///
    /// # Errors
    ///
    /// Those of the stream and of `answer`; and why a request is refused, once its ERROR is sent.
    #[cfg(feature = "std")]
    pub fn serve<S: Read + Write, E: From<io::Error> + From<WireError>>(
        &mut self,
        stream: &mut S,
        mut answer: impl FnMut(&mut ServerSide, &mut S, Frame) -> Result<(), E>,
    ) -> Result<(), E> {
        loop {
            match self.inbox.receive(&mut *stream) {
                Ok(0) => return Ok(()),
                Err(fault) if fault.kind() == ErrorKind::Interrupted => continue,
                received => received?,
            };
            let heard = loop {
                match self.hear() {
                    Ok(Some(request)) => answer(self, stream, request)?,
                    end => break end,
                }
            };
            self.outbox.send(&mut *stream)?;
            heard?;
        }
    }

    /// Answers a request by a page of these rows, which goes out as they are made: at most 64 KiB and a row are held of it. The length of
    /// a page comes first, so all rows are made twice.
    ///
    /// # Errors
    ///
    /// As [`answer_rows`](ServerSide::answer_rows), where nothing was sent; [`WireError::Bind`] of a row that is none of the columns, and
    /// errors of the stream, after which the connection is of no more use unless it is the first row.
    #[cfg(feature = "std")]
    pub fn send_rows<R: ToRow, E: From<io::Error> + From<WireError>>(
        &mut self,
        mut to: impl Write,
        page: &Frame,
        specs: &[Spec],
        rows: impl Iterator<Item = R> + Clone,
    ) -> Result<(), E> {
        const CHUNK: usize = 64 << 10;
        let mut len = 0_u64;
        for row in rows.clone() {
            len = len.saturating_add(row_size(specs, &row).map_err(WireError::from)?);
        }
        let len = u32::try_from(len).map_err(|_| WireError::Unfit(Unfit::BodyTooLong))?;
        let mut writer = self.answer_rows(page, specs, len)?;
        for row in rows {
            writer.row(&row, &mut self.outbox).map_err(WireError::from)?;
            if self.outbox.bytes().len() >= CHUNK {
                self.outbox.send(&mut to)?;
            }
        }
        writer.finish().map_err(WireError::from)?;
        Ok(())
    }

    /// Refuses what came, by an ERROR under the stream id of its header.
    fn refuse(&mut self, why: WireError) -> WireError {
        let error = match &why {
            WireError::Foreign { header, .. } if header.version != 4 => header.version_error(),
            WireError::Foreign { header, .. } | WireError::TooLong { header, .. } => Ok(Frame::plain(header.stream, protocol_error(&why))),
            _ => return why,
        };
        match error {
            Ok(error) => self.end_by(&error, why),
            Err(_) => why,
        }
    }

    /// Puts the ERROR that ends the connection into the outbox, as far as there is memory for it.
    fn end_by(&mut self, error: &Frame, why: WireError) -> WireError {
        let len = self.outbox.bytes().len();
        if encode(error, &mut self.outbox).is_err() {
            self.outbox.cut(len);
        }
        why
    }
}

fn protocol_error(why: &WireError) -> Message {
    Message::error(ErrorCode::ProtocolError, &why.to_string())
}
