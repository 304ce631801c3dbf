//! A connection: the requests of a client come in, and their replies go out.

use super::node::{Node, Reply};
use super::problem::Problem;
use cqlp::frame::{BuildLimits, Frame, FrameBuilder, encode};
use cqlp::session::Server;
use cqlp::{Decoder, Header, Limits, OfStd, Step};
use std::error::Error;
use std::io::{BufRead, BufReader, BufWriter, Read, Write};

pub type Result<T> = std::result::Result<T, Box<dyn Error + Send + Sync>>;

/// How many bytes the body of a request may have.
pub const LONGEST_BODY: u32 = 1_048_576;

/// How many fields a request may have, such as bound values and statements of a batch.
pub const MOST_FIELDS: u32 = 10_000;

/// How many stream ids a client may use: those from 0 on.
const STREAM_IDS: u16 = 32_768;

/// The version of the protocol, in the first byte of a header.
const VERSION: u8 = 4;

/// Requests have no columns, so the limits on types are the least.
const LIMITS: Limits = Limits { text: LONGEST_BODY, cell: LONGEST_BODY, entries: 1, depth: 1, types: false, parts: false };

/// A connection. Each request is answered before the next is read.
pub struct Connection<R, W: Write> {
    input: BufReader<R>,
    output: OfStd<BufWriter<W>>,
    decoder: Decoder,
    builder: FrameBuilder,
    /// Whether a request may come now.
    core: Server,
}

impl<R: Read, W: Write> Connection<R, W> {
    /// A connection whose client has sent nothing.
    pub fn new(input: R, output: W) -> Result<Self> {
        let limits = BuildLimits { fields: MOST_FIELDS, depth: 1, bytes: LONGEST_BODY };
        Ok(Connection {
            input: BufReader::new(input),
            output: OfStd::new(BufWriter::new(output)),
            decoder: Decoder::new(LIMITS)?,
            builder: FrameBuilder::new(limits),
            core: Server::new(STREAM_IDS)?,
        })
    }

    /// Answers the client's requests until it sends no more.
    ///
    /// # Errors
    ///
    /// Why the server refused a request, after an ERROR that names the reason, or why a read or a write failed.
    pub fn serve(&mut self, node: &Node) -> Result<()> {
        while let Some(header) = self.read_header()? {
            match self.read_request(&header) {
                Ok(request) => self.write(&node.answer(request.stream, request.message))?,
                Err(fault) => {
                    encode(&refusal(&header, &fault.to_string())?, &mut self.output)?;
                    self.output.inner.flush()?;
                    return Err(fault);
                }
            }
            if !has_whole_frame(self.input.buffer()) {
                self.output.inner.flush()?;
            }
        }
        Ok(())
    }

    /// Reads the next header. None where the client sends no more.
    fn read_header(&mut self) -> Result<Option<[u8; 9]>> {
        if self.input.fill_buf()?.is_empty() {
            return Ok(None);
        }
        let mut header = [0; 9];
        self.input.read_exact(&mut header)?;
        Ok(Some(header))
    }

    /// Reads the body of the request with this header, if it may come now.
    fn read_request(&mut self, bytes: &[u8; 9]) -> Result<Frame> {
        let header = Header::from_bytes(bytes)?;
        self.core.accept(&header)?;
        if header.length > LONGEST_BODY {
            return Err(format!("a request of more than {LONGEST_BODY} bytes").into());
        }
        let mut request = read_piece(&mut self.decoder, &mut self.builder, bytes)?;
        let mut left = header.length as usize;
        while left > 0 {
            let there = self.input.fill_buf()?;
            let piece = &there[..there.len().min(left)];
            if piece.is_empty() {
                return Err("the connection ended within a request".into());
            }
            request = read_piece(&mut self.decoder, &mut self.builder, piece)?;
            let used = piece.len();
            self.input.consume(used);
            left -= used;
        }
        request.ok_or_else(|| "a request without its end".into())
    }

    /// Writes a reply, which frees the stream id of its request.
    fn write(&mut self, reply: &Reply) -> Result<()> {
        let frame = reply.frame();
        self.core.answer(frame.stream, frame.message.opcode())?;
        match reply {
            Reply::Frame(frame) => encode(frame, &mut self.output).map(drop)?,
            Reply::Page(page) => page.write(&mut self.output)?,
        }
        Ok(())
    }
}

/// Reads a piece of a frame, and returns the frame if the piece is its last.
fn read_piece(decoder: &mut Decoder, builder: &mut FrameBuilder, piece: &[u8]) -> Result<Option<Frame>> {
    let (mut rest, mut built) = (piece, None);
    loop {
        match decoder.next(rest) {
            Step::Event { used, event, .. } => {
                rest = &rest[used..];
                built = builder.take(&event)?.map(|built| built.frame);
            }
            Step::More { .. } => return Ok(built),
            Step::Refused(refusal) => return Err(refusal.into()),
        }
    }
}

/// Whether the buffer has the whole next frame, so that reading it does not wait for the client.
fn has_whole_frame(buffer: &[u8]) -> bool {
    let header = buffer.first_chunk().and_then(|bytes| Header::from_bytes(bytes).ok());
    header.is_some_and(|header| buffer.len() - 9 >= header.length as usize)
}

/// The ERROR for a refused request with this header. For a request of another version it names version 4.
fn refusal(header: &[u8; 9], why: &str) -> Result<Frame> {
    if header[0] & 0x7f != VERSION {
        return Ok(Frame::version_error(header)?);
    }
    let stream = i16::from_be_bytes([header[2], header[3]]);
    Ok(Frame::plain(stream, Problem::protocol(why).into()))
}
