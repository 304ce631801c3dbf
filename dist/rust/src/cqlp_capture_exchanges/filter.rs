// Written by dist/erase from crates/cqlp_capture_exchanges/src/filter.rt.
//! Which exchanges are shown.

use crate::cqlp_capture_exchanges::connection::Connection;
use crate::cqlp_capture_exchanges::part::{StatementPart, is_part};
use crate::cqlp_capture_exchanges::prepared::{Known, named, same_bytes};
use crate::cqlp_capture_exchanges::reply::{Reply, reply_of};
use crate::cqlp_capture_exchanges::report::Report;
use crate::cqlp_capture_exchanges::span::{Span, is_short, time_between, took};
use crate::cqlp_capture_exchanges::statement::{Statement, statement_of};
use crate::cqlp_note::Opcode;
use crate::cqlp_observer::{SeenFrame, Kept, SeenMessage, Paired};
use crate::cqlp_pattern::Pattern;
use crate::cqlp_tcp_connections::Ends;
use crate::cqlp_tcp_segment::{IpAddress, Endpoint};
use crate::kit_host::net::IpAddr;

/// Ends of connections: with an address, at the port with this number alone if there is one.
#[derive(Clone, Copy)]
pub struct EndFilter {
    pub address: IpAddr,
    pub port: Option<u16>,
}

impl EndFilter {
    /// Whether this is such an end.
    fn is_end(&self, end: Endpoint) -> bool {
        is_host(self.address, end.address) && is_port(self.port, end.port)
    }
}

/// A time, with which the times of packets are compared.
#[derive(Clone, Copy)]
pub enum Moment {
    /// So many nanoseconds after the capture's first packet.
    After(u64),
    /// So many nanoseconds after 1970-01-01 00:00:00 UTC.
    At(u64),
}

/// What a response may be.
#[derive(Clone, Copy)]
pub enum ReplyKind {
    /// A RESULT of this kind. Section 4.2.5 of `native_protocol_v4.spec`.
    Result(u32),
    /// An ERROR with this code. Section 9 of `native_protocol_v4.spec`.
    Error(u32),
    /// Any response with this opcode.
    Response(Opcode),
}

/// Which of the exchanges are shown: those that all of these ask for.
#[derive(Clone, Copy)]
pub struct ExchangeFilter {
    /// Only exchanges whose reply's last byte came at least so many nanoseconds after the request's first.
    pub slow: Option<u64>,
    /// Only exchanges whose reply is an ERROR or did not come to its end, requests without a reply, and connections that are not read.
    pub errors: bool,
    /// Only requests with this opcode, with their replies.
    pub opcode: Option<Opcode>,
    /// Only requests whose reply is of this kind, and responses alone of this kind.
    pub kind: Option<ReplyKind>,
    /// Only what is reported of connections with such a client.
    pub client: Option<EndFilter>,
    /// Only what is reported of connections with such a node.
    pub node: Option<EndFilter>,
    /// Only what began at this time or later.
    pub since: Option<Moment>,
    /// Only what began at this time or earlier.
    pub until: Option<Moment>,
    /// Only requests whose statement has this text, as far as it is known.
    pub statement: Option<StatementPart>,
    /// Only requests whose statement has a match of this pattern, as far as it is known.
    pub pattern: Option<Pattern>,
    /// Only what is reported of the connection with this number.
    pub connection: Option<u64>,
}

impl ExchangeFilter {
    /// Shows everything.
    pub const ALL: ExchangeFilter = ExchangeFilter {
        slow: None,
        errors: false,
        opcode: None,
        kind: None,
        client: None,
        node: None,
        since: None,
        until: None,
        statement: None,
        pattern: None,
        connection: None,
    };

    /// Whether what is reported of this connection is shown, where these statements are known and the capture's first packet came at this time.
    pub(crate) fn shows(
        &self,
        known: &Known,
        first: Option<u64>,
        connection: &Connection,
        report: &Report<'_>,
    ) -> bool {
        is_of(self.connection, connection.number)
            && self.is_between(&connection.ends)
            && is_slow(self.slow, report)
            && (!self.errors || is_trouble(report))
            && is_asking(self.opcode, report)
            && is_replied(self.kind, report)
            && self.is_within(first, begun(report))
            && is_saying(&self.statement, known, report)
            && is_matching(&self.pattern, known, report)
    }

    /// Whether this is a time that is asked for, of a capture whose first packet came at that one.
    fn is_within(&self, first: Option<u64>, time: Option<u64>) -> bool {
        is_since(self.since, first, time) && is_until(self.until, first, time)
    }

    /// Whether the ends of a connection are those that are asked for.
    fn is_between(&self, ends: &Ends) -> bool {
        is_at(self.client, ends.client) && is_at(self.node, ends.node)
    }
}

/// Whether an end is asked for.
fn is_at(asked: Option<EndFilter>, end: Endpoint) -> bool {
    match asked {
        Some(one) => one.is_end(end),
        None => true,
    }
}

/// Whether a host has this address.
fn is_host(asked: IpAddr, address: IpAddress) -> bool {
    match (asked, address) {
        (IpAddr::V4(asked), IpAddress::V4(octets)) => same_bytes(&asked.octets(), &octets),
        (IpAddr::V6(asked), IpAddress::V6(octets)) => same_bytes(&asked.octets(), &octets),
        (IpAddr::V4(_), IpAddress::V6(_)) => false,
        (IpAddr::V6(_), IpAddress::V4(_)) => false,
    }
}

/// Whether a port is asked for.
fn is_port(asked: Option<u16>, port: u16) -> bool {
    match asked {
        Some(one) => one == port,
        None => true,
    }
}

/// Whether the connection with this number is asked for.
fn is_of(asked: Option<u64>, number: u64) -> bool {
    match asked {
        Some(one) => one == number,
        None => true,
    }
}

/// Whether the reply took at least so long.
fn is_slow(least: Option<u64>, report: &Report<'_>) -> bool {
    match least {
        Some(least) => reported_slow(least, report),
        None => true,
    }
}

fn reported_slow(least: u64, report: &Report<'_>) -> bool {
    match report {
        Report::Messages { paired, .. } => took_at_least(least, paired),
        Report::Unread { .. } => false,
    }
}

fn took_at_least(least: u64, exchange: &Paired<Kept>) -> bool {
    match exchange {
        Paired::Exchange { request, response } => {
            is_at_least(least, took(&request.frame, &response.frame))
        }
        Paired::Unanswered { .. } | Paired::Unasked { .. } | Paired::Event { .. } => false,
    }
}

fn is_at_least(least: u64, time: Option<Span>) -> bool {
    match time {
        Some(span) => !span.is_before && least <= span.nanoseconds,
        None => false,
    }
}

/// Whether the reply is an ERROR or did not come to its end, or there is none to a request, or the connection is not read.
fn is_trouble(report: &Report<'_>) -> bool {
    match report {
        Report::Messages { paired, .. } => has_failed(paired),
        Report::Unread { .. } => true,
    }
}

fn has_failed(exchange: &Paired<Kept>) -> bool {
    match exchange {
        Paired::Exchange { response, .. } => is_failure(&response.frame),
        Paired::Unanswered { .. } => true,
        Paired::Unasked { .. } | Paired::Event { .. } => false,
    }
}

/// Whether a response is an ERROR, or its direction ended before its last byte.
pub(crate) fn is_failure(response: &SeenFrame) -> bool {
    is_error(response.header.opcode) || is_short(response.extent)
}

/// Whether this is the opcode of an ERROR.
pub(crate) fn is_error(opcode: Opcode) -> bool {
    opcode == Opcode::Error
}

/// Whether the request has the opcode that is asked for.
fn is_asking(asked: Option<Opcode>, report: &Report<'_>) -> bool {
    match asked {
        Some(opcode) => reported_asking(opcode, report),
        None => true,
    }
}

fn reported_asking(opcode: Opcode, report: &Report<'_>) -> bool {
    match report {
        Report::Messages { paired, .. } => asks(opcode, paired),
        Report::Unread { .. } => false,
    }
}

fn asks(opcode: Opcode, exchange: &Paired<Kept>) -> bool {
    match exchange {
        Paired::Exchange { request, .. } => has_opcode(opcode, &request.frame),
        Paired::Unanswered { request } => has_opcode(opcode, &request.frame),
        Paired::Unasked { .. } | Paired::Event { .. } => false,
    }
}

fn has_opcode(opcode: Opcode, frame: &SeenFrame) -> bool {
    frame.header.opcode.number() == opcode.number()
}

/// Whether the reply is of the kind that is asked for.
fn is_replied(asked: Option<ReplyKind>, report: &Report<'_>) -> bool {
    match asked {
        Some(kind) => reported_replied(kind, report),
        None => true,
    }
}

fn reported_replied(kind: ReplyKind, report: &Report<'_>) -> bool {
    match report {
        Report::Messages { paired, .. } => replied_by(kind, paired),
        Report::Unread { .. } => false,
    }
}

fn replied_by(kind: ReplyKind, exchange: &Paired<Kept>) -> bool {
    match exchange {
        Paired::Exchange { response, .. } => has_kind(kind, response),
        Paired::Unasked { response } => has_kind(kind, response),
        Paired::Event { event } => has_kind(kind, event),
        Paired::Unanswered { .. } => false,
    }
}

fn has_kind(kind: ReplyKind, response: &SeenMessage<Kept>) -> bool {
    let reply = reply_of(&response.frame.header, response.kept.front());
    match kind {
        ReplyKind::Result(number) => is_result_of(number, reply),
        ReplyKind::Error(code) => is_error_with(code, reply),
        ReplyKind::Response(opcode) => has_opcode(opcode, &response.frame),
    }
}

fn is_result_of(number: u32, reply: Reply) -> bool {
    match reply {
        Reply::Result(kind) => kind == number,
        Reply::Error(_) | Reply::Other(_) => false,
    }
}

fn is_error_with(code: u32, reply: Reply) -> bool {
    match reply {
        Reply::Error(own) => own == code,
        Reply::Result(_) | Reply::Other(_) => false,
    }
}

/// When the first byte of what is reported came.
fn begun(report: &Report<'_>) -> Option<u64> {
    match report {
        Report::Messages { paired, .. } => begun_in(paired),
        Report::Unread { time, .. } => *time,
    }
}

fn begun_in(exchange: &Paired<Kept>) -> Option<u64> {
    match exchange {
        Paired::Exchange { request, .. } => request.frame.begun,
        Paired::Unanswered { request } => request.frame.begun,
        Paired::Unasked { response } => response.frame.begun,
        Paired::Event { event } => event.frame.begun,
    }
}

fn is_since(asked: Option<Moment>, first: Option<u64>, time: Option<u64>) -> bool {
    match asked {
        Some(Moment::After(least)) => is_at_least(least, time_between(first, time)),
        Some(Moment::At(least)) => is_at_least(least, time_between(Some(0), time)),
        None => true,
    }
}

fn is_until(asked: Option<Moment>, first: Option<u64>, time: Option<u64>) -> bool {
    match asked {
        Some(Moment::After(most)) => is_at_most(most, time_between(first, time)),
        Some(Moment::At(most)) => is_at_most(most, time_between(Some(0), time)),
        None => true,
    }
}

fn is_at_most(most: u64, time: Option<Span>) -> bool {
    match time {
        Some(span) => span.is_before || span.nanoseconds <= most,
        None => false,
    }
}

/// Whether the text of a request's statement has the part that is asked for.
fn is_saying(
    asked: &Option<StatementPart>,
    known: &Known,
    report: &Report<'_>,
) -> bool {
    match asked {
        Some(part) => says(part.as_slice(), reported_statement(known, report)),
        None => true,
    }
}

/// Whether the text of a request's statement has a match of the pattern that is asked for.
fn is_matching(
    asked: &Option<Pattern>,
    known: &Known,
    report: &Report<'_>,
) -> bool {
    match asked {
        Some(pattern) => has_match(pattern, reported_statement(known, report)),
        None => true,
    }
}

/// What a request that is reported asks to be done.
fn reported_statement<'a>(
    known: &'a Known,
    report: &'a Report,
) -> Option<Statement<'a>> {
    match report {
        Report::Messages { paired, .. } => paired_statement(known, paired),
        Report::Unread { .. } => None,
    }
}

fn paired_statement<'a>(
    known: &'a Known,
    exchange: &'a Paired<Kept>,
) -> Option<Statement<'a>> {
    match exchange {
        Paired::Exchange { request, .. } => request_statement(known, request),
        Paired::Unanswered { request } => request_statement(known, request),
        Paired::Unasked { .. } | Paired::Event { .. } => None,
    }
}

fn request_statement<'a>(
    known: &'a Known,
    request: &'a SeenMessage<Kept>,
) -> Option<Statement<'a>> {
    let statement = statement_of(&request.frame.header, request.kept.front());
    named(known, statement)
}

fn says(part: &[u8], statement: Option<Statement<'_>>) -> bool {
    match statement {
        Some(Statement::Text { text, .. }) => is_part(part, text.as_bytes()),
        Some(Statement::Id { .. }) => false,
        None => false,
    }
}

fn has_match(pattern: &Pattern, statement: Option<Statement<'_>>) -> bool {
    match statement {
        Some(Statement::Text { text, is_whole }) => pattern.is_match(text.as_bytes(), is_whole),
        Some(Statement::Id { .. }) => false,
        None => false,
    }
}
