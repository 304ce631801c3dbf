//! Worked sessions of a client and of a server: each call, what it answers, and the phase then.
#![forbid(unsafe_code)]

use cqlp::session::{AnswerError, BeginError, Client, Phase, Reply, RequestKind, Server, ServerRefusal, SlotsOrMemory, Stray, Ticket};
use cqlp::{Finish, Header, Opcode, Outcome, Reason, Refusal};
use std::fmt::Debug;

fn header(response: bool, stream: i16, opcode: Opcode) -> Header {
    Header { response, flags: 0, stream, opcode, length: 0 }
}

/// The ticket of the request with this number of a client with one slot.
fn ticket(number: u64) -> Ticket {
    Ticket { id: 0, number }
}

fn answer(number: u64, kind: RequestKind) -> Result<Reply, Stray> {
    Ok(Reply::Answer { ticket: ticket(number), kind })
}

/// A call of a client with one slot, and its answer.
enum ClientCall {
    Begin(RequestKind, Result<Ticket, BeginError>),
    /// Of the request with this number.
    Cancel(u64, bool),
    /// A response on this stream.
    Reply(i16, Opcode, Result<Reply, Stray>),
    /// A request in place of a response.
    Request(Opcode, Result<Reply, Stray>),
}

fn converse(calls: Vec<(ClientCall, Phase)>) {
    let mut client = Client::new(1).unwrap();
    for (at, (call, phase)) in calls.into_iter().enumerate() {
        match call {
            ClientCall::Begin(kind, answer) => assert_eq!(client.begin(kind), answer, "call {at}"),
            ClientCall::Cancel(number, answer) => assert_eq!(client.cancel(ticket(number)), answer, "call {at}"),
            ClientCall::Reply(stream, opcode, answer) => assert_eq!(client.reply(&header(true, stream, opcode)), answer, "call {at}"),
            ClientCall::Request(opcode, answer) => assert_eq!(client.reply(&header(false, 0, opcode)), answer, "call {at}"),
        }
        assert_eq!(client.phase(), phase, "call {at}");
    }
}

#[test]
fn client_with_one_slot_from_options_to_a_query() {
    use ClientCall::{Begin, Cancel, Reply};
    use Phase::{Challenged, Fresh, Opening, Ready};
    converse(vec![
        (Begin(RequestKind::Options, Ok(ticket(1))), Fresh),
        (Cancel(1, true), Fresh),
        (Cancel(1, false), Fresh),
        (Begin(RequestKind::Query, Err(BeginError::Phase(Fresh))), Fresh),
        (Begin(RequestKind::Options, Err(BeginError::Full)), Fresh),
        (Reply(0, Opcode::Supported, Ok(cqlp::session::Reply::Dropped { ticket: ticket(1) })), Fresh),
        (Begin(RequestKind::Options, Ok(ticket(2))), Fresh),
        (Reply(0, Opcode::Ready, Err(Stray::WrongOpcode)), Fresh),
        (Reply(1, Opcode::Supported, Err(Stray::NoSuchStream)), Fresh),
        (Reply(0, Opcode::Supported, answer(2, RequestKind::Options)), Fresh),
        (Begin(RequestKind::Startup, Ok(ticket(3))), Opening),
        (Cancel(3, false), Opening),
        (Begin(RequestKind::Query, Err(BeginError::Phase(Opening))), Opening),
        (Reply(0, Opcode::Authenticate, answer(3, RequestKind::Startup)), Challenged),
        (Begin(RequestKind::AuthResponse, Ok(ticket(4))), Opening),
        (Reply(0, Opcode::AuthSuccess, answer(4, RequestKind::AuthResponse)), Ready),
        (Begin(RequestKind::Query, Ok(ticket(5))), Ready),
    ]);
}

#[test]
fn strays_of_a_client() {
    use ClientCall::{Begin, Reply, Request};
    converse(vec![
        (Reply(-1, Opcode::Event, Ok(cqlp::session::Reply::ServerEvent)), Phase::Fresh),
        (Reply(0, Opcode::Event, Err(Stray::NoSuchStream)), Phase::Fresh),
        (Reply(-1, Opcode::Error, Err(Stray::NoSuchStream)), Phase::Fresh),
        (Request(Opcode::Options, Err(Stray::NotResponse)), Phase::Fresh),
        (Begin(RequestKind::Options, Ok(ticket(1))), Phase::Fresh),
        (Reply(0, Opcode::Event, Err(Stray::WrongOpcode)), Phase::Fresh),
    ]);
}

#[test]
fn server_with_two_slots() {
    let mut server = Server::new(2).unwrap();
    assert_eq!(server.phase(), Phase::Fresh);
    assert_eq!(server.accept(&header(false, 0, Opcode::Query)), Err(ServerRefusal::Phase(Phase::Fresh)));
    assert_eq!(server.accept(&header(false, 2, Opcode::Options)), Err(ServerRefusal::BadId));
    assert_eq!(server.accept(&header(false, 0, Opcode::Options)), Ok(RequestKind::Options));
    assert_eq!(server.accept(&header(false, 0, Opcode::Options)), Err(ServerRefusal::IdTaken));
    assert_eq!(server.answer(0, Opcode::Ready), Err(AnswerError::WrongOpcode));
    assert_eq!(server.answer(1, Opcode::Supported), Err(AnswerError::NotTaken));
    assert_eq!(server.answer(0, Opcode::Supported), Ok(RequestKind::Options));
}

#[test]
fn slots_out_of_range() {
    for slots in [0, 32_769, u16::MAX] {
        assert!(matches!(Client::new(slots), Err(SlotsOrMemory::BadSlots)), "{slots}");
        assert!(matches!(Server::new(slots), Err(SlotsOrMemory::BadSlots)), "{slots}");
    }
}

/// Each is equal to itself alone.
fn differ<T: PartialEq + Debug>(values: &[T]) {
    for (i, one) in values.iter().enumerate() {
        for (j, other) in values.iter().enumerate() {
            assert_eq!(one == other, i == j, "{one:?} and {other:?}");
        }
    }
}

#[test]
fn values_that_differ_are_not_equal() {
    differ(&[Stray::NotResponse, Stray::NoSuchStream, Stray::WrongOpcode]);
    let finishes = [
        Finish::Whole { bytes: 1 },
        Finish::Whole { bytes: 2 },
        Finish::Cut { frame_at: 0, bytes: 1 },
        Finish::Refused(Refusal { at: 0, why: Reason::Overrun }),
        Finish::Refused(Refusal { at: 0, why: Reason::TooLong }),
    ];
    let others = [Outcome::ReadFault, Outcome::SinkFault, Outcome::Turns];
    differ(&[&finishes.map(Outcome::Finished)[..], &others].concat());
}
