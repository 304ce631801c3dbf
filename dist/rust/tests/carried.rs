//! Cores that carry a value with each open request, and headers that they give.
#![forbid(unsafe_code)]

use cqlp::session::{Body, ClientOf, ReplyOf, RequestKind, ServerOf, event_header};
use cqlp::{Header, Opcode};

/// An OPTIONS that carries 5 comes back with it, from a server that carries 7.
fn is_answered(client: &mut ClientOf<u64>, body: Body) {
    let mut server = ServerOf::new(1).unwrap();
    let (_, request) = client.begin_with(RequestKind::Options, body, 5).unwrap();
    server.accept(&request, 7).unwrap();
    let (response, _, carried) = server.answer_with(request.stream, Opcode::Supported, body).unwrap();
    assert_eq!(carried, 7);
    assert!(matches!(client.reply(&response), Ok(ReplyOf::Answer { carried: 5, .. })));
}

#[test]
fn values_come_back() {
    let mut client = ClientOf::new(1).unwrap();
    for _ in 0..2 {
        is_answered(&mut client, Body::new(0x02, 7).unwrap());
    }
}

#[test]
fn unlawful_bodies_are_none() {
    assert!(Body::new(0xFE, Header::LONGEST_BODY).is_some());
    assert!(Body::new(0x03, 0).is_none());
    assert!(Body::new(0, Header::LONGEST_BODY + 1).is_none());
}

#[test]
fn events_are_no_replies() {
    let mut client: ClientOf<u64> = ClientOf::new(1).unwrap();
    let event = event_header(Body::new(0, 28).unwrap());
    assert!(matches!(client.reply(&event), Ok(ReplyOf::ServerEvent)));
}

/// What is done to a client and to a server.
#[derive(Clone, Copy)]
enum Step {
    /// An OPTIONS begins, and comes under this id, with this value at both.
    Begin(i16, u64),
    /// This is what the request under this id carries from then on.
    Set(i16, u64),
    /// The request under this id is answered, and its reply comes.
    Answer(i16),
}

/// Steps of cores of three slots, and what is carried after each of them under the ids from -1 on.
const STEPS: [(Step, [Option<u64>; 5]); 8] = [
    (Step::Set(0, 1), [None, None, None, None, None]),
    (Step::Begin(0, 5), [None, Some(5), None, None, None]),
    (Step::Begin(1, 6), [None, Some(5), Some(6), None, None]),
    (Step::Begin(2, 7), [None, Some(5), Some(6), Some(7), None]),
    (Step::Begin(3, 8), [None, Some(5), Some(6), Some(7), None]),
    (Step::Set(-1, 9), [None, Some(5), Some(6), Some(7), None]),
    (Step::Set(2, 70), [None, Some(5), Some(6), Some(70), None]),
    (Step::Answer(1), [None, Some(5), None, Some(70), None]),
];

fn header(response: bool, stream: i16, opcode: Opcode) -> Header {
    Header { response, flags: 0, stream, opcode, length: 0 }
}

fn set(place: Option<&mut u64>, value: u64) {
    if let Some(place) = place {
        *place = value;
    }
}

fn take_step(client: &mut ClientOf<u64>, server: &mut ServerOf<u64>, step: Step) {
    match step {
        Step::Begin(id, value) => {
            let _ = client.begin(RequestKind::Options, value);
            let _ = server.accept(&header(false, id, Opcode::Options), value);
        }
        Step::Set(id, value) => {
            set(client.get_mut(id), value);
            set(server.get_mut(id), value);
        }
        Step::Answer(id) => {
            let _ = client.reply(&header(true, id, Opcode::Supported));
            let _ = server.answer(id, Opcode::Supported);
        }
    }
}

/// This and nothing else is carried, and a request is open just where something is.
#[test]
fn values_are_told_changed_and_handed_out() {
    let (mut client, mut server) = (ClientOf::new(3).unwrap(), ServerOf::new(3).unwrap());
    for (place, (step, carried)) in STEPS.into_iter().enumerate() {
        take_step(&mut client, &mut server, step);
        for (id, value) in (-1..4).zip(carried) {
            assert_eq!((client.get(id).copied(), client.is_open(id)), (value, value.is_some()), "step {place}, id {id}");
            assert_eq!((server.get(id).copied(), server.is_open(id)), (value, value.is_some()), "step {place}, id {id}");
        }
    }
    assert_eq!(client.into_values().collect::<Vec<_>>(), [5, 70]);
    assert_eq!(server.into_values().collect::<Vec<_>>(), [5, 70]);
}
