//! A client with as many requests as there are stream ids.
#![forbid(unsafe_code)]

use crate::common::Numbers;
use cqlp::session::{BeginError, Client, Reply, RequestKind, Ticket};
use cqlp::{Header, Opcode};

const SLOTS: u16 = 32_768;

fn response(stream: i16, opcode: Opcode) -> Header {
    Header { response: true, flags: 0, stream, opcode, length: 0 }
}

/// A client that is set up, with nothing open, and a slot for each stream id.
fn ready() -> Client {
    let mut client = Client::new(SLOTS).unwrap();
    let startup = client.begin(RequestKind::Startup).unwrap();
    client.reply(&response(startup.id, Opcode::Ready)).unwrap();
    client
}

fn begun(client: &mut Client) -> Result<i16, BeginError> {
    client.begin(RequestKind::Query).map(|ticket| ticket.id)
}

#[test]
fn each_id_is_taken_and_no_more() {
    let mut client = ready();
    for id in 0..=i16::MAX {
        assert_eq!(begun(&mut client), Ok(id));
    }
    assert_eq!(begun(&mut client), Err(BeginError::Full));
    client.reply(&response(4_711, Opcode::Result)).unwrap();
    assert_eq!(begun(&mut client), Ok(4_711));
}

fn answer(client: &mut Client, ticket: Ticket) {
    let answer = Reply::Answer { ticket, kind: RequestKind::Execute };
    assert_eq!(client.reply(&response(ticket.id, Opcode::Result)), Ok(answer));
}

#[test]
fn a_million_requests_in_random_order() {
    let (mut client, mut numbers, mut open, mut begun) = (ready(), Numbers::new(), Vec::new(), 0);
    while begun < 1_000_000 || !open.is_empty() {
        let more = open.is_empty() || open.len() < usize::from(SLOTS) && numbers.below(16) < 9;
        if begun < 1_000_000 && more {
            open.push(client.begin(RequestKind::Execute).unwrap());
            begun += 1;
        } else {
            let ticket = open.swap_remove(numbers.below(open.len()));
            answer(&mut client, ticket);
        }
    }
}
