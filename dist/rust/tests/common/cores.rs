//! The cores of a client and of a server beside a map of what is open, which says what each call has to answer.
use super::Numbers;
use cqlp::session::{AnswerError, BeginError, Client, Reply, RequestKind, Server, ServerRefusal, Stray, Ticket};
use cqlp::{Header, Opcode};
use std::collections::BTreeMap;

const KINDS: [RequestKind; 8] = [
    RequestKind::Startup,
    RequestKind::Options,
    RequestKind::Query,
    RequestKind::Prepare,
    RequestKind::Execute,
    RequestKind::Batch,
    RequestKind::Register,
    RequestKind::AuthResponse,
];
const ANSWERS: [Opcode; 8] = [
    Opcode::Error,
    Opcode::Ready,
    Opcode::Authenticate,
    Opcode::Supported,
    Opcode::Result,
    Opcode::Event,
    Opcode::AuthChallenge,
    Opcode::AuthSuccess,
];

/// A request that waits for its reply.
struct Open {
    ticket: Ticket,
    kind: RequestKind,
    cancelled: bool,
}

/// A client, and what is open.
pub struct Caller {
    core: Client,
    slots: u16,
    begun: u64,
    open: BTreeMap<i16, Open>,
}

impl Caller {
    pub fn new(slots: u16) -> Caller {
        Caller { core: Client::new(slots).unwrap(), slots, begun: 0, open: BTreeMap::new() }
    }

    /// Begins requests, cancels some, and takes this header, or one that answers what is open.
    pub fn follow(&mut self, numbers: &mut Numbers, header: &Header) {
        let kind = numbers.one_of(&KINDS);
        self.begin(kind);
        let (id, number) = (numbers.below(4) as i16, 1 + numbers.below(self.begun as usize + 1) as u64);
        self.cancel(Ticket { id, number });
        self.reply(header);
        let opcode = numbers.one_of(&ANSWERS);
        self.reply(&Header { response: true, flags: 0, stream: id, opcode, length: 0 });
    }

    fn begin(&mut self, kind: RequestKind) {
        let free = (0..self.slots as i16).find(|id| !self.open.contains_key(id));
        match self.core.begin(kind) {
            Ok(ticket) => {
                self.begun += 1;
                assert_eq!((Some(ticket.id), ticket.number), (free, self.begun));
                self.open.insert(ticket.id, Open { ticket, kind, cancelled: false });
            }
            Err(BeginError::Phase(phase)) => assert_eq!(phase, self.core.phase()),
            Err(BeginError::Full) => assert_eq!(free, None),
            Err(BeginError::Spent) => unreachable!(),
        }
    }

    fn cancel(&mut self, ticket: Ticket) {
        let open = self.open.get_mut(&ticket.id).filter(|open| {
            open.ticket == ticket && !open.cancelled && !matches!(open.kind, RequestKind::Startup | RequestKind::AuthResponse)
        });
        assert_eq!(self.core.cancel(ticket), open.is_some());
        if let Some(open) = open {
            open.cancelled = true;
        }
    }

    fn reply(&mut self, header: &Header) {
        let Header { response, stream: id, opcode, .. } = *header;
        match self.core.reply(header) {
            Ok(Reply::ServerEvent) => assert!(response && opcode == Opcode::Event && id < 0),
            Ok(Reply::Answer { ticket, kind }) => {
                let open = self.open.remove(&id).unwrap();
                assert_eq!((open.ticket, open.kind, open.cancelled, response), (ticket, kind, false, true));
            }
            Ok(Reply::Dropped { ticket }) => {
                let open = self.open.remove(&id).unwrap();
                assert_eq!((open.ticket, open.cancelled, response), (ticket, true, true));
            }
            Err(Stray::NotResponse) => assert!(!response),
            Err(Stray::NoSuchStream) => assert!(!self.open.contains_key(&id)),
            Err(Stray::WrongOpcode) => assert!(self.open.contains_key(&id)),
        }
    }
}

/// A server, and what is open.
pub struct Responder {
    core: Server,
    slots: u16,
    open: BTreeMap<i16, RequestKind>,
}

impl Responder {
    pub fn new(slots: u16) -> Responder {
        Responder { core: Server::new(slots).unwrap(), slots, open: BTreeMap::new() }
    }

    /// Takes this header, and another, and answers some request.
    pub fn follow(&mut self, numbers: &mut Numbers, header: &Header) {
        self.accept(header);
        let (stream, opcode) = (numbers.below(4) as i16, numbers.one_of(&KINDS).opcode());
        self.accept(&Header { response: false, flags: 0, stream, opcode, length: 0 });
        let (id, opcode) = (numbers.below(5) as i16 - 1, numbers.one_of(&ANSWERS));
        self.answer(id, opcode);
    }

    fn accept(&mut self, header: &Header) {
        let Header { response, stream: id, opcode, .. } = *header;
        let is_request = !response && KINDS.iter().any(|kind| kind.opcode() == opcode);
        match self.core.accept(header) {
            Ok(kind) => {
                assert!(is_request && (0..self.slots as i16).contains(&id) && kind.opcode() == opcode);
                assert_eq!(self.open.insert(id, kind), None);
            }
            Err(ServerRefusal::NotRequest) => assert!(!is_request),
            Err(ServerRefusal::BadId) => assert!(!(0..self.slots as i16).contains(&id)),
            Err(ServerRefusal::IdTaken) => assert!(self.open.contains_key(&id)),
            Err(ServerRefusal::Phase(phase)) => assert_eq!(phase, self.core.phase()),
        }
    }

    fn answer(&mut self, id: i16, opcode: Opcode) {
        match self.core.answer(id, opcode) {
            Ok(kind) => assert_eq!(self.open.remove(&id), Some(kind)),
            Err(AnswerError::NotTaken) => assert!(!self.open.contains_key(&id)),
            Err(AnswerError::WrongOpcode) => assert!(self.open.contains_key(&id)),
        }
    }
}
