// Written by dist/erase from crates/cqlp_capture_exchanges/src/prepared.rt.
//! Statements that were prepared: their texts by their ids.

use crate::kit_host::prelude::{KitVec, Vec};
use crate::cqlp_capture_exchanges::reply::{Reply, reply_of};
use crate::cqlp_capture_exchanges::statement::{Statement, short_bytes, statement_of};
use crate::cqlp_note::Opcode;
use crate::cqlp_observer::{Kept, SeenMessage, Paired};
use crate::cqlp_statement_file::StatementTexts;
use crate::kit_std::alloc::{AllocError};

/// How many statements that were prepared are known at most.
const MOST: usize = 256;

/// A PREPARE, and the response that gives its statement an id.
pub(crate) struct Preparation {
    pub(crate) request: SeenMessage<Kept>,
    pub(crate) response: SeenMessage<Kept>,
}

impl Preparation {
    /// Whether its statement has this id.
    fn is_of(&self, id: &[u8]) -> bool {
        match prepared_id(&self.response) {
            Some(own) => same_bytes(own, id),
            None => false,
        }
    }
}

pub(crate) fn same_bytes(a: &[u8], b: &[u8]) -> bool {
    a == b
}

/// The id that a response gives to a statement, a RESULT of the kind Prepared. Section 4.2.5.4 of `native_protocol_v4.spec`.
fn prepared_id(response: &SeenMessage<Kept>) -> Option<&[u8]> {
    let header = &response.frame.header;
    let front = response.kept.front();
    match reply_of(header, front) {
        Reply::Result(kind) if kind == 4 => whole_id(after_number(front)),
        _ => None,
    }
}

/// What comes after the first number of a response.
pub(crate) fn after_number(front: &[u8]) -> &[u8] {
    &front[front.len().min(4)..]
}

/// A \[short bytes\] at the front, if it is there whole.
pub(crate) fn whole_id(bytes: &[u8]) -> Option<&[u8]> {
    match short_bytes(bytes) {
        Some(Statement::Id { id, is_whole: true }) => Some(id),
        _ => None,
    }
}

/// The text of the statement with this id, if it is known.
fn text_for<'a>(known: &'a [Preparation], id: &[u8]) -> Option<Statement<'a>> {
    for one in known {
        if one.is_of(id) {
            return statement_of(&one.request.frame.header, one.request.kept.front());
        }
    }
    None
}

/// Statements whose texts are known.
pub(crate) struct Known {
    /// Those that were prepared, each by the first PREPARE whose response gave its id; of too many the one goes whose id came first.
    prepared: Vec<Preparation>,
    given: StatementTexts,
}

impl Known {
    /// Those that were given, with room for those that are prepared.
    pub(crate) fn new(given: StatementTexts) -> Result<Self, AllocError> {
        let prepared = Vec::kit_with_capacity(MOST)?;
        Ok(Known { prepared, given })
    }

    /// The first bytes of the response that gave the statement which a request asks for by its id, if that was prepared.
    pub(crate) fn prepared_front(&self, said: Option<Statement<'_>>) -> &[u8] {
        match said {
            Some(Statement::Id { id, is_whole: true }) => response_for(&self.prepared, id),
            _ => &[],
        }
    }

    /// Keeps the statement that these messages prepare, with its id, if they prepare one that is not known. They are moved only then.
    pub(crate) fn learn(&mut self, exchange: &mut Option<Paired<Kept>>) {
        if has_news(&self.prepared, exchange) {
            self.add(exchange.take());
        }
    }

    /// Keeps the statement that these messages prepare, if they are a request and its response.
    #[cold]
    fn add(&mut self, exchange: Option<Paired<Kept>>) {
        match exchange {
            Some(Paired::Exchange { request, response }) => {
                add_known(&mut self.prepared, Preparation { request, response });
            }
            Some(Paired::Unanswered { .. } | Paired::Unasked { .. } | Paired::Event { .. })
            | None => {}
        }
    }

    /// The text of the statement with this id, if it is known.
    fn text(&self, id: &[u8]) -> Option<Statement<'_>> {
        match text_for(&self.prepared, id) {
            Some(text) => Some(text),
            None => text_given(&self.given, id),
        }
    }
}

/// The text of the statement with this id, if it was given.
fn text_given<'a>(given: &'a StatementTexts, id: &[u8]) -> Option<Statement<'a>> {
    match given.get(id) {
        Some(text) => Some(Statement::Text {
            text: text.as_str(),
            is_whole: text.is_whole(),
        }),
        None => None,
    }
}

/// What a request asks to be done, with the text of a statement that is known in place of its id.
pub(crate) fn named<'a>(
    known: &'a Known,
    said: Option<Statement<'a>>,
) -> Option<Statement<'a>> {
    match said {
        Some(Statement::Id { id, is_whole: true }) => text_or_id(known, id),
        _ => said,
    }
}

fn text_or_id<'a>(known: &'a Known, id: &'a [u8]) -> Option<Statement<'a>> {
    match known.text(id) {
        Some(text) => Some(text),
        None => Some(Statement::Id { id, is_whole: true }),
    }
}

/// The first bytes of the response that gave the statement with this id, if it is known.
fn response_for<'a>(known: &'a [Preparation], id: &[u8]) -> &'a [u8] {
    for one in known {
        if one.is_of(id) {
            return one.response.kept.front();
        }
    }
    &[]
}

/// Whether these are a PREPARE and its response, which gives its statement an id that is not known.
fn has_news(known: &[Preparation], exchange: &Option<Paired<Kept>>) -> bool {
    match exchange {
        Some(Paired::Exchange { request, response }) => is_news(known, request, response),
        Some(Paired::Unanswered { .. } | Paired::Unasked { .. } | Paired::Event { .. }) | None => {
            false
        }
    }
}

/// Whether a request is a PREPARE and its response gives its statement an id that is not known.
fn is_news(
    known: &[Preparation],
    request: &SeenMessage<Kept>,
    response: &SeenMessage<Kept>,
) -> bool {
    request.frame.header.opcode == Opcode::Prepare && !is_known(known, prepared_id(response))
}

/// Whether a statement has this id, or there is none.
fn is_known(known: &[Preparation], id: Option<&[u8]>) -> bool {
    match id {
        Some(id) => has_id(known, id),
        None => true,
    }
}

fn has_id(known: &[Preparation], id: &[u8]) -> bool {
    known.iter().any(|one| one.is_of(id))
}

/// Puts a statement behind the others; where there are too many, the first one goes.
fn add_known(known: &mut Vec<Preparation>, one: Preparation) {
    if known.len() >= MOST {
        let _ = known.remove(0);
    }
    known.push_reserved(one);
}
