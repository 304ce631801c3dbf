//! Why a request is answered by an ERROR.

use cqlp::frame::{ErrorExtra, Message};
use cqlp::memory::AllocError;

/// Why a request is answered by an ERROR. Section 9 of `native_protocol_v4.spec`.
#[derive(Debug)]
pub struct Problem {
    code: i32,
    text: String,
    /// The id of a statement that is not prepared.
    id: Option<Vec<u8>>,
}

impl Problem {
    /// The bytes are no request, or none that may come now.
    pub fn protocol(why: &str) -> Problem {
        Problem { code: 0x000A, text: why.to_string(), id: None }
    }

    /// The text is no statement.
    pub fn syntax() -> Problem {
        Problem { code: 0x2000, text: "no viable alternative at the input".to_string(), id: None }
    }

    /// The statement, or what is bound in it, makes no sense.
    pub fn invalid(why: &str) -> Problem {
        Problem { code: 0x2200, text: why.to_string(), id: None }
    }

    pub fn unprepared(id: Vec<u8>) -> Problem {
        Problem { code: 0x2500, text: "no statement is prepared under this id".to_string(), id: Some(id) }
    }
}

impl From<AllocError> for Problem {
    fn from(error: AllocError) -> Problem {
        Problem { code: 0x0000, text: error.to_string(), id: None }
    }
}

impl From<Problem> for Message {
    fn from(Problem { code, text, id }: Problem) -> Message {
        let extra = id.map_or(ErrorExtra::Plain, |id| ErrorExtra::Unprepared { id });
        Message::Error { code, message: text, extra }
    }
}
