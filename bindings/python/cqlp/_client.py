"""A client's core: which requests are open on a connection, and which of them a response answers. It sends and receives nothing."""

from typing import Any, NamedTuple, Optional, Union

from . import _native
from ._core import Calls, Core, event_of, must_be_done
from ._decoder import BadCall, _named
from ._events import Event
from ._turns import one_at_a_time
from .messages import Frame
from .numbers import Code, Opcode, ReplyKind

_OPCODES, _KINDS = map(_named, (Opcode, ReplyKind))


class Ticket(NamedTuple):
    """A request that has begun."""

    number: int
    """Its place among all requests that the core began, from 1 on: no two have the same."""
    id: int
    """The stream id, which its header has and its reply's will have."""


class Reply(NamedTuple):
    """What a response says to a client."""

    what: Union[ReplyKind, int]
    ticket: Optional[Ticket]
    """That of the request; None of an event."""
    request: Union[Opcode, int, None]
    """Of an answer what was asked for."""
    carried: Any = None
    """The value that the request began with."""


class Client(Core):
    """Which requests are open on one connection, on which nothing was sent yet, seen from its client.

    It is closed by `close`, or as a context manager, or when it is let go. Threads may share it: their calls come one after the other.
    """

    _calls = Calls(_native.library.cqlp_client_new, _native.library.cqlp_client_phase, _native.library.cqlp_client_free)

    def __init__(self, slots: int = 1024) -> None:
        """`slots` is how many requests may be open at a time, 1 to 32768; their stream ids are those below it."""
        super().__init__(slots)

    @one_at_a_time
    def begin(self, opcode: int, carried: Any = None) -> Ticket:
        """Begins a request: its ticket has the least stream id that is free, and the next number. Send its message in the order in
        which requests begin. Its reply has this value again. Raises BadCall for NO_REQUEST, BAD_PHASE, SPENT and FULL."""
        if not 0 <= opcode < 256:
            raise BadCall(Code.NO_REQUEST)
        ticket = _native.Ticket()
        self._keep(lambda number: _native.library.cqlp_client_begin(self._handle, opcode, number, ticket), carried)
        return Ticket(ticket.number, ticket.id)

    @one_at_a_time
    def reply(self, frame: Union[Event, Frame]) -> Reply:
        """Takes a frame that came, as its event, whose tag is FRAME, or as one of `cqlp.frames`, and says which request it answers.
        Raises BadCall for NO_FRAME, NOT_RESPONSE, NO_SUCH_STREAM and WRONG_OPCODE."""
        reply = _native.Reply()
        must_be_done(_native.library.cqlp_client_reply(self._handle, event_of(frame), reply))
        of_event = reply.what == ReplyKind.EVENT
        carried = None if of_event else self._values.pop(reply.carried)
        answered = _OPCODES[reply.request] if reply.what == ReplyKind.ANSWER else None
        return Reply(_KINDS[reply.what], None if of_event else Ticket(reply.number, reply.id), answered, carried)

    @one_at_a_time
    def cancel(self, ticket: Ticket) -> None:
        """Gives up a request that waits for its reply. Its stream id stays taken until the reply comes, which is then DROPPED. Raises
        BadCall for NOT_CANCELLED."""
        if not (0 <= ticket.number < 1 << 64 and 0 <= ticket.id < 32768):
            raise BadCall(Code.NOT_CANCELLED)
        must_be_done(_native.library.cqlp_client_cancel(self._handle, _native.Ticket(*ticket)))

    def __enter__(self) -> "Client":
        return self
