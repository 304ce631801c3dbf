"""A server's core: which requests of a connection are not answered yet. It sends and receives nothing."""

from typing import Any, NamedTuple, Union

from . import _native
from ._core import Calls, Core, event_of, must_be_done
from ._decoder import _named
from ._events import Event
from ._turns import one_at_a_time
from .messages import Frame
from .numbers import Opcode

_OPCODES = _named(Opcode)


class Answered(NamedTuple):
    """A request that a server has answered."""

    request: Union[Opcode, int]
    """What was asked for."""
    carried: Any = None
    """The value that the request was accepted with."""


class Server(Core):
    """Which requests are open on one connection, on which nothing came yet, seen from its server.

    It is closed by `close`, or as a context manager, or when it is let go. Threads may share it: their calls come one after the other.
    """

    _calls = Calls(_native.library.cqlp_server_new, _native.library.cqlp_server_phase, _native.library.cqlp_server_free)

    def __init__(self, slots: int = 32768) -> None:
        """`slots` is how many requests may be open at a time, 1 to 32768. A stream id that is not below it is refused. Drivers use any id, so lower it
        only for a client that you know."""
        super().__init__(slots)

    @one_at_a_time
    def accept(self, frame: Union[Event, Frame], carried: Any = None) -> None:
        """Takes a frame that came, as its event, whose tag is FRAME, or as one of `cqlp.frames`, as a request. Its stream id is taken
        until it is answered, and its answer has this value again. Raises BadCall for NO_FRAME, NOT_REQUEST, BAD_ID, ID_TAKEN and
        BAD_PHASE."""
        event = event_of(frame)
        self._keep(lambda number: _native.library.cqlp_server_accept(self._handle, event, number), carried)

    @one_at_a_time
    def answer(self, stream: int, opcode: int) -> Answered:
        """Answers the request that is open under this stream id by a response with this opcode. Send the response in the order in
        which requests are answered. Raises BadCall for BAD_OPCODE, NO_SUCH_STREAM and WRONG_OPCODE."""
        # what is out of the range of its member is refused there too, in the library's order
        stream = stream if -32768 <= stream < 32768 else -1
        opcode = opcode if 0 <= opcode < 256 else 0xFF
        answered = _native.Answered()
        must_be_done(_native.library.cqlp_server_answer(self._handle, stream, opcode, answered))
        carried = self._values.pop(answered.carried)
        return Answered(_OPCODES[answered.request], carried)

    def __enter__(self) -> "Server":
        return self
