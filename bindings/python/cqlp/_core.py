"""What a client's core and a server's share, and headers."""

import ctypes
from typing import Any, Callable, Dict, NamedTuple, Union

from . import _native
from ._decoder import BadCall, Closed, _named, must_be_new
from ._events import Event
from ._turns import Turns, one_at_a_time
from .messages import Frame
from .numbers import Code, Mark, Phase, Tag

_PHASES = _named(Phase)


def must_be_done(code: int) -> None:
    if code in (_native.NO_CLIENT, _native.NO_SERVER):
        raise Closed("the core of a connection")
    if code == _native.NO_MEMORY:
        raise MemoryError("cqlp")
    if code:
        raise BadCall(code)


def event_of(frame: Union[Event, Frame]) -> _native.Event:
    """As much of an event of a frame as a core looks at."""
    if isinstance(frame, Frame):
        tag, mark, stream = int(Tag.FRAME), int(Mark.RESPONSE if frame.response else Mark.NONE), frame.stream
    else:
        tag, mark, stream = int(frame.tag), int(frame.mark), frame.extra
    if not (-32768 <= stream < 32768 and 0 <= frame.opcode < 256):
        raise BadCall(Code.NO_FRAME)
    return _native.Event(tag=tag, mark=mark, extra=stream, opcode=frame.opcode)


def _flags(flags: int) -> int:
    if not 0 <= flags < 256:
        raise ValueError("flags have one byte")
    return flags


def _length(length: int) -> int:
    """What is out of the range of its member is refused there too, in the library's order."""
    return length if 0 <= length < 1 << 32 else 0xFFFFFFFF


def header(opcode: int, stream: int, length: int, *, flags: int = 0, response: bool = False) -> bytes:
    """The nine bytes of a header, section 2, before a body of this length. Raises BadCall for the first of COMPRESSED, BAD_OPCODE,
    BAD_DIRECTION and BAD_LENGTH that is so."""
    opcode = opcode if 0 <= opcode < 256 else 0xFF
    if not -32768 <= stream < 32768:
        raise ValueError("a stream id has two bytes")
    octets = (ctypes.c_uint8 * 9)()
    must_be_done(_native.library.cqlp_write_header(_native.Header(_length(length), stream, opcode, _flags(flags), response), octets))
    return bytes(octets)


def event_header(length: int, *, flags: int = 0) -> bytes:
    """The nine bytes of the header of an EVENT, which a server sends unasked, before a body of this length: its stream id is -1.
    Raises BadCall for COMPRESSED and BAD_LENGTH."""
    octets = (ctypes.c_uint8 * 9)()
    must_be_done(_native.library.cqlp_server_event(_length(length), _flags(flags), octets))
    return bytes(octets)


def version_error(header: bytes) -> bytes:
    """What a server answers to a request of another version, before it closes: an ERROR of version 4, by which drivers try another one.
    `header` is what came of the request's frame; its first nine bytes count, and zeros where they did not come."""
    octets, length = ctypes.create_string_buffer(128), ctypes.c_size_t()
    first = (ctypes.c_uint8 * 9)(*header[:9])
    must_be_done(_native.library.cqlp_version_error(first, octets, len(octets), length))
    return octets.raw[: length.value]


class Calls(NamedTuple):
    """What the two cores have of the same form."""

    new: Callable[..., int]
    phase: Callable[..., int]
    free: Callable[..., int]


class Core:
    """The core of one connection, on which nothing was sent yet, with a value for each open request.

    It is closed by `close`, or as a context manager, or when it is let go. Threads may share it: their calls come one after the other.
    """

    _calls: Calls

    def __init__(self, slots: int) -> None:
        """`slots` is how many requests may be open at a time, 1 to 32768; their stream ids are those below it."""
        must_be_new(self)
        self._turns = Turns()
        self._handle = _native.Handle(0, None)
        # The library carries a number with each request: the place of its value here.
        self._values: Dict[int, Any] = {}
        self._given = 0
        if not 0 <= slots < 1 << 32:
            raise BadCall(Code.BAD_SLOTS)
        must_be_done(self._calls.new(slots, self._handle))

    def _keep(self, call: Callable[[int], Any], value: Any) -> None:
        """Makes a call that hands this value in, and keeps it where the call is done."""
        must_be_done(call(self._given))
        self._values[self._given] = value
        self._given += 1

    @property
    @one_at_a_time
    def phase(self) -> Union[Phase, int]:
        """How far the setting up of the connection has come."""
        phase = ctypes.c_uint8()
        must_be_done(self._calls.phase(self._handle, phase))
        found: Union[Phase, int] = _PHASES[phase.value]
        return found

    @one_at_a_time
    def close(self) -> None:
        """Frees the core, and lets the values go; a second time does nothing. Each other call raises Closed from then on."""
        self._calls.free(self._handle)
        self._values.clear()

    def __exit__(self, *_: object) -> None:
        self.close()

    def __del__(self) -> None:
        if hasattr(self, "_handle"):
            self._calls.free(self._handle)
