"""The decoder, and how it ends."""

import ctypes
from dataclasses import dataclass
from typing import TYPE_CHECKING, Any, Callable, Iterator, List, NamedTuple, Optional, Tuple, Union

from . import _native
from ._events import Event, camel
from ._names import name
from ._turns import Error, Turns, one_at_a_time
from .numbers import Code, End, Field, Group, Kind, Mark, Opcode, Reason, Stop, Tag

if TYPE_CHECKING:
    from _typeshed import ReadableBuffer

    Buffer = ReadableBuffer
else:
    Buffer = Any

_CODES = {int(code): code for code in Code}


class BadLimits(Error, ValueError):
    """A limit is out of its range; `limit` is its name."""

    def __init__(self, limit: str) -> None:
        super().__init__("the limit %r is out of its range" % limit)
        self.limit = limit


class BadCall(Error, ValueError):
    """What was asked for cannot be done, and nothing was changed; `code` says why."""

    def __init__(self, code: int) -> None:
        super().__init__(name(Group.CODE, code) or "code %d" % code)
        self.code: Union[Code, int] = _CODES.get(code, code)


class Refused(Error, ValueError):
    """A stream is refused: at the offset `at` of the field that could not be made, for `reason`. `events` are those of the last
    piece that come before, and `rest` its bytes that come after them: give them to the decoder again after `Decoder.skip`. `header` has
    the nine bytes of the header of a frame of another version, for `version_error`; for other reasons none."""

    def __init__(
        self, at: int, reason: Union[Reason, int], events: "List[Event]", rest: bytes = b"", header: bytes = b""
    ) -> None:
        super().__init__("refused at %d: %s" % (at, camel(reason)))
        self.at = at
        self.reason = reason
        self.events = events
        self.rest = rest
        self.header = header


class Cut(Error, EOFError):
    """A stream ends within the frame that begins at the offset `at`, after `bytes` bytes."""

    def __init__(self, at: int, bytes: int) -> None:
        super().__init__("cut after %d bytes, within the frame at %d" % (bytes, at))
        self.at = at
        self.bytes = bytes


class Closed(Error, ValueError):
    """The decoder, or the client's core, was closed."""

    def __init__(self, what: str = "the decoder") -> None:
        super().__init__("%s was closed" % what)


@dataclass(frozen=True)
class Limits:
    """What a decoder holds at most, and what it reads."""

    text: int = 1 << 20
    """The bytes of one [string] or [long string]: 32 to 16777216."""
    cell: int = 1 << 20
    """The bytes of one [bytes], [short bytes], [value] or scalar cell: 32 to 16777216."""
    entries: int = 4096
    """The type options of one metadata, nested ones counted: 1 to 65536."""
    depth: int = 16
    """The nesting of one type, a column's own option having depth 1: 1 to 64."""
    types: bool = True
    """Whether cells are read by the types of their columns; else each is a raw scalar."""
    parts: bool = False
    """Whether a blob, custom or raw scalar longer than `cell` comes in parts of that size; else it is refused."""

    def _native(self) -> _native.Limits:
        for name in ("text", "cell", "entries", "depth"):
            if not 0 <= getattr(self, name) < 1 << 32:
                raise BadLimits(name)
        return _native.Limits(self.text, self.cell, self.entries, self.depth, self.types, self.parts)


class Verdict(NamedTuple):
    """How a stream ends. `str` of it is the verdict line of `cqlp check`."""

    end: End
    at: int
    """Where it is cut: the offset of the frame; where it is refused: that of the field."""
    bytes: int
    """How many bytes were used; 0 where it is refused."""
    reason: Optional[Union[Reason, int]]
    """Where it is refused."""

    def __str__(self) -> str:
        if self.end == End.WHOLE:
            return "whole %d" % self.bytes
        if self.end == End.CUT:
            return "cut %d %d" % (self.at, self.bytes)
        return "refused %d %s" % (self.at, camel(self.reason))


class Held(NamedTuple):
    """What a decoder holds of the stream."""

    bytes: int
    """Of a content that came in pieces: no more than the greater of `text` and `cell`."""
    entries: int
    """The type options of the metadata begun last: no more than `entries`."""
    levels: int
    """The types or values around the one that is read: no more than `depth`."""


class Skipped(NamedTuple):
    """A frame that was passed over, since something in its body is refused."""

    frame: Event
    """The event of its header: its offset, its stream id, its opcode and the bytes of its body."""
    at: int
    """The offset of the field that could not be made."""
    reason: Union[Reason, int]
    rest: int
    """How many of its bytes were still to come."""

    def __str__(self) -> str:
        return "the frame at %d is passed over: refused at %d: %s" % (self.frame.at, self.at, camel(self.reason))


Skip = Callable[[Skipped], Any]
"""Is called with each frame that was passed over."""


def _named(names: Any) -> Tuple[Any, ...]:
    """For each byte the name that it has, or the byte itself."""
    known = {int(name): name for name in names}
    return tuple(known.get(number, number) for number in range(256))


_TAGS, _FIELDS, _KINDS, _OPCODES, _MARKS, _REASONS = map(_named, (Tag, Field, Kind, Opcode, Mark, Reason))
_FULL, _REFUSED = int(Stop.FULL), int(Stop.REFUSED)
# Where the call lies that modules in C make.
_NEXT = ctypes.cast(_native.library.cqlp_next, ctypes.c_void_p).value
_LIMITS = {
    _native.BAD_TEXT: "text",
    _native.BAD_CELL: "cell",
    _native.BAD_ENTRIES: "entries",
    _native.BAD_DEPTH: "depth",
}


def _must_be_done(code: int) -> None:
    if code == _native.DONE:
        return
    if code in _LIMITS:
        raise BadLimits(_LIMITS[code])
    if code == _native.NO_DECODER:
        raise Closed
    raise MemoryError("cqlp") if code == _native.NO_MEMORY else Error("code %d" % code)


def view_of(data: Any) -> memoryview:
    """The bytes of a buffer, which cannot be resized as long as the view lives. Raises TypeError of another object, an int, a str or a list, and
    BufferError of a buffer whose bytes do not lie one after the other."""
    view = memoryview(data)
    if not view.c_contiguous:
        raise BufferError("the bytes of this buffer do not lie one after the other: give a copy, as bytes(data)")
    return view.cast("B") if view.nbytes else memoryview(b"")


def octets_of(data: Any) -> bytes:
    """The bytes of a buffer, a copy where it is no bytes object."""
    return data if type(data) is bytes else bytes(view_of(data))


def must_be_new(made: Any) -> None:
    """Refuses a second `__init__`, which would leak what the first one made."""
    if hasattr(made, "_turns"):
        raise TypeError("__init__ is called once")


def _address(data: bytes) -> int:
    """Where the bytes of an object lie, as long as it lives."""
    return ctypes.cast(ctypes.c_char_p(data), ctypes.c_void_p).value or 0


def _verdict(end: _native.End) -> Verdict:
    refused = end.verdict == End.REFUSED
    return Verdict(End(end.verdict), end.at, end.bytes, _REASONS[end.reason] if refused else None)


Record = Tuple[Any, ...]
"""The members of an event, in the order of include/cqlp.h."""


def event_of(record: Record, content: bytes) -> Event:
    at, _, _, number, row, column, level, extra, octets, tag, field, kind, opcode, flags, mark, count = record
    return Event(
        at,
        content,
        number,
        row,
        column,
        level,
        extra,
        octets[:count],
        _TAGS[tag],
        _FIELDS[field],
        _KINDS[kind],
        _OPCODES[opcode],
        flags,
        _MARKS[mark],
    )


class Placed:
    """The events that one call put, each read where it lies, so until the decoder's next call alone."""

    def __init__(self, array: Any, bytes: Any) -> None:
        self.address = ctypes.addressof(array)
        self.count = 0
        self.cells: Any = None
        """What makes rows of the events of cells as they come, of which none is then left here: a caller may set it."""
        self.rows: List[Any] = []
        """The rows that it made of those of the last call."""
        self.at = 0
        """How many events of the last call it took."""
        self._bytes = bytes

    def __len__(self) -> int:
        return self.count

    def __iter__(self) -> "Iterator[Tuple[Record, bytes]]":
        return (self[at] for at in range(self.count))

    def __getitem__(self, at: int) -> "Tuple[Record, bytes]":
        if not 0 <= at < self.count:
            raise IndexError(at)
        record = _native.RECORD.unpack_from(self._bytes, at * _native.RECORD.size)
        return record, ctypes.string_at(record[1], record[2]) if record[2] else b""


Refusal = Optional[Tuple[int, Any]]
"""The offset and the reason of a refusal, if there is one."""


class Behind:
    """The last eight bytes that were read of a stream: the header of a frame may begin in them."""

    def __init__(self) -> None:
        self.offset = 0
        """How many bytes were read."""
        self._last = b""

    def add(self, piece: bytes) -> None:
        self.offset += len(piece)
        self._last = piece[-8:] if len(piece) >= 8 else (self._last + piece)[-8:]

    def header(self, refusal: Tuple[int, Any], piece: bytes) -> bytes:
        """The header of a frame that is refused in this piece, the next one, for its version; of another refusal no bytes."""
        at, reason = refusal
        if reason != Reason.BAD_VERSION:
            return b""
        first = at - self.offset
        return piece[first : first + 9] if first >= 0 else self._last[first:] + piece[: 9 + first]


class Decoder:
    """Reads the frames of one stream, from pieces of any size.

    It is closed by `close`, or as a context manager, or when it is let go. Threads may share it: each call has the decoder for itself until it
    returns, `decode` for its whole piece, and those of other threads wait.
    """

    def __init__(self, limits: Limits = Limits(), *, room: int = 256, lenient: bool = False) -> None:
        """All of its memory is asked for here. `room` is how many events one call of the library puts. With `lenient` the
        reading goes on at three things that are refused else: a content that its type does not have, by its length or by its bytes, is a Leaf
        of the kind RAW with all its bytes; bytes after the last field of a tuple or a udt are Parts; a type of an id that no kind has is a
        TypeNode of the kind RAW."""
        must_be_new(self)
        self._turns = Turns()
        self._behind = Behind()
        self._header = b""
        self._handle = _native.DecoderHandle()
        self._room = max(1, room)
        self._array = (_native.Event * self._room)()
        self._bytes = (ctypes.c_char * ctypes.sizeof(self._array)).from_buffer(self._array)
        self._batch = _native.Batch()
        self._place = Placed(self._array, self._bytes)
        self._filling: Optional[_native.Handle] = None
        """The columns that calls of the library fill, where they do: then they put one event at most."""
        new = _native.library.cqlp_new_lenient if lenient else _native.library.cqlp_new
        _must_be_done(new(limits._native(), self._handle))

    @one_at_a_time
    def decode(self, data: Buffer) -> List[Event]:
        """All events that the next bytes of the stream end, that of the end of a frame with its last byte: **no call without bytes is due after
        it**. The bytes are in any buffer, and copied. Where the stream is refused, here or before, Refused is raised, and has the events
        before it."""
        events: List[Event] = []
        piece, used = octets_of(data), 0
        for batch, refusal in self._batches(piece):
            events += [event_of(*one) for one in batch]
            used += self._batch.used
            if refusal:
                self._header = self._header or self._behind.header(refusal, piece)
                self._behind.add(piece[:used])
                raise Refused(*refusal, events, piece[used:], self._header)
        self._behind.add(piece)
        return events

    @one_at_a_time
    def skip(self) -> Skipped:
        """Passes over the rest of the frame within which the stream is refused. `decode` goes on with the `rest` of Refused: the bytes that the
        frame still has give no event, and those behind it are read, with their offsets in the whole stream. Raises BadCall with
        NOT_REFUSED, or IN_HEADER where what is refused is a header, so that nobody knows where its frame ends; or TOO_FAR."""
        code, skipped = self._skip()
        if code in (Code.NOT_REFUSED, Code.IN_HEADER, Code.TOO_FAR):
            raise BadCall(code)
        _must_be_done(code)
        return skipped

    @one_at_a_time
    def finish(self) -> Verdict:
        """How the stream ends, if it ends here. It changes nothing."""
        end = _native.End()
        _must_be_done(_native.library.cqlp_finish(self._handle, end))
        return _verdict(end)

    @one_at_a_time
    def held(self) -> Held:
        """How much is held of the stream. It changes nothing."""
        holding = _native.Holding()
        _must_be_done(_native.library.cqlp_held(self._handle, holding))
        return Held(holding.bytes, holding.entries, holding.levels)

    def _give(self, types: "Decoder") -> int:
        """Gives a copy of the types of the metadata that another decoder read last, and answers the code of cqlp_give."""
        table = _native.Handle(0, None)
        try:
            types._types_of(table)
            return self._take(table)
        finally:
            _native.library.cqlp_types_free(table)

    @one_at_a_time
    def _types_of(self, table: _native.Handle) -> None:
        _must_be_done(_native.library.cqlp_types_of(self._handle, table))

    @one_at_a_time
    def _take(self, table: _native.Handle) -> int:
        return int(_native.library.cqlp_give(self._handle, table))

    @one_at_a_time
    def close(self) -> None:
        """Frees the decoder; a second time does nothing. Each other call raises Closed from then on."""
        _native.library.cqlp_free(self._handle)

    def __enter__(self) -> "Decoder":
        return self

    def __exit__(self, *_: object) -> None:
        self.close()

    def __del__(self, _free: Any = _native.library.cqlp_free) -> None:
        if hasattr(self, "_batch"):
            _free(self._handle)

    def _skip(self) -> Tuple[int, Skipped]:
        """The code of cqlp_skip, and the frame that was passed over, if one was."""
        skipped = _native.Skipped()
        code = _native.library.cqlp_skip(self._handle, skipped)
        frame = event_of(_native.RECORD.unpack_from(skipped.frame), b"")
        return code, Skipped(frame, skipped.at, _REASONS[skipped.reason], skipped.rest)

    def _batches(self, data: bytes, skip: Optional[Skip] = None) -> Iterator[Tuple[List[Tuple[Record, bytes]], Refusal]]:
        """The events of a piece with their contents, a list for each call of the library; and beside the last one the refusal. With
        `skip` each frame that can be is passed over. The caller has this decoder for itself."""
        used, stop, base = 0, _FULL, _address(data)
        while stop == _FULL:
            skipped = None
            taken, stop, refusal = self._call(base, len(data), used)
            batch = self._copied(data, base)
            if refusal and skip:
                stop, refusal, skipped = self._passed(refusal)
            used += taken
            yield batch, refusal
            if skip and skipped:
                skip(skipped)

    def _placed(self, data: bytes, skip: Optional[Skip] = None) -> Iterator[Tuple[Placed, Refusal]]:
        """The same for a caller that is done with a batch before it asks for the next."""
        used, stop, base = 0, _FULL, _address(data)
        batch = self._place
        while stop == _FULL:
            skipped = None
            taken, stop, refusal = self._read(base + used, len(data) - used) if batch.cells else self._call(base, len(data), used)
            if refusal and skip:
                # the contents of a batch before a refusal lie in the piece, so they stay
                stop, refusal, skipped = self._passed(refusal)
            used += taken
            batch.count = self._batch.events
            yield batch, refusal
            if skip and skipped:
                skip(skipped)

    def _passed(self, refusal: Refusal) -> Tuple[int, Refusal, Optional[Skipped]]:
        """What becomes of a refusal where frames are passed over: whether it stays, and the frame that was passed over, if one was."""
        code, skipped = self._skip()
        return (_REFUSED, refusal, None) if code else (_FULL, None, skipped)

    def _call(self, base: int, length: int, used: int) -> Tuple[int, int, Refusal]:
        """One call of the library, with what comes after the used bytes: how many it used, why it stopped, and the refusal."""
        batch = self._batch
        if self._filling is None:
            code = _native.library.cqlp_next(self._handle, base + used, length - used, self._array, self._room, batch)
        else:
            code = _native.library.cqlp_columns_next(self._handle, self._filling, base + used, length - used, self._array[0], batch)
        if code:
            _must_be_done(code)
        stop = batch.stop
        return batch.used, stop, self._refusal(batch) if stop == _REFUSED else None

    def _read(self, place: int, length: int) -> Tuple[int, int, Refusal]:
        """The same of some calls that put cells, of which rows are made as they come. The batch is that of the last one."""
        batch, placed = self._batch, self._place
        placed.rows, placed.at, code = placed.cells.read(
            _NEXT, ctypes.addressof(self._handle), place, length, placed.address, self._room, ctypes.addressof(batch)
        )
        if code:
            _must_be_done(code)
        stop = batch.stop
        return batch.used, stop, self._refusal(batch) if stop == _REFUSED else None

    @staticmethod
    def _refusal(batch: _native.Batch) -> Tuple[int, Any]:
        """The offset and the reason of the refusal that ended a batch."""
        return batch.at, _REASONS[batch.reason]

    def _copied(self, data: bytes, base: int) -> List[Tuple[Record, bytes]]:
        """The events that were put, with copies of their contents."""
        past, found = base + len(data), []
        for record in _native.RECORD.iter_unpack(memoryview(self._bytes)[: self._batch.events * _native.RECORD.size]):
            length = record[2]
            if not length:
                found.append((record, b""))
                continue
            place = record[1]
            if base <= place and place + length <= past:
                found.append((record, data[place - base : place - base + length]))
            else:
                found.append((record, ctypes.string_at(place, length)))
        return found


def check(data: Buffer, limits: Limits = Limits()) -> Verdict:
    """How a stream ends that is there whole, in any buffer: what a decoder with these limits says of it."""
    stream, end = octets_of(data), _native.End()
    _must_be_done(_native.library.cqlp_check(limits._native(), _address(stream), len(stream), end))
    return _verdict(end)
