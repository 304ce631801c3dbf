"""Frames written of their events, by cqlp_encode."""

import ctypes
import operator
import struct
from typing import Any, Iterable, Iterator, List, Optional, Tuple

from . import _native
from ._decoder import _FIELDS, _TAGS, BadCall
from ._events import Event, camel
from .numbers import Kind, Mark, Tag

_compiled: Any = _native.compiled("_records")

# No event has more bytes in its frame than these and its content.
_MOST = 24
_TEXT, _LEAF, _UUID = map(int, (Tag.TEXT, Tag.LEAF, Tag.UUID))
_LENT = (int(Tag.BYTES), int(Tag.BOUND))
_KINDS = frozenset(map(int, (Kind.CUSTOM, Kind.ASCII, Kind.BLOB, Kind.DECIMAL, Kind.VARCHAR, Kind.VARINT, Kind.RAW)))
_OCTETS = {int(Kind.FLOAT): 4, int(Kind.DOUBLE): 8, int(Kind.UUID): 16, int(Kind.TIMEUUID): 16}
_NO_EVENT = bytes(_native.RECORD.size)


class BadEvent(BadCall):
    """No frame has these events, and nothing was written; of a PageWriter, nothing more. `code` says why, as `include/cqlp.h` does of cqlp_encode: of
    one event it is `NO_EVENT`, `MISPLACED` or `UNBUILT`, or `NO_SUCH_FRAME` where it is the first that is of another field than is due, or does not
    agree with what comes before it. Of all together it is `NO_SUCH_FRAME` where some are missing; of the head of a page also where one does not fit."""

    def __init__(self, code: int, index: int, event: Optional[Event]) -> None:
        super().__init__(code)
        self.index = index
        """Which event it is, from 0; how many there are where it is none of them."""
        self.event = event
        """That event, or None where it is none of them."""

    def __str__(self) -> str:
        if self.event is None:
            return "the events together: " + super().__str__()
        words = [_word(_TAGS, self.event.tag)]
        if self.event.field:
            words.append(_word(_FIELDS, self.event.field))
        return "event %d, %s: %s" % (self.index, " ".join(words), super().__str__())


def _word(names: Tuple[Any, ...], number: int) -> str:
    """The word of a number that may have none."""
    number = operator.index(number)
    return camel(names[number] if 0 <= number < len(names) else number)


def encode(events: Iterable[Event]) -> bytes:
    """The bytes of the frame that has these events. Raises BadEvent."""
    given = tuple(events)
    records, contents = pack(given)
    encoded = _native.Encoded()
    code, room = _native.NO_ROOM, len(contents) + _MOST * len(given)
    while code == _native.NO_ROOM:
        out = bytearray(max(1, room, encoded.length))
        place = ctypes.addressof(ctypes.c_char.from_buffer(out))
        code = _native.library.cqlp_encode(records, len(given), contents, len(contents), place, len(out), encoded)
    if code == _native.NO_MEMORY:
        raise MemoryError("cqlp")
    if code:
        raise BadEvent(code, encoded.event, given[encoded.event] if encoded.event < len(given) else None)
    return bytes(memoryview(out)[: encoded.length])


def encode_frames(events: Iterable[Event]) -> Iterator[bytes]:
    """The bytes of each frame of a stream of events, as of `cqlp.events`, once its end came, or else the event of the next frame. What `encode`
    raises it raises."""
    frame: List[Event] = []
    for event in events:
        if event.tag == Tag.FRAME and frame:
            yield encode(frame)
            frame = []
        frame.append(event)
        if event.tag == Tag.END:
            yield encode(frame)
            frame = []
    if frame:
        yield encode(frame)


def pack(events: Tuple[Event, ...]) -> Tuple[bytes, bytes]:
    """The array of cqlp_event of these events, and their contents. Raises TypeError where one is no event."""
    found: Tuple[bytes, bytes] = _pack(events) if _compiled is None else _compiled.pack(events, Event)
    return found


def must_be_event(event: Event) -> None:
    if not isinstance(event, Event) or len(event) != len(Event._fields):
        raise TypeError("an Event is wanted")


def _pack(events: Tuple[Event, ...]) -> Tuple[bytes, bytes]:
    """The array of cqlp_event of these events, and their contents, as _records.c makes them."""
    found = [_record(event) for event in events]
    return b"".join(record for record, _ in found), b"".join(content for _, content in found)


def _record(event: Event) -> Tuple[bytes, bytes]:
    """An event as C has it, and its content. An event that a cqlp_event cannot hold has no tag, so that cqlp_encode refuses it in its turn."""
    must_be_event(event)
    _, content, number, row, column, level, extra, octets, tag, field, kind, opcode, flags, mark = event
    content, octets = b"".join((content,)), b"".join((octets,))
    numbers, record = (number, row, column, level, extra, tag, field, kind, opcode, flags, mark), _NO_EVENT
    wanted = _OCTETS.get(kind) if tag == _LEAF else 16 if tag == _UUID else None
    fits = len(octets) <= 16 if wanted is None else len(octets) == wanted
    if not _has_content(tag, kind, mark):
        content = b""
    try:
        record = _native.RECORD.pack(0, 0, len(content), *numbers[:5], octets, *numbers[5:], min(255, len(octets)))
    except struct.error:
        for each in numbers:
            operator.index(each)
        fits = False
    return (record, content) if fits else (_NO_EVENT, b"")


def _has_content(tag: int, kind: int, mark: int) -> bool:
    """Whether its content is one of those that cqlp_encode takes."""
    return tag == _TEXT or (tag in _LENT and mark == Mark.NONE) or (tag == _LEAF and kind in _KINDS)
