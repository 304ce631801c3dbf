"""Events, and their lines."""

import reprlib
from typing import Callable, Dict, NamedTuple, Optional, Tuple, Union

from ._values import LEAVES, UNSET, ValueOf, address, leaf_text, quoted, uuid_of
from .numbers import Field, Kind, Mark, Opcode, Tag


class Event(NamedTuple):
    """An event: what `include/cqlp.h` says of `cqlp_event`. What its tag has no use for is 0, or no bytes.

    `str(event)` is the line that `cqlp show` writes of it, and `event.value` its value in Python. `encode` writes a frame of its
    events: `event._replace(content=b"..")` is another one, and so is `Event(tag=Tag.SHORT, field=Field.CONSISTENCY, number=1)`.
    """

    at: int = 0
    """The offset in the stream of the event's field; an end's is the frame's end."""
    content: bytes = b""
    number: int = 0
    row: int = 0
    column: int = 0
    level: int = 0
    extra: int = 0
    octets: bytes = b""
    """A uuid, an address or a binary number, in the order of the stream."""
    tag: Union[Tag, int] = 0
    field: Union[Field, int] = 0
    kind: Union[Kind, int] = 0
    opcode: Union[Opcode, int] = 0
    flags: int = 0
    mark: Union[Mark, int] = Mark.NONE

    @property
    def value(self) -> ValueOf:
        """A text is a str, bytes are bytes or None, a uuid a UUID, an [inet] an address and a port, a leaf the value of its
        type; else it is the number. A bound value that is not set is UNSET."""
        tag = self.tag
        if tag == Tag.LEAF:
            return LEAVES[self.kind](self.number, self.content, self.extra, self.octets)
        if tag == Tag.TEXT:
            return self.content.decode("utf-8")
        if tag in (Tag.BYTES, Tag.BOUND):
            return _ABSENT.get(self.mark, self.content)
        if tag == Tag.PART:
            return self.content
        if tag == Tag.UUID:
            return uuid_of(self.octets)
        if tag == Tag.INET:
            return address(self.octets), self.extra
        return None if tag == Tag.NULL else self.number

    def __repr__(self) -> str:
        """Without the members that are as in `Event()`, and of a long content its begin and its end."""
        members = zip(self._fields, self, _DEFAULTS)
        return "Event(%s)" % ", ".join("%s=%s" % (name, reprlib.repr(value)) for name, value, default in members if value != default)

    def __str__(self) -> str:
        words = _WORDS.get(self.tag)
        return " ".join([str(self.at), camel(self.tag), *(words(self) if words else ())])


_DEFAULTS = Event()
_ABSENT: Dict[int, ValueOf] = {Mark.NULL: None, Mark.UNSET: UNSET}
_ABSENT_WORDS: Dict[int, str] = {Mark.NULL: "null", Mark.UNSET: "unset"}


def camel(number: Optional[int]) -> str:
    """The name of a field, a tag or a reason, as lines have it; a number that has none is itself."""
    name = getattr(number, "name", None)
    return str(number) if name is None else "".join(word.capitalize() for word in name.split("_"))


def _kind(event: Event) -> str:
    return getattr(event.kind, "name", str(event.kind)).lower()


def _numbered(event: Event) -> Tuple[str, ...]:
    return camel(event.field), str(event.number)


def _lent(event: Event) -> Tuple[str, ...]:
    """Bytes, or that there are none."""
    return camel(event.field), _ABSENT_WORDS.get(event.mark) or "0x" + event.content.hex()


def _place(event: Event) -> Tuple[str, ...]:
    return str(event.row), str(event.column), str(event.level)


_WORDS: Dict[int, Callable[[Event], Tuple[str, ...]]] = {
    Tag.FRAME: lambda e: (
        "response" if e.mark == Mark.RESPONSE else "request",
        "%02x" % e.flags,
        str(e.extra),
        getattr(e.opcode, "name", str(e.opcode)),
        str(e.number),
    ),
    Tag.BYTE: _numbered,
    Tag.SHORT: _numbered,
    Tag.INT: _numbered,
    Tag.LONG: _numbered,
    Tag.COUNT: _numbered,
    Tag.UUID: lambda e: (camel(e.field), str(uuid_of(e.octets))),
    Tag.TEXT: lambda e: (camel(e.field), quoted(e.content)),
    Tag.BYTES: _lent,
    Tag.BOUND: _lent,
    Tag.INET: lambda e: (camel(e.field), address(e.octets).exploded, str(e.extra)),
    Tag.TYPE_NODE: lambda e: (_kind(e),),
    Tag.LEAF: lambda e: (*_place(e), leaf_text(e)),
    Tag.NULL: _place,
    Tag.EMPTY: _place,
    Tag.ENTER: lambda e: (*_place(e), _kind(e), str(e.number)),
    Tag.LEAVE: lambda e: (str(e.level), str(e.number)),
    Tag.PART: lambda e: (
        *_place(e),
        str(e.number),
        "last" if e.mark == Mark.LAST else "more",
        "0x" + e.content.hex(),
    ),
    Tag.END: lambda e: (str(e.number),),
}
