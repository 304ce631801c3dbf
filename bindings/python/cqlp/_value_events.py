"""The events of a cell, of its value and its type: the inverse of what `cqlp.rows` makes of them. And the bytes of a value that is bound."""

import datetime
import decimal
import ipaddress
import operator
import reprlib
import struct
import uuid
from collections.abc import Mapping
from functools import lru_cache, partial
from typing import Any, Callable, Dict, Iterable, List, Tuple, Union

from . import _encode
from ._events import Event
from ._turns import Error
from ._types import Type, has_arity
from ._values import _EPOCH, _ORDINAL, EMPTY, Days, Milliseconds, Unset, ValueOf
from .numbers import Field, Kind, Mark, Opcode, ResultKind, Tag


class BadValue(Error, ValueError):
    """A value of a message, or of a cell, that no frame has; nothing was written. `field` says where in the message it is, as
    `Query.parameters.values[2]` or `Rows.rows[0]['tags'][1]`."""

    def __init__(self, value: Any, why: str) -> None:
        super().__init__(why)
        self.field = ""
        self.value = value
        self.why = why

    def within(self, place: str) -> "BadValue":
        """The same, where what `field` names is at this place of something greater."""
        dot = "" if not self.field or self.field.startswith("[") else "."
        self.field = place + dot + self.field
        return self

    def __str__(self) -> str:
        return "%s: %s: %s" % (self.field or "the value", reprlib.repr(self.value), self.why)


# ---- scalars: of each kind the number, content, extra and octets of its event, which LEAVES of _values.py reads again

Parts = Tuple[int, bytes, int, bytes]


def _integer(least: int, most: int) -> Callable[[Any], Parts]:
    return lambda value: (number_within(value, least, most), b"", 0, b"")


def number_within(value: Any, least: int, most: int) -> int:
    """A number in this range."""
    number = value if type(value) is int else _number(value)
    if least <= number <= most:
        return number
    raise BadValue(value, "a number from %d to %d is wanted" % (least, most))


def _number(value: Any) -> int:
    try:
        return operator.index(value)
    except TypeError:
        raise BadValue(value, "an int is wanted") from None


def _twos_complement(number: int) -> bytes:
    return number.to_bytes(1 + (number if number >= 0 else ~number).bit_length() // 8, "big", signed=True)


def _varint(value: Any) -> Parts:
    return 0, _twos_complement(_number(value)), 0, b""


def _decimal(value: Any) -> Parts:
    if not isinstance(value, decimal.Decimal) or not value.is_finite():
        raise BadValue(value, "a Decimal is wanted that is finite")
    exponent = value.as_tuple().exponent
    assert isinstance(exponent, int)
    if not -(1 << 31) <= -exponent < 1 << 31:
        raise BadValue(value, "a Decimal is wanted whose exponent has four bytes")
    return 0, _twos_complement(int(value.scaleb(-exponent, _WIDE))), -exponent, b""


_WIDE = decimal.Context(prec=decimal.MAX_PREC, Emin=decimal.MIN_EMIN, Emax=decimal.MAX_EMAX)


def _float(form: str) -> Callable[[Any], Parts]:
    pack = struct.Struct(form).pack

    def parts(value: Any) -> Parts:
        try:
            return 0, b"", 0, pack(value)
        except (struct.error, OverflowError):
            raise BadValue(value, "a float is wanted that has %d bytes" % struct.calcsize(form)) from None

    return parts


def _boolean(value: Any) -> Parts:
    if value is not True and value is not False:
        raise BadValue(value, "True or False is wanted")
    return int(value), b"", 0, b""


def text_content(value: Any) -> bytes:
    """A text in UTF-8."""
    if not isinstance(value, str):
        raise BadValue(value, "a str is wanted")
    try:
        return value.encode()
    except UnicodeEncodeError:
        raise BadValue(value, "no UTF-8 has a surrogate") from None


def _text(value: Any) -> Parts:
    return 0, text_content(value), 0, b""


def _ascii(value: Any) -> Parts:
    content = text_content(value)
    if not content.isascii():
        raise BadValue(value, "a str of ASCII is wanted")
    return 0, content, 0, b""


def bytes_content(value: Any) -> bytes:
    """Bytes, of any buffer."""
    if type(value) is bytes:
        return value
    if not isinstance(value, (bytes, bytearray, memoryview)):
        raise BadValue(value, "bytes are wanted")
    return bytes(value)


def _blob(value: Any) -> Parts:
    return 0, bytes_content(value), 0, b""


def uuid_octets(value: Any) -> bytes:
    """The 16 bytes of a uuid."""
    if not isinstance(value, uuid.UUID):
        raise BadValue(value, "a uuid.UUID is wanted")
    return value.bytes


def _uuid(value: Any) -> Parts:
    return 0, b"", 0, uuid_octets(value)


def packed_address(value: Any) -> bytes:
    """The 4 or 16 bytes of an address."""
    if not isinstance(value, (ipaddress.IPv4Address, ipaddress.IPv6Address)):
        raise BadValue(value, "an IPv4Address or IPv6Address is wanted")
    return value.packed


def _inet(value: Any) -> Parts:
    return 0, b"", 0, packed_address(value)


_LONG = _integer(-(1 << 63), (1 << 63) - 1)
_MILLISECOND = datetime.timedelta(milliseconds=1)


def _timestamp(value: Any) -> Parts:
    if isinstance(value, Milliseconds):
        return _LONG(value)
    if not isinstance(value, datetime.datetime) or value.tzinfo is None:
        raise BadValue(value, "a datetime with a time zone is wanted, or Milliseconds")
    return (value - _EPOCH) // _MILLISECOND, b"", 0, b""


def _date(value: Any) -> Parts:
    if isinstance(value, Days):
        days = int(value)
    elif isinstance(value, datetime.date) and not isinstance(value, datetime.datetime):
        days = value.toordinal() - _ORDINAL
    else:
        raise BadValue(value, "a date is wanted, or Days")
    if not -(1 << 31) <= days < 1 << 31:
        raise BadValue(value, "days have four bytes")
    return days + (1 << 31), b"", 0, b""


_NANOSECONDS = _integer(0, 86_399_999_999_999)


def _time(value: Any) -> Parts:
    if isinstance(value, datetime.time):
        if value.tzinfo is not None:
            raise BadValue(value, "a time without a time zone is wanted, or Nanoseconds")
        seconds = (value.hour * 60 + value.minute) * 60 + value.second
        return seconds * 1_000_000_000 + value.microsecond * 1000, b"", 0, b""
    return _NANOSECONDS(value)


_PARTS: Dict[int, Callable[[Any], Parts]] = {
    Kind.CUSTOM: _blob,
    Kind.ASCII: _ascii,
    Kind.BIGINT: _LONG,
    Kind.BLOB: _blob,
    Kind.BOOLEAN: _boolean,
    Kind.COUNTER: _LONG,
    Kind.DECIMAL: _decimal,
    Kind.DOUBLE: _float(">d"),
    Kind.FLOAT: _float(">f"),
    Kind.INT: _integer(-(1 << 31), (1 << 31) - 1),
    Kind.TIMESTAMP: _timestamp,
    Kind.UUID: _uuid,
    Kind.VARCHAR: _text,
    Kind.VARINT: _varint,
    Kind.TIMEUUID: _uuid,
    Kind.INET: _inet,
    Kind.DATE: _date,
    Kind.TIME: _time,
    Kind.SMALLINT: _integer(-(1 << 15), (1 << 15) - 1),
    Kind.TINYINT: _integer(-(1 << 7), (1 << 7) - 1),
    Kind.RAW: _blob,
}
_TEXTS = (Kind.ASCII, Kind.VARCHAR)
_BYTES = (Kind.BLOB, Kind.CUSTOM, Kind.RAW)

# ---- cells: a function for each type, that adds the events of a value

Put = Callable[[List[Event], ValueOf, int, int, int], None]
"""Adds the events of a value in this row, column and level."""
_LEAF, _NULL, _EMPTY, _ENTER, _LEAVE = Tag.LEAF, Tag.NULL, Tag.EMPTY, Tag.ENTER, Tag.LEAVE


@lru_cache(512)
def putting(type: Type) -> Put:
    """What adds the events of a value of this type."""
    kind = type.kind
    if kind in _PARTS:
        return _scalar(kind)
    if kind not in _ITEMS:
        raise BadValue(type, "no such type is written")
    return _with_items(kind, tuple(map(putting, type.inner)), partial(_ITEMS[kind], type))


def _scalar(kind: int) -> Put:
    parts = _PARTS[kind]
    empty = "" if kind in _TEXTS else b"" if kind in _BYTES else EMPTY

    def put(events: List[Event], value: ValueOf, row: int, column: int, level: int) -> None:
        if value is None:
            events.append(_absent(_NULL, row, column, level))
        elif value is EMPTY or value == empty:
            events.append(_absent(_EMPTY, row, column, level))
        else:
            number, content, extra, octets = parts(value)
            events.append(_new(Event, (0, content, number, row, column, level, extra, octets, _LEAF, 0, kind, 0, 0, 0)))

    return put


# An event of the members, all of them in their order: in half the time of `Event(..)`.
_new = tuple.__new__


def _absent(tag: Tag, row: int, column: int, level: int) -> Event:
    """That of a null, or of no bytes."""
    return _new(Event, (0, b"", 0, row, column, level, 0, b"", tag, 0, 0, 0, 0, 0))


def _around(tag: Tag, kind: int, count: int, row: int, column: int, level: int) -> Event:
    """That of the begin or the end of a value with items."""
    return _new(Event, (0, b"", count, row, column, level, 0, b"", tag, 0, kind, 0, 0, 0))


def _with_items(kind: int, inner: Tuple[Put, ...], items: "Callable[[Any], Items]") -> Put:
    """Of a list, set, map, tuple or udt: `items` gives how many it says that it has, its items in order, and their names, if they have any."""
    kinds = len(inner)

    def put(events: List[Event], value: ValueOf, row: int, column: int, level: int) -> None:
        if value is None or value is EMPTY:
            events.append(_absent(_NULL if value is None else _EMPTY, row, column, level))
            return
        count, found, names = items(value)
        events.append(_around(_ENTER, kind, count, row, column, level))
        at = 0
        try:
            for item in found:
                inner[at % kinds](events, item, row, column, level + 1)
                at += 1
        except BadValue as bad:
            raise bad.within("[%r]" % names[at] if names else "[%d]" % (at // 2 if kind == Kind.MAP else at)) from None
        events.append(_around(_LEAVE, 0, count, row, column, level))

    return put


Items = Tuple[int, Iterable[ValueOf], Tuple[str, ...]]


def _items_of_list(type: Type, value: Any) -> Items:
    if not isinstance(value, (list, tuple)):
        raise BadValue(value, "a list is wanted for %s" % (type,))
    return len(value), value, ()


def _items_of_set(type: Type, value: Any) -> Items:
    if not isinstance(value, (set, frozenset, list, tuple)):
        raise BadValue(value, "a set is wanted for %s" % (type,))
    return len(value), value, ()


def _items_of_map(type: Type, value: Any) -> Items:
    pairs = _pairs(type, value)
    return len(pairs), [item for pair in pairs for item in pair], ()


def _items_of_tuple(type: Type, value: Any) -> Items:
    if not isinstance(value, (list, tuple)) or len(value) != len(type.inner):
        raise BadValue(value, "a tuple with %d items is wanted for %s" % (len(type.inner), type))
    return len(value), value, ()


def _items_of_udt(type: Type, value: Any) -> Items:
    found = dict(_pairs(type, value))
    unknown = found.keys() - set(type.names)
    if unknown:
        raise BadValue(value, "%s has no field %r" % (type, min(unknown, key=repr)))
    return len(type.names), [found.get(name) for name in type.names], type.names


def _pairs(type: Type, value: Any) -> List[Tuple[Any, Any]]:
    """Those of a dict, or of the tuple of pairs that it is as a key or in a set."""
    if isinstance(value, Mapping):
        return list(value.items())
    if isinstance(value, (list, tuple)) and all(isinstance(pair, (list, tuple)) and len(pair) == 2 for pair in value):
        return [(pair[0], pair[1]) for pair in value]
    raise BadValue(value, "a dict is wanted for %s" % (type,))


_ITEMS: Dict[int, Callable[[Type, Any], Items]] = {
    Kind.LIST: _items_of_list,
    Kind.SET: _items_of_set,
    Kind.MAP: _items_of_map,
    Kind.TUPLE: _items_of_tuple,
    Kind.UDT: _items_of_udt,
}


def parts_of(kind: int, value: ValueOf) -> Parts:
    """The number, content, extra and octets of a scalar."""
    return _PARTS[kind](value)


def items_of(type: Type, value: ValueOf) -> Items:
    """How many items a list, set, map, tuple or udt says that it has, and its items: of a map keys and values in turn."""
    return _ITEMS[type.kind](type, value)


def cell_events(type: Union[Type, str], value: ValueOf, row: int = 0, column: int = 0) -> List[Event]:
    """The events of a cell of this type, whose text is enough, with this value, as `cqlp.rows` gives it: for `encode` and `PageWriter`. Raises
    BadValue."""
    events: List[Event] = []
    putting(Type.of(type))(events, value, row, column, 0)
    return events


# ---- values that are bound


@lru_cache(512)
def type_events(type: Type) -> Tuple[Event, ...]:
    """The events of a type option."""
    if type.kind == Kind.RAW or not (type.kind in _PARTS or type.kind in _ITEMS) or not has_arity(type):
        raise BadValue(type, "no such type is written")
    events = [Event(tag=Tag.TYPE_NODE, kind=type.kind)]
    if type.kind == Kind.CUSTOM:
        events.append(Event(tag=Tag.TEXT, field=Field.CLASS, content=text_content(type.name)))
    elif type.kind == Kind.UDT:
        keyspace, dot, name = type.name.partition(".")
        if not dot or len(type.names) != len(type.inner):
            raise BadValue(type, "a udt has a name `keyspace.name`, and a name for each field")
        events.append(Event(tag=Tag.TEXT, field=Field.KEYSPACE, content=text_content(keyspace)))
        events.append(Event(tag=Tag.TEXT, field=Field.TYPE_NAME, content=text_content(name)))
    if type.kind in (Kind.UDT, Kind.TUPLE):
        events.append(Event(tag=Tag.COUNT, field=Field.FIELDS, number=len(type.inner)))
    for at, inner in enumerate(type.inner):
        if type.kind == Kind.UDT:
            events.append(Event(tag=Tag.TEXT, field=Field.FIELD_NAME, content=text_content(type.names[at])))
        events += type_events(inner)
    return tuple(events)


@lru_cache(512)
def _head(type: Type) -> Tuple[Tuple[Event, ...], int]:
    """The events of a page with one cell of this type up to that cell, and how many bytes they have."""
    words = [Event(tag=Tag.TEXT, field=field) for field in (Field.KEYSPACE, Field.TABLE, Field.COLUMN_NAME)]
    head = (
        Event(tag=Tag.FRAME, mark=Mark.RESPONSE, opcode=Opcode.RESULT),
        Event(tag=Tag.INT, field=Field.RESULT_KIND, number=ResultKind.ROWS),
        Event(tag=Tag.INT, field=Field.META_FLAGS),
        Event(tag=Tag.COUNT, field=Field.COLUMNS, number=1),
        *words,
        *type_events(type),
        Event(tag=Tag.COUNT, field=Field.ROWS, number=1),
    )
    return head, len(_encode.encode((*head, Event(tag=Tag.NULL)))) - 4


def bind(type: Union[Type, str], value: ValueOf) -> Union[bytes, None, Unset]:
    """A value of this type as QUERY, EXECUTE and BATCH have it: its bytes, None of None, and UNSET of UNSET. The type's text is enough:
    `bind("list<int>", [1, 2])`. Raises BadValue."""
    if value is None or isinstance(value, Unset):
        return value
    found = Type.of(type)
    events: List[Event] = []
    putting(found)(events, value, 0, 0, 0)
    head, length = _head(found)
    return encoded(value, (*head, *events))[length + 4 :]


def encoded(value: Any, events: Iterable[Event]) -> bytes:
    """The frame of these events, which are of this value."""
    try:
        return _encode.encode(events)
    except _encode.BadEvent as bad:
        raise BadValue(value, str(bad)) from bad
