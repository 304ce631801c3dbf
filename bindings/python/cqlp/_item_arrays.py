"""Arrays in the layout of Apache Arrow of columns whose values have items, made of the values that `rows` gives."""

import sys
from array import array
from typing import Any, Dict, List, Optional, Sequence, Tuple

from ._types import Type
from ._value_events import items_of, parts_of
from ._values import EMPTY, ValueOf
from .numbers import Kind

ITEMS = frozenset(map(int, (Kind.LIST, Kind.SET, Kind.MAP, Kind.TUPLE, Kind.UDT)))
_BYTES = (Kind.ASCII, Kind.VARCHAR, Kind.BLOB, Kind.CUSTOM, Kind.RAW, Kind.VARINT, Kind.DECIMAL, Kind.INET)
_UUIDS = (Kind.UUID, Kind.TIMEUUID)

Members = Tuple[bytes, Optional[memoryview], Optional[bytes], Optional[bytes], Tuple[Any, ...]]
"""The values of a column, their offsets, validity and empties, and the type and the members of each of the arrays in it."""


def members_of(type: Type, values: Sequence[ValueOf], codes: Dict[int, str]) -> Members:
    """The members of the array of these values. `codes` has the code of the items of an `array` for each kind that has numbers."""
    kind = type.kind
    there = [value is not None and value is not EMPTY for value in values]
    empties = [value is EMPTY or (kind in _BYTES and value in ("", b"")) for value in values]
    valid = [one or (empty and kind in _BYTES) for one, empty in zip(there, empties)]
    found: Tuple[bytes, Optional[memoryview], Tuple[Any, ...]]
    if kind in (Kind.TUPLE, Kind.UDT):
        found = b"", None, _fields(type, values, there, codes)
    elif kind in ITEMS:
        found = _lists(type, values, there, codes)
    elif kind in _BYTES:
        contents = [_content(type, value) if one and not empty else b"" for value, one, empty in zip(values, there, empties)]
        found = b"".join(contents), _offsets(map(len, contents)), ()
    else:
        found = _fixed(type, values, there, codes), None, ()
    return found[0], found[1], None if all(valid) else _bits(valid), _bits(empties) if any(empties) else None, found[2]


def _content(type: Type, value: ValueOf) -> bytes:
    _, content, scale, octets = parts_of(type.kind, value)
    return scale.to_bytes(4, "big", signed=True) + content if type.kind == Kind.DECIMAL else content or octets


def _fixed(type: Type, values: Sequence[ValueOf], there: List[bool], codes: Dict[int, str]) -> bytes:
    """The values that all have the same length, zeros where there is none."""
    kind = type.kind
    if kind == Kind.BOOLEAN:
        return _bits([one and value for value, one in zip(values, there)])
    if kind in _UUIDS:
        return b"".join(value.bytes if one else bytes(16) for value, one in zip(values, there))
    found = array(codes[kind])
    if kind in (Kind.FLOAT, Kind.DOUBLE):
        found.extend(value if one else 0.0 for value, one in zip(values, there))
    else:
        found.extend(parts_of(kind, value)[0] if one else 0 for value, one in zip(values, there))
    if sys.byteorder == "big":
        found.byteswap()
    return found.tobytes()


def _lists(type: Type, values: Sequence[ValueOf], there: List[bool], codes: Dict[int, str]) -> Tuple[bytes, memoryview, Tuple[Any, ...]]:
    """Of lists, sets and maps where each begins among the items of all, and these."""
    items: List[List[ValueOf]] = [list(items_of(type, value)[1]) if one else [] for value, one in zip(values, there)]
    width = len(type.inner)
    flat = [item for each in items for item in each]
    inner = tuple((one, members_of(one, flat[at::width], codes)) for at, one in enumerate(type.inner))
    return b"", _offsets(len(each) // width for each in items), inner


def _fields(type: Type, values: Sequence[ValueOf], there: List[bool], codes: Dict[int, str]) -> Tuple[Any, ...]:
    """Each field of tuples and udts, null where there is no value."""
    rows = [list(items_of(type, value)[1]) if one else [None] * len(type.inner) for value, one in zip(values, there)]
    return tuple((one, members_of(one, [row[at] for row in rows], codes)) for at, one in enumerate(type.inner))


def _offsets(lengths: Any) -> memoryview:
    found, end = array("q", (0,)), 0
    for length in lengths:
        end += length
        found.append(end)
    return memoryview(found.tobytes()).cast("q")


def _bits(bits: Sequence[Any]) -> bytes:
    """A bit for each, the least of a byte first."""
    found = bytearray((len(bits) + 7) // 8)
    for at, bit in enumerate(bits):
        if bit:
            found[at // 8] |= 1 << at % 8
    return bytes(found)
