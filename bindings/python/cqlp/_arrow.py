"""Batches as Apache Arrow has them, by its C data interface: pyarrow, polars and others take them without a copy, and need nothing of this package.

A text is a `large_string`; a blob, a custom value and an address are a `large_binary`, with the bytes that the protocol has; a uuid is a
`fixed_size_binary(16)` of the extension `arrow.uuid`; a timestamp is in milliseconds in UTC, a time in nanoseconds. Lists and sets are a `large_list`,
maps a `map`, tuples and udts a `struct`, whose fields are named 0, 1 and so on in a tuple. A value of no bytes is a null where all values of its type
have the same length, and one with items is too. Each column has its type's text in its metadata, under `cqlp.type`.

Decimals whose values in a batch have one scale are a `decimal128`, or a `decimal256` where 38 digits are not enough, and others a `large_string`. A
varint is a decimal with the scale 0. A stream has the types of its first batch: a later number with a smaller scale is written with that of its column, and
one that does not fit ends the stream. With `decimals="text"` all are a `large_string`, and with `decimals="bytes"` a `large_binary`.
"""

import importlib
import struct
from array import array
from typing import Any, Dict, List, Literal, Optional, Tuple

from ._types import Column, Type
from ._values import LEAVES, exact, integer
from .numbers import Kind

Decimals = Literal["decimal", "text", "bytes"]
"""What decimals and varints are in Arrow."""

_FORMATS: Dict[int, bytes] = {
    Kind.TINYINT: b"c",
    Kind.SMALLINT: b"s",
    Kind.INT: b"i",
    Kind.BIGINT: b"l",
    Kind.COUNTER: b"l",
    Kind.FLOAT: b"f",
    Kind.DOUBLE: b"g",
    Kind.BOOLEAN: b"b",
    Kind.ASCII: b"U",
    Kind.VARCHAR: b"U",
    Kind.TIMESTAMP: b"tsm:UTC",
    Kind.DATE: b"tdD",
    Kind.TIME: b"ttn",
    Kind.UUID: b"w:16",
    Kind.TIMEUUID: b"w:16",
}
_TEXT, _BINARY, _LIST, _MAP, _STRUCT, _NULLABLE = b"U", b"Z", b"+L", b"+m", b"+s", 2
_FORMATS.update({Kind.LIST: _LIST, Kind.SET: _LIST, Kind.MAP: _MAP, Kind.TUPLE: _STRUCT, Kind.UDT: _STRUCT})
_UUID_WORDS = ((b"ARROW:extension:name", b"arrow.uuid"), (b"ARROW:extension:metadata", b""))

Parts = Tuple[Any, ...]
"""What _capsules.c makes a schema or an array of."""


def capsules() -> Any:
    """The module in C. Raises ImportError where it was not built."""
    return importlib.import_module("._capsules", __package__)


def schema_of(type: Type, name: str, forms: Parts = (), flags: int = _NULLABLE) -> Parts:
    """What a schema of a type is made of. `forms` are those of the decimals in it, as `form_of_decimals` gives them: one, or of a type with items a tuple
    for each type in it."""
    form = _FORMATS.get(type.kind) or (forms[0] if type.kind in DECIMALS else _BINARY)
    words = _UUID_WORDS if form == b"w:16" else ()
    metadata, word = _metadata(*words, (b"cqlp.type", str(type).encode())), name.replace("\0", "\\0").encode()  # no string in C has a zero
    if type.kind == Kind.MAP:
        inner = tuple(map(schema_of, type.inner, ("key", "value"), forms, (0, _NULLABLE)))
        return form, word, metadata, flags, ((_STRUCT, b"entries", None, 0, inner),)
    names = list(type.names) or (["item"] if form == _LIST else [str(at) for at in range(len(type.inner))])
    return form, word, metadata, flags, tuple(map(schema_of, type.inner, names, forms))


DECIMALS = (Kind.DECIMAL, Kind.VARINT)


def form_of_decimals(array: Any) -> bytes:
    """The format of a column of decimals or varints."""
    if array.decimals == "bytes":
        return _BINARY
    found = array.decimals == "decimal" and capsules().scale_of(*_numbers(array))
    return b"d:%d,%d%s" % (*found, b",256" if found[0] > 38 else b"") if found else _TEXT


def _numbers(array: Any) -> Tuple[Any, ...]:
    """The values, offsets, cells that are there, their count, and whether they have a scale each."""
    return array.values, _bytes_of(array.offsets), _there(array), array.cells, array.kind == Kind.DECIMAL


def _bytes_of(offsets: Optional[memoryview]) -> bytes:
    if offsets is None:
        return bytes(8)
    return offsets.obj if isinstance(offsets.obj, bytes) else bytes(offsets)


def _there(array: Any) -> Optional[bytes]:
    """A bit for each cell that has a value of some bytes."""
    validity: Optional[bytes] = array.validity
    if array.empties is None:
        return validity
    empties: bytes = array.empties
    valid: int = int.from_bytes(validity, "little") if validity else (1 << array.cells) - 1
    return (valid & ~int.from_bytes(empties, "little")).to_bytes(len(empties), "little")


def _array_of_decimals(array: Any, form: bytes, name: str) -> Parts:
    there, values, offsets = _there(array), array.values, _bytes_of(array.offsets)
    if form == _BINARY:
        return array.cells, _nulls(array.validity, array.cells), (array.validity, offsets, values), ()
    if form == _TEXT:
        ends, texts = _texts(array, there)
        return array.cells, _nulls(there, array.cells), (there, ends, texts), ()
    digits, scale = map(int, form[2:].split(b",")[:2])
    found = capsules().decimals(*_numbers(array), scale, digits)
    if isinstance(found, int):
        number = _texts_of(array, [found])[0].decode()
        number = number if len(number) < 100 else number[:100] + ".."
        raise ValueError('the column %r has the number %s, which is no decimal%d(%d, %d): pass decimals="text" for texts in its place'
                         % (name, number, 128 if digits == 38 else 256, digits, scale))
    return array.cells, _nulls(there, array.cells), (there, found), ()


def _texts(of: Any, there: Optional[bytes]) -> Tuple[bytes, bytes]:
    """Where each text begins among those of all, and these."""
    ends, texts, end = array("q", (0,)), [], 0
    for at in range(of.cells):
        if there is None or there[at // 8] >> at % 8 & 1:
            texts += _texts_of(of, [at])
            end += len(texts[-1])
        ends.append(end)
    return ends.tobytes(), b"".join(texts)


def _texts_of(array: Any, cells: List[int]) -> List[bytes]:
    spans = [array.values[array.offsets[at] : array.offsets[at + 1]] for at in cells]
    if array.kind == Kind.VARINT:
        return [str(exact(integer(content))).encode() for content in spans]
    return [str(LEAVES[Kind.DECIMAL](0, content[4:], integer(content[:4]), b"")).encode() for content in spans]


def schema_of_batch(columns: Tuple[Parts, ...]) -> Parts:
    return _STRUCT, b"", None, 0, columns


def _metadata(*pairs: Tuple[bytes, bytes]) -> bytes:
    words = [word for pair in pairs for word in pair]
    return struct.pack("=i", len(pairs)) + b"".join(struct.pack("=i", len(word)) + word for word in words)


def _nulls(validity: Optional[bytes], cells: int) -> int:
    return 0 if validity is None else cells - bin(int.from_bytes(validity, "little")).count("1")


def array_of(of: Any, schema: Parts, name: str) -> Parts:
    """What an array of a ColumnArray is made of, as this schema has it; `name` is that of its column."""
    form, children, cells, validity = schema[0], schema[4], of.cells, of.validity
    if of.kind in DECIMALS:
        return _array_of_decimals(of, form, name)
    if form == _MAP:
        children = children[0][4]
    items = tuple(array_of(one, inner, name) for one, inner in zip(of.items, children))
    nulls = _nulls(validity, cells)
    if form == _STRUCT:
        return cells, nulls, (validity,), items
    if form == _MAP:
        if items[0][1]:
            raise ValueError("a key of a map in the column %r is null, which no map of Arrow has: leave the column out" % name)
        ends = array("i", of.offsets or (0,))
        return cells, nulls, (validity, ends.tobytes()), ((ends[-1], 0, (None,), items),)
    if form in (_TEXT, _BINARY, _LIST):
        return cells, nulls, (validity, _bytes_of(of.offsets)) + (() if form == _LIST else (of.values,)), items
    return cells, nulls, (validity, _from_1970(of.values) if of.kind == Kind.DATE else of.values), ()


def _from_1970(dates: bytes) -> bytes:
    """Days from 1970 in two's complement, of days of which 2^31 is its first."""
    flip = int.from_bytes(b"\0\0\0\x80" * (len(dates) // 4), "little")
    return (int.from_bytes(dates, "little") ^ flip).to_bytes(len(dates), "little")


def array_of_batch(count: int, columns: Tuple[Parts, ...]) -> Parts:
    return count, 0, (None,), columns
