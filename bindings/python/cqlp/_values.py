"""Scalars as Python values, and as the texts of `cqlp show`."""

import datetime
import decimal
import ipaddress
import re
import struct
import uuid
from typing import Any, Callable, Dict, List, Union

from .numbers import Kind

ValueOf = Any
"""None, an int, str, bytes, float, bool, Decimal, UUID, datetime, date, address, Nanoseconds, or a collection of these."""


class _Word:
    """A value that is none of Python's."""

    def __init__(self, name: str) -> None:
        self._name = name

    def __repr__(self) -> str:
        return self._name

    def __reduce__(self) -> str:
        return self._name


class Unset(_Word):
    """The type of UNSET."""


EMPTY = _Word("EMPTY")
"""A value of no bytes, of a type that is neither a text nor bytes."""

UNSET = Unset("UNSET")
"""A bound value that is not set."""


class Nanoseconds(int):
    """A `time`: nanoseconds since midnight. `datetime.time` has only microseconds."""

    def time(self) -> datetime.time:
        """Without what is below a microsecond."""
        seconds, nanoseconds = divmod(int(self), 1_000_000_000)
        minutes, second = divmod(seconds, 60)
        hour, minute = divmod(minutes, 60)
        return datetime.time(hour, minute, second, nanoseconds // 1000)


class Days(int):
    """A `date` before the year 1 or after 9999: days from the first of January 1970."""


class Milliseconds(int):
    """A `timestamp` before the year 1 or after 9999: milliseconds from the start of 1970, in UTC."""


_EPOCH = datetime.datetime(1970, 1, 1, tzinfo=datetime.timezone.utc)
_FIRST, _LAST = -62_135_596_800_000, 253_402_300_799_999
_ORDINAL = datetime.date(1970, 1, 1).toordinal()
_EXACT = decimal.Context(prec=decimal.MAX_PREC, Emin=decimal.MIN_EMIN, Emax=decimal.MAX_EMAX)


def uuid_of(octets: bytes) -> uuid.UUID:
    return uuid.UUID(bytes=octets)


address = ipaddress.ip_address


def integer(content: bytes) -> int:
    """A number in two's complement."""
    return int.from_bytes(content, "big", signed=True)


def exact(number: int) -> decimal.Decimal:
    """Of this value, however long. `Decimal(number)` takes time that grows with the square of the length, halves less."""
    half = number.bit_length() // 2
    if half < 8192:
        return decimal.Decimal(number)
    high, low = exact(number >> half), exact(number & ((1 << half) - 1))
    return _EXACT.add(_EXACT.multiply(high, _EXACT.power(2, half)), low)


def timestamp(milliseconds: int) -> Union[datetime.datetime, Milliseconds]:
    if _FIRST <= milliseconds <= _LAST:
        return _EPOCH + datetime.timedelta(milliseconds=milliseconds)
    return Milliseconds(milliseconds)


def date(number: int) -> Union[datetime.date, Days]:
    """Of days, of which 2^31 is the first of January 1970."""
    days = number - (1 << 31)
    ordinal = days + _ORDINAL
    return datetime.date.fromordinal(ordinal) if 1 <= ordinal <= 3_652_059 else Days(days)


def number_of(number: int, content: bytes, extra: int, octets: bytes) -> int:
    return number


def content_of(number: int, content: bytes, extra: int, octets: bytes) -> bytes:
    return content


def text_of(number: int, content: bytes, extra: int, octets: bytes) -> str:
    return content.decode("utf-8")


# Of each kind its value, of an event's number, content, extra and octets. A kind that is not known has its content.
LEAVES: List[Callable[[int, bytes, int, bytes], ValueOf]] = [content_of] * 256
for kind in (Kind.BIGINT, Kind.COUNTER, Kind.INT, Kind.SMALLINT, Kind.TINYINT):
    LEAVES[kind] = number_of
for kind in (Kind.ASCII, Kind.VARCHAR):
    LEAVES[kind] = text_of
for kind in (Kind.UUID, Kind.TIMEUUID):
    LEAVES[kind] = lambda number, content, extra, octets: uuid_of(octets)
LEAVES[Kind.BOOLEAN] = lambda number, content, extra, octets: number != 0
LEAVES[Kind.DECIMAL] = lambda number, content, extra, octets: exact(integer(content)).scaleb(-extra, _EXACT)
LEAVES[Kind.DOUBLE] = lambda number, content, extra, octets: struct.unpack(">d", octets)[0]
LEAVES[Kind.FLOAT] = lambda number, content, extra, octets: struct.unpack(">f", octets)[0]
LEAVES[Kind.TIMESTAMP] = lambda number, content, extra, octets: timestamp(number)
LEAVES[Kind.VARINT] = lambda number, content, extra, octets: integer(content)
LEAVES[Kind.INET] = lambda number, content, extra, octets: address(octets)
LEAVES[Kind.DATE] = lambda number, content, extra, octets: date(number)
LEAVES[Kind.TIME] = lambda number, content, extra, octets: Nanoseconds(number)


_ODD = re.compile('[\x00-\x1f\x7f"\\\\]')


def _escaped(found: "re.Match[str]") -> str:
    letter = found.group()
    return "\\" + letter if letter in '"\\' else "\\x%02x" % ord(letter)


def quoted(content: bytes) -> str:
    return '"' + _ODD.sub(_escaped, content.decode("utf-8")) + '"'


def _hex(content: bytes) -> str:
    return "0x" + content.hex()


def _varint_text(content: bytes) -> str:
    return str(integer(content)) if len(content) <= 16 else _hex(content)


def _time_text(number: int) -> str:
    seconds, nanoseconds = divmod(number, 1_000_000_000)
    return "%02d:%02d:%02d.%09d" % (seconds // 3600, seconds // 60 % 60, seconds % 60, nanoseconds)


def _date_text(number: int) -> str:
    """The years 0000 to 9999 have a date; the year 0, which Python has not, is as long as the year 400."""
    days = number - (1 << 31)
    if -719_528 <= days < -719_162:
        return "0000" + datetime.date.fromordinal(days + _ORDINAL + 146_097).isoformat()[4:]
    day = date(number)
    return "day %d" % days if isinstance(day, Days) else day.isoformat()


_TEXTS: Dict[int, Callable[[Any], str]] = {
    Kind.BOOLEAN: lambda e: "true" if e.number else "false",
    Kind.ASCII: lambda e: quoted(e.content),
    Kind.VARCHAR: lambda e: quoted(e.content),
    Kind.VARINT: lambda e: _varint_text(e.content),
    Kind.DECIMAL: lambda e: "%se%d" % (_varint_text(e.content), -e.extra),
    Kind.TIME: lambda e: _time_text(e.number),
    Kind.DATE: lambda e: _date_text(e.number),
    Kind.UUID: lambda e: str(uuid_of(e.octets)),
    Kind.TIMEUUID: lambda e: str(uuid_of(e.octets)),
    Kind.INET: lambda e: address(e.octets).exploded,
    Kind.FLOAT: lambda e: _hex(e.octets),
    Kind.DOUBLE: lambda e: _hex(e.octets),
}

_NUMBERS = {Kind.BIGINT, Kind.COUNTER, Kind.TIMESTAMP, Kind.INT, Kind.SMALLINT, Kind.TINYINT}


def leaf_text(event: Any) -> str:
    """The text of a cell, as `cqlp show` writes it."""
    if event.kind in _NUMBERS:
        return str(event.number)
    text = _TEXTS.get(event.kind)
    return text(event) if text else _hex(event.content)
