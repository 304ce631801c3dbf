"""Frames whole, each message of the protocol as a dataclass of its own.

`cqlp.encode(message, stream)` writes a frame with a message. `frames(source)` reads a frame to its end and gives it: a page with all of its rows. So unlike `rows` and `events` it holds as much as a
peer sends in one frame, and more. The body of a frame has up to 268,435,456 bytes, and Python takes some 35 bytes for each byte of a page
of empty sets, 14 of rows of one null. Tuples and udts whose first field alone came are filled with None: a cell of eight bytes takes some
8 bytes for each field of its type, and of a udt some 27, which with the 4,096 of `Limits.entries` is 34 and 107 KB. Where the peer is not
trusted give `longest`, and lower `entries`, or read pages by `Pages`.
"""

import reprlib
from dataclasses import dataclass
from typing import Any, Callable, ClassVar, Dict, Generator, Iterable, Iterator, List, Mapping, Optional, Sequence, Tuple, TypeVar, Union

from . import _pages
from ._decoder import Limits, Skip, event_of
from ._events import Event as _Event
from ._pages import Row, _cells
from ._sources import Batch as _EventBatch
from ._sources import Progress, Source, batches
from ._turns import Error as _PackageError
from ._types import Column, Type, TypeReader
from ._value_events import BadValue, bind
from ._values import Unset, address
from .numbers import BatchType, Consistency, ErrorCode, Field, Mark, Opcode, ResultKind, Tag

T = TypeVar("T")

Value = Union[bytes, None, Unset]
"""A value that is bound: its bytes, or None where it is null, or UNSET where it is not set."""

Address = Any
"""An `ipaddress.IPv4Address` or `IPv6Address`."""

Columns = Iterable[Union[Column, Tuple[str, Union[str, Type]]]]
"""Columns, each a `Column`, or its name and its type, which may be a text: `("tags", "list<text>")`."""


class FrameTooLong(_PackageError, ValueError):
    """The frame at the offset `at` has a body of `length` bytes, more than were asked for."""

    def __init__(self, at: int, length: int) -> None:
        super().__init__("the frame at %d has a body of %d bytes" % (at, length))
        self.at = at
        self.length = length


class Message:
    """What a frame has in its body: one of the classes below. Section 4 of native_protocol_v4.spec."""

    opcode: ClassVar[Opcode]
    """That of its frame."""


_set = object.__setattr__
"""Sets a member of a frozen dataclass, as its `__init__` may."""


def _several(given: Iterable[T]) -> Tuple[T, ...]:
    """Those of a list. A text or bytes, which have items too, are none."""
    if isinstance(given, (str, bytes, bytearray, memoryview)):
        raise TypeError("a list is wanted, not %r" % (given,))
    return tuple(given)


def _pairs(given: Union[Mapping[str, T], Iterable[Tuple[str, T]]]) -> Tuple[Tuple[str, T], ...]:
    """The items of a dict, or pairs as they are."""
    return tuple((key, value) for key, value in (given.items() if isinstance(given, Mapping) else given))


def _flags_of_times(message: Any) -> int:
    """The flags of the parts that both a query and a batch may have."""
    return (0 if message.serial_consistency is None else 0x10) | (0 if message.timestamp is None else 0x20)


@dataclass(frozen=True)
class Frame:
    """A frame with its message."""

    at: int
    """The offset in the stream of its first byte."""
    response: bool
    """Whether it is a response; else it is a request."""
    flags: int
    """Section 2.2."""
    stream: int
    """The stream id."""
    opcode: Union[Opcode, int]
    length: int
    """The bytes of its body."""
    trace_id: Any
    """The `uuid.UUID` of the tracing session, or None where the flag 02 is not set."""
    warnings: Tuple[str, ...]
    payload: Optional[Tuple[Tuple[str, Optional[bytes]], ...]]
    """The custom payload, keys with values, in order, or None where the flag 04 is not set."""
    message: Message
    extra: int
    """How many bytes come after the message, which are passed over."""


# ---- requests


@dataclass(frozen=True)
class Parameters:
    """The parameters of a query. Section 4.1.4."""

    consistency: Union[Consistency, int] = Consistency.LOCAL_ONE
    flags: int = 0
    """Which of the parts below are there: 01 values, 04 page_size, 08 paging_state, 10 serial_consistency, 20 timestamp, and 40 names; the flag of
    a part that is given is set. 02 asks for pages without metadata. A part that is not there is None."""
    values: Optional[Sequence[Value]] = None
    names: Optional[Sequence[str]] = None
    """The names of the values."""
    page_size: Optional[int] = None
    paging_state: Optional[bytes] = None
    serial_consistency: Union[Consistency, int, None] = None
    timestamp: Optional[int] = None
    """In microseconds from 1970."""

    def __post_init__(self) -> None:
        flags = self.flags | _flags_of_times(self)
        if self.values is not None:
            flags |= 0x01
            _set(self, "values", _several(self.values))
        if self.names is not None:
            flags |= 0x40
            _set(self, "names", _several(self.names))
        if self.page_size is not None:
            flags |= 0x04
        if self.paging_state is not None:
            flags |= 0x08
        _set(self, "flags", flags)


_NO_PARAMETERS = (Consistency.LOCAL_ONE, 0, None, None, None, None, None, None)


def _parameters_of(parameters: Optional[Parameters], given: Tuple[Any, ...]) -> Parameters:
    """These parameters, or those that are given one by one."""
    if parameters is None:
        return Parameters(*given)
    if given != _NO_PARAMETERS:
        raise TypeError("parameters are given whole, or one by one")
    return parameters


@dataclass(frozen=True, init=False)
class Startup(Message):
    """The options of a connection. Section 4.1.1."""

    opcode = Opcode.STARTUP
    options: Tuple[Tuple[str, str], ...]

    def __init__(self, options: Union[Mapping[str, str], Tuple[Tuple[str, str], ...]] = (("CQL_VERSION", "3.0.0"),)) -> None:
        _set(self, "options", _pairs(options))


@dataclass(frozen=True)
class Options(Message):
    """A question for the options that are supported. Section 4.1.3."""

    opcode = Opcode.OPTIONS


@dataclass(frozen=True, init=False)
class Query(Message):
    """A query by its text. Section 4.1.4."""

    opcode = Opcode.QUERY
    query: str
    parameters: Parameters

    def __init__(
        self,
        query: str,
        parameters: Optional[Parameters] = None,
        *,
        consistency: Union[Consistency, int] = Consistency.LOCAL_ONE,
        values: Optional[Iterable[Value]] = None,
        names: Optional[Iterable[str]] = None,
        page_size: Optional[int] = None,
        paging_state: Optional[bytes] = None,
        serial_consistency: Union[Consistency, int, None] = None,
        timestamp: Optional[int] = None,
        skip_metadata: bool = False,
    ) -> None:
        """Its parameters are `parameters`, or else are made of the others."""
        given = (consistency, 2 * skip_metadata, values, names, page_size, paging_state, serial_consistency, timestamp)
        _set(self, "query", query)
        _set(self, "parameters", _parameters_of(parameters, given))


@dataclass(frozen=True)
class Prepare(Message):
    """A query to be prepared. Section 4.1.5."""

    opcode = Opcode.PREPARE
    query: str


@dataclass(frozen=True, init=False)
class Execute(Message):
    """A query by the id of its prepared statement. Section 4.1.6. `Prepared.bind` makes its values of Python's."""

    opcode = Opcode.EXECUTE
    id: bytes
    parameters: Parameters

    def __init__(
        self,
        id: bytes,
        parameters: Optional[Parameters] = None,
        *,
        consistency: Union[Consistency, int] = Consistency.LOCAL_ONE,
        values: Optional[Iterable[Value]] = None,
        names: Optional[Iterable[str]] = None,
        page_size: Optional[int] = None,
        paging_state: Optional[bytes] = None,
        serial_consistency: Union[Consistency, int, None] = None,
        timestamp: Optional[int] = None,
        skip_metadata: bool = False,
    ) -> None:
        """Its parameters are `parameters`, or else are made of the others."""
        given = (consistency, 2 * skip_metadata, values, names, page_size, paging_state, serial_consistency, timestamp)
        _set(self, "id", id)
        _set(self, "parameters", _parameters_of(parameters, given))


@dataclass(frozen=True)
class Statement:
    """A statement of a batch: its text, or the id of a prepared one."""

    statement: Union[str, bytes]
    values: Sequence[Value] = ()

    def __post_init__(self) -> None:
        _set(self, "values", _several(self.values))


@dataclass(frozen=True)
class Batch(Message):
    """Statements that are done together. Section 4.1.7."""

    opcode = Opcode.BATCH
    type: Union[BatchType, int]
    statements: Sequence[Statement]
    consistency: Union[Consistency, int] = Consistency.LOCAL_ONE
    flags: int = 0
    """10 serial_consistency, 20 timestamp, set where the part is given; the part of a flag that is not set is None."""
    serial_consistency: Union[Consistency, int, None] = None
    timestamp: Optional[int] = None

    def __post_init__(self) -> None:
        _set(self, "statements", _several(self.statements))
        _set(self, "flags", self.flags | _flags_of_times(self))


@dataclass(frozen=True)
class Register(Message):
    """The types of the events that are asked for. Section 4.1.8."""

    opcode = Opcode.REGISTER
    event_types: Sequence[str]

    def __post_init__(self) -> None:
        _set(self, "event_types", _several(self.event_types))


@dataclass(frozen=True)
class AuthResponse(Message):
    """An answer to a challenge. Section 4.1.2."""

    opcode = Opcode.AUTH_RESPONSE
    token: Optional[bytes]


# ---- responses


@dataclass(frozen=True)
class Error(Message):
    """An error. Section 9. A code after whose message more fields come has a class of its own, below."""

    opcode = Opcode.ERROR
    code: Union[ErrorCode, int]
    message: str


@dataclass(frozen=True)
class Unavailable(Error):
    """1000: too few replicas are alive."""

    consistency: Union[Consistency, int]
    required: int
    alive: int


@dataclass(frozen=True)
class WriteTimeout(Error):
    """1100: too few replicas took a write in time."""

    consistency: Union[Consistency, int]
    received: int
    block_for: int
    write_type: str


@dataclass(frozen=True)
class ReadTimeout(Error):
    """1200: too few replicas answered a read in time."""

    consistency: Union[Consistency, int]
    received: int
    block_for: int
    data_present: int
    """0 where the replica that was asked for data did not answer."""


@dataclass(frozen=True)
class ReadFailure(Error):
    """1300: a read failed on some replicas."""

    consistency: Union[Consistency, int]
    received: int
    block_for: int
    failures: int
    data_present: int


@dataclass(frozen=True)
class FunctionFailure(Error):
    """1400: a function failed."""

    keyspace: str
    name: str
    arguments: Tuple[str, ...]
    """The types of its arguments."""


@dataclass(frozen=True)
class WriteFailure(Error):
    """1500: a write failed on some replicas."""

    consistency: Union[Consistency, int]
    received: int
    block_for: int
    failures: int
    write_type: str


@dataclass(frozen=True)
class AlreadyExists(Error):
    """2400: the keyspace or the table exists; `table` is empty where it is the keyspace."""

    keyspace: str
    table: str


@dataclass(frozen=True)
class Unprepared(Error):
    """2500: no statement with this id is prepared."""

    id: bytes


@dataclass(frozen=True)
class Ready(Message):
    """The connection is open, or REGISTER was done. Section 4.2.2."""

    opcode = Opcode.READY


@dataclass(frozen=True)
class Authenticate(Message):
    """The class of the authenticator that wants an answer. Section 4.2.3."""

    opcode = Opcode.AUTHENTICATE
    authenticator: str


@dataclass(frozen=True, init=False)
class Supported(Message):
    """The supported options, each with its values. Section 4.2.4."""

    opcode = Opcode.SUPPORTED
    options: Tuple[Tuple[str, Tuple[str, ...]], ...]

    def __init__(self, options: Union[Mapping[str, Sequence[str]], Tuple[Tuple[str, Sequence[str]], ...]]) -> None:
        _set(self, "options", tuple((name, _several(values)) for name, values in _pairs(options)))


@dataclass(frozen=True)
class Void(Message):
    """A result that is nothing. Section 4.2.5.1."""

    opcode = Opcode.RESULT


def _columns_of(columns: Columns, keyspace: str, table: str) -> Tuple[Column, ...]:
    """These columns; those without a table are of this one."""
    return tuple(
        column if isinstance(column, Column) else Column(keyspace, table, column[0], Type.of(column[1])) for column in _several(columns)
    )


def _one_table(columns: Tuple[Column, ...]) -> int:
    """The flag 1 where all columns are of one table."""
    return int(len({column[:2] for column in columns}) == 1)


@dataclass(frozen=True)
class Metadata:
    """Describes the columns of a result. Section 4.2.5.2."""

    flags: int
    """1 one table for all columns, 2 more pages, 4 no columns are described."""
    width: int
    """How many columns there are, also where none are described."""
    paging_state: Optional[bytes]
    """Where the result goes on, or None where this is its last page."""
    columns: Tuple[Column, ...]

    @classmethod
    def of(cls, columns: Columns, *, keyspace: str = "", table: str = "", paging_state: Optional[bytes] = None) -> "Metadata":
        """That of these columns. One that is no `Column` is of this keyspace and table."""
        found = _columns_of(columns, keyspace, table)
        flags = _one_table(found) | (0 if paging_state is None else 2)
        return cls(flags, len(found), paging_state, found)


@dataclass(frozen=True, repr=False)
class Rows(Message):
    """A page. Section 4.2.5.2."""

    opcode = Opcode.RESULT
    metadata: Metadata
    count: int
    """How many rows it says that it has. A page without columns has none in `rows`, whatever it says."""
    rows: List[Row]
    """Each a tuple with a value of each column, as `cqlp.rows` gives them."""

    def __repr__(self) -> str:
        return "Rows(metadata=%r, count=%d, rows=%s)" % (self.metadata, self.count, reprlib.repr(self.rows))

    @classmethod
    def of(
        cls,
        columns: Columns,
        rows: Iterable[Sequence[Any]],
        *,
        keyspace: str = "",
        table: str = "",
        paging_state: Optional[bytes] = None,
    ) -> "Rows":
        """A page of these rows, each with a value of each column: `Rows.of([("id", "int"), ("tags", "list<text>")], [(1, ["new"])])`. The type of a
        column is a `Type` or its text."""
        found = [_several(row) for row in rows]
        return cls(Metadata.of(columns, keyspace=keyspace, table=table, paging_state=paging_state), len(found), found)


@dataclass(frozen=True)
class SetKeyspace(Message):
    """The keyspace in use. Section 4.2.5.3."""

    opcode = Opcode.RESULT
    keyspace: str


@dataclass(frozen=True)
class Prepared(Message):
    """A statement is prepared. Section 4.2.5.4."""

    opcode = Opcode.RESULT
    id: bytes
    flags: int
    """1 one table for all values that are to be bound."""
    keys: Tuple[int, ...]
    """Which of the values are the partition key, in the key's order."""
    bound: Tuple[Column, ...]
    """The values that are to be bound."""
    result: Metadata
    """Describes the columns of the statement's pages."""

    @classmethod
    def of(
        cls, id: bytes, bound: Columns = (), result: Columns = (), *, keys: Iterable[int] = (), keyspace: str = "", table: str = ""
    ) -> "Prepared":
        """A statement with these values that are to be bound, whose pages will have these columns. One that is no `Column` is of this keyspace and
        table."""
        found = _columns_of(bound, keyspace, table)
        return cls(id, _one_table(found), tuple(keys), found, Metadata.of(result, keyspace=keyspace, table=table))


    def bind(self, values: Sequence[Any]) -> Tuple[Value, ...]:
        """Python values for the statement, as many as `bound`: `Execute(prepared.id, values=prepared.bind([1, "x"]))`. Raises BadValue."""
        if len(values) != len(self.bound):
            raise BadValue(values, "%d values are wanted" % len(self.bound))
        found = []
        for at, (column, value) in enumerate(zip(self.bound, values)):
            try:
                found.append(bind(column.type, value))
            except BadValue as bad:
                raise bad.within("values[%d]" % at) from None
        return tuple(found)


@dataclass(frozen=True)
class SchemaChange(Message):
    """The schema was changed. Section 4.2.5.5."""

    opcode = Opcode.RESULT
    change: str
    """CREATED, UPDATED or DROPPED; another text is kept."""
    target: str
    """What was changed: KEYSPACE, TABLE, TYPE, FUNCTION or AGGREGATE; after another text no more is read."""
    keyspace: Optional[str] = None
    name: Optional[str] = None
    """Of all but a keyspace."""
    arguments: Optional[Tuple[str, ...]] = None
    """The types of the arguments of a function or an aggregate."""


PARTS_OF_TARGET = {"KEYSPACE": 1, "TABLE": 2, "TYPE": 2, "FUNCTION": 3, "AGGREGATE": 3}
"""How many of a keyspace, a name and arguments a change of this target has."""


@dataclass(frozen=True)
class UnknownResult(Message):
    """A result of a kind that is none of 1 to 5."""

    opcode = Opcode.RESULT
    kind: int


@dataclass(frozen=True)
class Event(Message):
    """An event. Section 4.2.6. One of a type that is not known is of this class, others are of the two below."""

    opcode = Opcode.EVENT
    type: str


@dataclass(frozen=True)
class NodeEvent(Event):
    """TOPOLOGY_CHANGE or STATUS_CHANGE: what happened to a node."""

    change: str
    """NEW_NODE, REMOVED_NODE, UP or DOWN; another text is kept."""
    address: Address
    port: int


@dataclass(frozen=True)
class SchemaEvent(Event):
    """SCHEMA_CHANGE."""

    schema: SchemaChange


@dataclass(frozen=True)
class AuthChallenge(Message):
    """A challenge of the server. Section 4.2.7."""

    opcode = Opcode.AUTH_CHALLENGE
    token: Optional[bytes]


@dataclass(frozen=True)
class AuthSuccess(Message):
    """The end of the authentication. Section 4.2.8."""

    opcode = Opcode.AUTH_SUCCESS
    token: Optional[bytes]


# ---- reading: a generator for each production, which yields the field or tag that it waits for, or None for any, and is sent the event

Reading = Generator[Union[Field, Tag, None], _Event, T]

_CONSISTENCIES = {int(level): level for level in Consistency}
_BATCH_TYPES = {int(type): type for type in BatchType}
_ERROR_CODES = {int(code): code for code in ErrorCode}


def _one(field: Field) -> Reading[Any]:
    return (yield field).value


def _many(count: Field, item: Callable[[], Reading[T]]) -> Reading[Tuple[T, ...]]:
    found = []
    for _ in range((yield count).number):
        found.append((yield from item()))
    return tuple(found)


def _texts(count: Field, text: Field) -> Reading[Tuple[str, ...]]:
    return (yield from _many(count, lambda: _one(text)))


def _pair(key: Field, item: Reading[T]) -> Reading[Tuple[str, T]]:
    word = yield from _one(key)
    return word, (yield from item)


def _level(field: Field) -> Reading[Union[Consistency, int]]:
    number = (yield field).number
    return _CONSISTENCIES.get(number, number)


def _parameters() -> Reading[Parameters]:
    level = yield from _level(Field.CONSISTENCY)
    flags = (yield Field.QUERY_FLAGS).number
    values, names = None, None
    if flags & 0x01:
        named = yield from _many(Field.VALUES, lambda: _named_value(bool(flags & 0x40)))
        values = tuple(value for _, value in named)
        names = tuple(word for word, _ in named) if flags & 0x40 else None
    return Parameters(
        level,
        flags,
        values,
        names,
        (yield from _one(Field.PAGE_SIZE)) if flags & 0x04 else None,
        (yield from _one(Field.PAGING_STATE)) if flags & 0x08 else None,
        (yield from _level(Field.SERIAL_CONSISTENCY)) if flags & 0x10 else None,
        (yield from _one(Field.TIMESTAMP)) if flags & 0x20 else None,
    )


def _named_value(named: bool) -> Reading[Tuple[str, Value]]:
    word = (yield from _one(Field.VALUE_NAME)) if named else ""
    return word, (yield from _one(Field.VALUE))


def _option() -> Reading[Tuple[str, str]]:
    return _pair(Field.OPTION_KEY, _one(Field.OPTION_VALUE))


def _startup() -> Reading[Message]:
    return Startup((yield from _many(Field.OPTIONS, _option)))


def _query() -> Reading[Message]:
    text = yield from _one(Field.QUERY)
    return Query(text, (yield from _parameters()))


def _execute() -> Reading[Message]:
    id = yield from _one(Field.STATEMENT_ID)
    return Execute(id, (yield from _parameters()))


def _statement() -> Reading[Statement]:
    prepared = (yield Field.ENTRY_KIND).number == 1
    statement = yield from _one(Field.STATEMENT_ID if prepared else Field.QUERY)
    return Statement(statement, (yield from _many(Field.VALUES, lambda: _one(Field.VALUE))))


def _batch() -> Reading[Message]:
    number = (yield Field.BATCH_TYPE).number
    statements = yield from _many(Field.ENTRIES, _statement)
    level = yield from _level(Field.CONSISTENCY)
    flags = (yield Field.BATCH_FLAGS).number
    serial = (yield from _level(Field.SERIAL_CONSISTENCY)) if flags & 0x10 else None
    timestamp = (yield from _one(Field.TIMESTAMP)) if flags & 0x20 else None
    return Batch(_BATCH_TYPES.get(number, number), statements, level, flags, serial, timestamp)


def _values_of_option() -> Reading[Tuple[str, Tuple[str, ...]]]:
    return _pair(Field.OPTION_KEY, _texts(Field.OPTION_VALUES, Field.OPTION_VALUE))


def _supported() -> Reading[Message]:
    return Supported((yield from _many(Field.OPTIONS, _values_of_option)))


# What comes after an error's message: the class, and each of its fields beside the first two.
_ERRORS: Dict[int, Tuple[Callable[..., Error], Tuple[Field, ...]]] = {
    ErrorCode.UNAVAILABLE: (Unavailable, (Field.CONSISTENCY, Field.REQUIRED, Field.ALIVE)),
    ErrorCode.WRITE_TIMEOUT: (WriteTimeout, (Field.CONSISTENCY, Field.RECEIVED, Field.BLOCK_FOR, Field.WRITE_TYPE)),
    ErrorCode.READ_TIMEOUT: (ReadTimeout, (Field.CONSISTENCY, Field.RECEIVED, Field.BLOCK_FOR, Field.DATA_PRESENT)),
    ErrorCode.READ_FAILURE: (
        ReadFailure,
        (Field.CONSISTENCY, Field.RECEIVED, Field.BLOCK_FOR, Field.FAILURES, Field.DATA_PRESENT),
    ),
    ErrorCode.FUNCTION_FAILURE: (FunctionFailure, (Field.KEYSPACE, Field.NAME, Field.ARGUMENTS)),
    ErrorCode.WRITE_FAILURE: (
        WriteFailure,
        (Field.CONSISTENCY, Field.RECEIVED, Field.BLOCK_FOR, Field.FAILURES, Field.WRITE_TYPE),
    ),
    ErrorCode.ALREADY_EXISTS: (AlreadyExists, (Field.KEYSPACE, Field.TABLE)),
    ErrorCode.UNPREPARED: (Unprepared, (Field.STATEMENT_ID,)),
}


def _error() -> Reading[Message]:
    number = (yield Field.ERROR_CODE).number
    message = yield from _one(Field.MESSAGE)
    make, fields = _ERRORS.get(number, (Error, ()))
    parts: List[Any] = []
    for field in fields:
        if field == Field.CONSISTENCY:
            parts.append((yield from _level(field)))
        elif field == Field.ARGUMENTS:
            parts.append((yield from _texts(field, Field.ARGUMENT)))
        else:
            parts.append((yield from _one(field)))
    return make(_ERROR_CODES.get(number, number), message, *parts)


def _change() -> Reading[SchemaChange]:
    change = yield from _one(Field.CHANGE)
    target = yield from _one(Field.TARGET)
    keyspace, name, arguments = None, None, None
    count = PARTS_OF_TARGET.get(target, 0)
    if count > 0:
        keyspace = yield from _one(Field.KEYSPACE)
    if count > 1:
        name = yield from _one(Field.NAME)
    if count > 2:
        arguments = yield from _texts(Field.ARGUMENTS, Field.ARGUMENT)
    return SchemaChange(change, target, keyspace, name, arguments)


def _event() -> Reading[Message]:
    type = yield from _one(Field.EVENT_TYPE)
    if type in ("TOPOLOGY_CHANGE", "STATUS_CHANGE"):
        change = yield from _one(Field.CHANGE)
        event = yield Field.ADDRESS
        return NodeEvent(type, change, address(event.octets), event.extra)
    if type == "SCHEMA_CHANGE":
        return SchemaEvent(type, (yield from _change()))
    return Event(type)


def _type() -> Reading[Type]:
    types = TypeReader()
    whole = types.add((yield Tag.TYPE_NODE))
    while whole is None:
        whole = types.add((yield None))
    return whole


def _columns(flags: int, width: int) -> Reading[Tuple[Column, ...]]:
    one_table = bool(flags & 1)
    keyspace = (yield from _one(Field.KEYSPACE)) if one_table else ""
    table = (yield from _one(Field.TABLE)) if one_table else ""
    columns = []
    for _ in range(width):
        if not one_table:
            keyspace = yield from _one(Field.KEYSPACE)
            table = yield from _one(Field.TABLE)
        name = yield from _one(Field.COLUMN_NAME)
        columns.append(Column(keyspace, table, name, (yield from _type())))
    return tuple(columns)


def _metadata() -> Reading[Metadata]:
    flags = (yield Field.META_FLAGS).number
    width = (yield Field.COLUMNS).number
    state = (yield from _one(Field.PAGING_STATE)) if flags & 2 else None
    columns = () if flags & 4 else (yield from _columns(flags, width))
    return Metadata(flags, width, state, columns)


def _prepared() -> Reading[Message]:
    id = yield from _one(Field.STATEMENT_ID)
    flags = (yield Field.META_FLAGS).number
    width = (yield Field.COLUMNS).number
    keys = yield from _many(Field.KEYS, lambda: _one(Field.KEY_INDEX))
    bound = yield from _columns(flags, width)
    return Prepared(id, flags, keys, bound, (yield from _metadata()))


def _result() -> Reading[Message]:
    kind = (yield Field.RESULT_KIND).number
    if kind == ResultKind.VOID:
        return Void()
    if kind == ResultKind.ROWS:
        metadata = yield from _metadata()
        return Rows(metadata, (yield Field.ROWS).number, [])
    if kind == ResultKind.SET_KEYSPACE:
        return SetKeyspace((yield from _one(Field.KEYSPACE)))
    if kind == ResultKind.PREPARED:
        return (yield from _prepared())
    if kind == ResultKind.SCHEMA_CHANGE:
        return (yield from _change())
    return UnknownResult(kind)


# The message of each opcode.
_MESSAGES: Dict[int, Callable[[], Reading[Message]]] = {
    Opcode.ERROR: _error,
    Opcode.STARTUP: _startup,
    Opcode.READY: lambda: _nothing(Ready()),
    Opcode.AUTHENTICATE: lambda: _of(Authenticate, _one(Field.CLASS)),
    Opcode.OPTIONS: lambda: _nothing(Options()),
    Opcode.SUPPORTED: _supported,
    Opcode.QUERY: _query,
    Opcode.RESULT: _result,
    Opcode.PREPARE: lambda: _of(Prepare, _one(Field.QUERY)),
    Opcode.EXECUTE: _execute,
    Opcode.REGISTER: lambda: _of(Register, _texts(Field.EVENT_TYPES, Field.EVENT_TYPE)),
    Opcode.EVENT: _event,
    Opcode.BATCH: _batch,
    Opcode.AUTH_CHALLENGE: lambda: _of(AuthChallenge, _one(Field.TOKEN)),
    Opcode.AUTH_RESPONSE: lambda: _of(AuthResponse, _one(Field.TOKEN)),
    Opcode.AUTH_SUCCESS: lambda: _of(AuthSuccess, _one(Field.TOKEN)),
}


def _nothing(message: Message) -> Reading[Message]:
    """A message without fields, which waits for nothing."""
    yield from ()
    return message


def _of(make: Callable[[Any], Message], part: Reading[Any]) -> Reading[Message]:
    return make((yield from part))


def _payload_item() -> Reading[Tuple[str, Optional[bytes]]]:
    return _pair(Field.PAYLOAD_KEY, _one(Field.PAYLOAD_VALUE))


class _Frames:
    """Makes frames of events."""

    def __init__(self, longest: int, typed: bool) -> None:
        """`typed` says whether cells are read by the types of their columns."""
        self.longest = longest
        self.typed = typed
        self.reading: Optional[Reading[Frame]] = None
        self.wanted: Optional[Union[Field, Tag]] = None
        self.cells = _cells(0, ())
        self.rows: List[Row] = []

    def take(self, batch: _EventBatch) -> Iterator[Frame]:
        """The frames that a batch of events ends."""
        at, count = 0, len(batch)
        while at < count:
            rows, at = self.cells.take(batch, at)
            self.rows += rows
            if at < count:
                frame = self.add(event_of(*batch[at]))
                at += 1
                if frame:
                    yield frame

    def begin(self, page: Rows) -> None:
        """Begins the rows of a page."""
        self.cells, self.rows = _cells(page.metadata.width, self.types_of(page)), page.rows

    def types_of(self, page: Rows) -> Tuple[Type, ...]:
        """The types by which its cells are read."""
        return tuple(column.type for column in page.metadata.columns) if self.typed else ()

    def add(self, event: _Event) -> Optional[Frame]:
        """The frame, where this event ends it."""
        if self.reading is None or event.tag == Tag.FRAME:  # that of a frame that was passed over goes
            if event.number > self.longest:
                raise FrameTooLong(event.at, event.number)
            self.reading = self.frame(event)
            self.wanted = next(self.reading)
            return None
        came = event.tag if isinstance(self.wanted, Tag) else event.field
        if self.wanted is not None and self.wanted != came:
            raise _PackageError("%s came, and not %r" % (event, self.wanted))
        try:
            self.wanted = self.reading.send(event)
        except StopIteration as whole:
            self.reading = None
            frame: Frame = whole.value
            return frame
        return None

    def frame(self, head: _Event) -> Reading[Frame]:
        response, flags = head.mark == Mark.RESPONSE, head.flags
        trace_id = (yield from _one(Field.TRACE_ID)) if response and flags & 0x02 else None
        warnings = (yield from _texts(Field.WARNINGS, Field.WARNING)) if response and flags & 0x08 else ()
        payload = (yield from _many(Field.PAYLOAD_ITEMS, _payload_item)) if flags & 0x04 else None
        message = yield from _MESSAGES[head.opcode]()
        if isinstance(message, Rows):
            self.begin(message)
        end = yield Tag.END
        return Frame(
            head.at, response, flags, head.extra, head.opcode, head.number, trace_id, warnings, payload, message, end.number
        )


def frames(
    source: Source,
    limits: Limits = Limits(),
    *,
    longest: int = 1 << 28,
    piece: int = 65536,
    progress: Optional[Progress] = None,
    skip: Optional[Skip] = None,
    lenient: bool = False,
) -> Iterator[Frame]:
    """The frames of a stream, each once it is whole: a page is held with all of its rows.

    Where the stream is refused or cut, Refused or Cut is raised after the last frame that ends before that place. With `skip` a frame that is
    refused within its body is passed over, and `skip` is called with it. A frame whose body has more than `longest` bytes raises FrameTooLong before
    its body is held. With `lenient` a content that its type does not have is bytes.
    """
    found = _Frames(longest, limits.types)
    batched = batches(source, limits, piece, progress, _pages._compiled is not None, skip=skip, lenient=lenient)
    return (frame for batch in batched for frame in found.take(batch))
