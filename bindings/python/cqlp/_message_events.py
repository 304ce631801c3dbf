"""The events of a frame with its message: the inverse of what `cqlp.frames` makes of them. And `encode`, which writes it."""

import dataclasses
from typing import Any, Callable, Dict, Iterable, List, Mapping, Optional, Sequence, Tuple, Union, overload

from . import _encode, messages
from ._events import Event, camel
from ._pages import _RAW
from ._types import Column, Type
from ._value_events import BadValue, bytes_content, number_within, packed_address, putting, text_content, type_events, uuid_octets
from ._values import Unset
from .messages import Frame, Message, Metadata, Parameters
from .numbers import Field, Mark, ResultKind, Tag

# Plain numbers, since those of an Enum take longer to be looked up and compared.
_TEXT, _UUID, _BYTES, _BOUND = map(int, (Tag.TEXT, Tag.UUID, Tag.BYTES, Tag.BOUND))
_NULL, _UNSET = int(Mark.NULL), int(Mark.UNSET)
_HALF = 1 << 31
# Of each field its tag, and the range of its number or the greatest length of its content: its notation, section 3. Most are a [string].
_NOTATIONS: List[Tuple[int, int, int]] = [(_TEXT, 0, 0xFFFF)] * 256
for _tag, _least, _most, _fields in (
    (Tag.TEXT, 0, _HALF - 1, (Field.QUERY,)),
    (Tag.BYTE, 0, 0xFF, (Field.ENTRY_KIND, Field.BATCH_TYPE, Field.BATCH_FLAGS, Field.QUERY_FLAGS, Field.DATA_PRESENT)),
    (Tag.SHORT, 0, 0xFFFF, (Field.CONSISTENCY, Field.SERIAL_CONSISTENCY, Field.KEY_INDEX)),
    (Tag.INT, -_HALF, _HALF - 1, (Field.PAGE_SIZE, Field.ERROR_CODE, Field.RESULT_KIND, Field.META_FLAGS)),
    (Tag.INT, -_HALF, _HALF - 1, (Field.REQUIRED, Field.ALIVE, Field.RECEIVED, Field.BLOCK_FOR, Field.FAILURES)),
    (Tag.LONG, -(1 << 63), (1 << 63) - 1, (Field.TIMESTAMP,)),
    (Tag.UUID, 0, 0, (Field.TRACE_ID,)),
    (Tag.COUNT, 0, 0xFFFF, (Field.WARNINGS, Field.PAYLOAD_ITEMS, Field.OPTIONS, Field.OPTION_VALUES)),
    (Tag.COUNT, 0, 0xFFFF, (Field.EVENT_TYPES, Field.ENTRIES, Field.VALUES, Field.ARGUMENTS)),
    (Tag.COUNT, 0, _HALF - 1, (Field.COLUMNS, Field.KEYS, Field.ROWS)),
    (Tag.BYTES, 0, 0xFFFF, (Field.STATEMENT_ID,)),
    (Tag.BYTES, 0, _HALF - 1, (Field.PAYLOAD_VALUE, Field.TOKEN, Field.PAGING_STATE)),
    (Tag.BOUND, 0, _HALF - 1, (Field.VALUE,)),
):
    for _field in _fields:
        _NOTATIONS[_field] = int(_tag), _least, _most


def field_event(field: Field, value: Any) -> Event:
    """The event of a field of a message that has this `value`. Raises BadValue."""
    tag, least, most = _NOTATIONS[field]
    number, content, octets, mark = 0, b"", b"", 0
    if tag == _TEXT:
        content = text_content(value)
    elif tag == _BYTES or tag == _BOUND:
        if value is None and field != _STATEMENT_ID:
            mark = _NULL
        elif tag == _BOUND and isinstance(value, Unset):
            mark = _UNSET
        else:
            content = bytes_content(value)
    elif tag == _UUID:
        octets = uuid_octets(value)
    else:
        number = number_within(value, least, most)
    if len(content) > most:
        raise BadValue(value, "it has %d bytes, more than %d" % (len(content), most))
    return tuple.__new__(Event, (0, content, number, 0, 0, 0, 0, octets, tag, field, 0, 0, 0, mark))


_STATEMENT_ID = int(Field.STATEMENT_ID)
Place = Union[str, Tuple[str, int], Tuple[str, int, str]]
"""Where in a message a field is: its name, or that of a list, which of its items, and what in the item."""


def _name_of(place: Place) -> str:
    return place if isinstance(place, str) else "%s[%d]%s" % (place[0], place[1], "".join(place[2:]))


def _list(place: str, value: Any, count: Optional[int] = None) -> Any:
    """Sees that a value is a tuple or a list, with as many items."""
    if not isinstance(value, (tuple, list)):
        raise BadValue(value, "a tuple or a list is wanted").within(place)
    if count is not None and len(value) != count:
        raise BadValue(value, "%d values are wanted" % count).within(place)
    return value


class _Fields:
    """The events of the fields of a message, and where in the message each is."""

    def __init__(self) -> None:
        self.events: List[Event] = []
        self.places: List[Place] = []

    def put(self, place: Place, field: Field, value: Any) -> None:
        try:
            event = field_event(field, value)
        except BadValue as bad:
            raise bad.within(_name_of(place)) from None
        self.events.append(event)
        self.places.append(place)

    def add(self, place: Place, events: Sequence[Event]) -> None:
        self.events += events
        self.places += [place] * len(events)

    def each(self, place: str, count: Field, items: Any, put: Callable[[Tuple[str, int], Any], None]) -> None:
        """How many items there are, and each of them."""
        self.put(place, count, len(_list(place, items)))
        for at, item in enumerate(items):
            put((place, at), item)

    def texts(self, place: str, count: Field, field: Field, texts: Any) -> None:
        self.each(place, count, texts, lambda place, text: self.put(place, field, text))

    def parts(self, place: str, message: Any, flags: int, fields: Tuple[Tuple[str, int, Field], ...]) -> None:
        """The parts whose flags are set."""
        for name, flag, field in fields:
            value = getattr(message, name)
            if flags & flag:
                self.put(place + name, field, value)
            elif value is not None:
                raise BadValue(value, "the flag %02x is not set" % flag).within(place + name)


_PARTS_OF_BATCH = (
    ("serial_consistency", 0x10, Field.SERIAL_CONSISTENCY),
    ("timestamp", 0x20, Field.TIMESTAMP),
)
_PARTS_OF_QUERY = (
    ("page_size", 0x04, Field.PAGE_SIZE),
    ("paging_state", 0x08, Field.PAGING_STATE),
    *_PARTS_OF_BATCH,
)
_PARTS_OF_METADATA = (("paging_state", 2, Field.PAGING_STATE),)

# ---- requests


def _startup(to: _Fields, message: messages.Startup) -> None:
    def option(place: Place, pair: Any) -> None:
        key, value = _list(_name_of(place), pair, 2)
        to.put(place, Field.OPTION_KEY, key)
        to.put(place, Field.OPTION_VALUE, value)

    to.each("options", Field.OPTIONS, message.options, option)


def _query(to: _Fields, message: messages.Query) -> None:
    to.put("query", Field.QUERY, message.query)
    _parameters(to, message.parameters)


def _execute(to: _Fields, message: messages.Execute) -> None:
    to.put("id", Field.STATEMENT_ID, message.id)
    _parameters(to, message.parameters)


def _parameters(to: _Fields, given: Parameters) -> None:
    if not isinstance(given, Parameters):
        raise BadValue(given, "Parameters are wanted").within("parameters")
    to.put("parameters.consistency", Field.CONSISTENCY, given.consistency)
    to.put("parameters.flags", Field.QUERY_FLAGS, given.flags)
    if given.flags & 0x01:
        _values(to, given, bool(given.flags & 0x40))
    else:
        for name in ("values", "names"):
            if getattr(given, name) is not None:
                raise BadValue(getattr(given, name), "there are no values").within("parameters." + name)
    to.parts("parameters.", given, given.flags, _PARTS_OF_QUERY)


def _values(to: _Fields, given: Parameters, named: bool) -> None:
    """The values of a query, with their names where they have some."""
    values = _list("parameters.values", given.values)
    if not named and given.names is not None:
        raise BadValue(given.names, "the flag 40 is not set").within("parameters.names")
    names = _list("parameters.names", given.names, len(values)) if named else ()
    to.put("parameters.values", Field.VALUES, len(values))
    for at, value in enumerate(values):
        if named:
            to.put(("parameters.names", at), Field.VALUE_NAME, names[at])
        to.put(("parameters.values", at), Field.VALUE, value)


def _batch(to: _Fields, message: messages.Batch) -> None:
    def statement(place: Tuple[str, int], item: messages.Statement) -> None:
        if not isinstance(item, messages.Statement):
            raise BadValue(item, "a Statement is wanted").within(_name_of(place))
        prepared = not isinstance(item.statement, str)
        to.put(place, Field.ENTRY_KIND, int(prepared))
        to.put((*place, ".statement"), Field.STATEMENT_ID if prepared else Field.QUERY, item.statement)
        to.each(_name_of(place) + ".values", Field.VALUES, item.values, lambda place, value: to.put(place, Field.VALUE, value))

    to.put("type", Field.BATCH_TYPE, message.type)
    to.each("statements", Field.ENTRIES, message.statements, statement)
    to.put("consistency", Field.CONSISTENCY, message.consistency)
    to.put("flags", Field.BATCH_FLAGS, message.flags)
    to.parts("", message, message.flags, _PARTS_OF_BATCH)


# ---- responses


def _supported(to: _Fields, message: messages.Supported) -> None:
    def option(place: Place, pair: Any) -> None:
        key, values = _list(_name_of(place), pair, 2)
        to.put(place, Field.OPTION_KEY, key)
        to.texts(_name_of(place), Field.OPTION_VALUES, Field.OPTION_VALUE, values)

    to.each("options", Field.OPTIONS, message.options, option)


def _error(to: _Fields, message: messages.Error) -> None:
    to.put("code", Field.ERROR_CODE, message.code)
    make, fields = messages._ERRORS.get(message.code, (messages.Error, ()))
    if type(message) is not make:
        raise BadValue(message.code, "an error of this code is of the class %s" % getattr(make, "__name__", make)).within("code")
    to.put("message", Field.MESSAGE, message.message)
    for member, field in zip(dataclasses.fields(message)[2:], fields):
        if field == Field.ARGUMENTS:
            to.texts(member.name, field, Field.ARGUMENT, getattr(message, member.name))
        else:
            to.put(member.name, field, getattr(message, member.name))


def _event(to: _Fields, message: messages.Event) -> None:
    to.put("type", Field.EVENT_TYPE, message.type)
    wanted = {"TOPOLOGY_CHANGE": messages.NodeEvent, "STATUS_CHANGE": messages.NodeEvent, "SCHEMA_CHANGE": messages.SchemaEvent}
    made = wanted.get(message.type, messages.Event)
    if type(message) is not made:
        raise BadValue(message.type, "an event of this type is of the class %s" % made.__name__).within("type")
    if isinstance(message, messages.NodeEvent):
        to.put("change", Field.CHANGE, message.change)
        to.add("address", (_inet(message),))
    elif isinstance(message, messages.SchemaEvent):
        _change(to, "schema.", message.schema)


def _inet(message: messages.NodeEvent) -> Event:
    try:
        octets = packed_address(message.address)
    except BadValue as bad:
        raise bad.within("address") from None
    return Event(tag=Tag.INET, field=Field.ADDRESS, octets=octets, extra=_in("port", message.port, -(1 << 31), (1 << 31) - 1))


def _change(to: _Fields, place: str, message: messages.SchemaChange) -> None:
    """A part that is not of its target is None."""
    if not isinstance(message, messages.SchemaChange):
        raise BadValue(message, "a SchemaChange is wanted").within(place.rstrip("."))
    to.put(place + "change", Field.CHANGE, message.change)
    to.put(place + "target", Field.TARGET, message.target)
    count = messages.PARTS_OF_TARGET.get(message.target, 0)
    for at, (name, field) in enumerate((("keyspace", Field.KEYSPACE), ("name", Field.NAME), ("arguments", Field.ARGUMENTS))):
        value = getattr(message, name)
        if at >= count:
            if value is not None:
                raise BadValue(value, "a change of %s has no %s" % (message.target, name)).within(place + name)
        elif field == Field.ARGUMENTS:
            to.texts(place + name, field, Field.ARGUMENT, value)
        else:
            to.put(place + name, field, value)


def _columns(to: _Fields, place: str, flags: int, columns: Sequence[Column]) -> None:
    """The specs of columns."""
    for at, column in enumerate(_list(place, columns)):
        if not isinstance(column, Column) or not isinstance(column.type, Type):
            raise BadValue(column, "a Column is wanted, with a Type").within("%s[%d]" % (place, at))
    if flags & 1:
        first = columns[0] if columns else Column("", "", "", _RAW)
        to.put((place, 0, ".keyspace"), Field.KEYSPACE, first.keyspace)
        to.put((place, 0, ".table"), Field.TABLE, first.table)
    for at, column in enumerate(columns):
        if not flags & 1:
            to.put((place, at, ".keyspace"), Field.KEYSPACE, column.keyspace)
            to.put((place, at, ".table"), Field.TABLE, column.table)
        elif column[:2] != columns[0][:2]:
            raise BadValue(column, "the flag 01 says that all columns are of one table").within("%s[%d]" % (place, at))
        to.put((place, at, ".name"), Field.COLUMN_NAME, column.name)
        try:
            to.add((place, at, ".type"), type_events(column.type))
        except BadValue as bad:
            raise bad.within("%s[%d].type" % (place, at)) from None


def _metadata(to: _Fields, place: str, given: Metadata) -> None:
    if not isinstance(given, Metadata):
        raise BadValue(given, "Metadata are wanted").within(place)
    to.put(place + ".flags", Field.META_FLAGS, given.flags)
    to.put(place + ".width", Field.COLUMNS, given.width)
    if len(_list(place + ".columns", given.columns)) != (0 if given.flags & 4 else given.width):
        raise BadValue(given.columns, "as many columns as `width` are wanted, or none with the flag 04").within(place + ".columns")
    to.parts(place + ".", given, given.flags, _PARTS_OF_METADATA)
    if not given.flags & 4:
        _columns(to, place + ".columns", given.flags, given.columns)


def _rows(to: _Fields, message: messages.Rows) -> None:
    metadata = message.metadata
    to.put("", Field.RESULT_KIND, ResultKind.ROWS)
    _metadata(to, "metadata", metadata)
    to.put("count", Field.ROWS, message.count)
    if len(_list("rows", message.rows)) != (message.count if metadata.width else 0):
        raise BadValue(message.count, "there are %d rows" % len(message.rows)).within("count")
    _cells(to.events, message)


def _cells(events: List[Event], message: messages.Rows) -> None:
    """The cells of a page. Those of columns that are not described are bytes."""
    metadata, width = message.metadata, message.metadata.width
    types = [column.type for column in metadata.columns] or [_RAW] * width
    puts, column = [putting(type) for type in types], 0
    for at, row in enumerate(message.rows):
        if not isinstance(row, (tuple, list)) or len(row) != width:
            raise BadValue(row, "%d values are wanted" % width).within("rows[%d]" % at)
        try:
            for column in range(width):
                puts[column](events, row[column], at, column, 0)
        except BadValue as bad:
            name = repr(metadata.columns[column].name) if metadata.columns else column
            raise bad.within("rows[%d][%s]" % (at, name)) from None


def _prepared(to: _Fields, message: messages.Prepared) -> None:
    to.put("", Field.RESULT_KIND, ResultKind.PREPARED)
    to.put("id", Field.STATEMENT_ID, message.id)
    to.put("flags", Field.META_FLAGS, message.flags)
    to.put("bound", Field.COLUMNS, len(_list("bound", message.bound)))
    to.each("keys", Field.KEYS, message.keys, lambda place, key: to.put(place, Field.KEY_INDEX, key))
    _columns(to, "bound", message.flags, message.bound)
    _metadata(to, "result", message.result)


def _schema_change(to: _Fields, message: messages.SchemaChange) -> None:
    to.put("", Field.RESULT_KIND, ResultKind.SCHEMA_CHANGE)
    _change(to, "", message)


def _set_keyspace(to: _Fields, message: messages.SetKeyspace) -> None:
    to.put("", Field.RESULT_KIND, ResultKind.SET_KEYSPACE)
    to.put("keyspace", Field.KEYSPACE, message.keyspace)


def _unknown_result(to: _Fields, message: messages.UnknownResult) -> None:
    to.put("kind", Field.RESULT_KIND, message.kind)
    if message.kind in tuple(ResultKind):
        raise BadValue(message.kind, "a result of this kind has a class of its own").within("kind")


def _only(name: str, field: Field) -> Callable[[_Fields, Any], None]:
    """Of a message with one field."""
    return lambda to, message: to.put(name, field, getattr(message, name))


def _nothing(to: _Fields, message: Message) -> None:
    pass


# What puts the fields of a message of each class.
_WRITERS: Dict[type, Callable[[_Fields, Any], None]] = {
    messages.Startup: _startup,
    messages.Options: _nothing,
    messages.Query: _query,
    messages.Prepare: _only("query", Field.QUERY),
    messages.Execute: _execute,
    messages.Batch: _batch,
    messages.Register: lambda to, message: to.texts("event_types", Field.EVENT_TYPES, Field.EVENT_TYPE, message.event_types),
    messages.AuthResponse: _only("token", Field.TOKEN),
    messages.Ready: _nothing,
    messages.Authenticate: _only("authenticator", Field.CLASS),
    messages.Supported: _supported,
    messages.Void: lambda to, message: to.put("", Field.RESULT_KIND, ResultKind.VOID),
    messages.Rows: _rows,
    messages.SetKeyspace: _set_keyspace,
    messages.Prepared: _prepared,
    messages.SchemaChange: _schema_change,
    messages.UnknownResult: _unknown_result,
    messages.AuthChallenge: _only("token", Field.TOKEN),
    messages.AuthSuccess: _only("token", Field.TOKEN),
}
_WRITERS.update(dict.fromkeys((messages.Error, *messages.Error.__subclasses__()), _error))
_WRITERS.update(dict.fromkeys((messages.Event, *messages.Event.__subclasses__()), _event))
_REQUESTS = (
    messages.Startup,
    messages.Options,
    messages.Query,
    messages.Prepare,
    messages.Execute,
    messages.Batch,
    messages.Register,
    messages.AuthResponse,
)

# ---- frames

Payload = Union[Mapping[str, Optional[bytes]], Iterable[Tuple[str, Optional[bytes]]], None]
"""A custom payload, keys with values, or None where there is none."""


def _put_parts(to: _Fields, response: bool, flags: int, trace_id: Any, warnings: Sequence[str], payload: Payload) -> None:
    """What comes before the message."""
    if response and flags & 0x02:
        to.put("trace_id", Field.TRACE_ID, trace_id)
    if response and flags & 0x08:
        to.texts("warnings", Field.WARNINGS, Field.WARNING, warnings)
    if flags & 0x04:
        if payload is None:
            raise BadValue(payload, "the flag 04 is set").within("payload")
        pairs = list(payload.items() if isinstance(payload, Mapping) else payload)
        to.put("payload", Field.PAYLOAD_ITEMS, len(pairs))
        for at, (key, value) in enumerate(pairs):
            to.put(("payload", at), Field.PAYLOAD_KEY, key)
            to.put(("payload", at), Field.PAYLOAD_VALUE, value)


def _frame(message: Message, stream: int, flags: int, trace_id: Any, warnings: Sequence[str], payload: Payload) -> _Fields:
    """The events of a frame. The flags of parts that are there are set."""
    to, write = _Fields(), _WRITERS.get(type(message))
    if write is None:
        raise BadValue(message, "one of the classes of cqlp.messages is wanted")
    response = not isinstance(message, _REQUESTS)
    for name, part, flag in (("trace_id", trace_id, 0x02), ("warnings", warnings or None, 0x08), ("payload", payload, 0x04)):
        if part is not None:
            flags |= flag
            if not response and name != "payload":
                raise BadValue(part, "a request has none").within(name)
    if _in("flags", flags, 0, 255) & 1:
        raise BadValue(flags, "the flag 01 says that the body is compressed").within("flags")
    head = Event(
        tag=Tag.FRAME,
        mark=Mark.RESPONSE if response else Mark.NONE,
        opcode=message.opcode,
        extra=_in("stream", stream, -32768, 32767),
        flags=flags,
    )
    to.add("flags", (head,))
    _put_parts(to, response, flags, trace_id, warnings, payload)
    try:
        write(to, message)
    except BadValue as bad:
        raise bad.within(type(message).__name__) from None
    return to


def _in(place: str, value: Any, least: int, most: int) -> int:
    try:
        return number_within(value, least, most)
    except BadValue as bad:
        raise bad.within(place) from None


def _written(message: Message, to: _Fields) -> bytes:
    try:
        return _encode.encode(to.events)
    except _encode.BadEvent as refused:
        event, why = refused.event, camel(refused.code)
        bad = BadValue(message if event is None else event.value, why)
        if event is not None and refused.index < len(to.places):
            bad.within(_name_of(to.places[refused.index]))
        elif event is not None:
            bad.within("rows[%d][%d]" % (event.row, event.column))
        raise bad.within(type(message).__name__) from refused


@overload
def encode(what: Iterable[Event]) -> bytes: ...


@overload
def encode(what: Frame) -> bytes: ...


@overload
def encode(
    what: Message,
    stream: Optional[int] = None,
    *,
    flags: int = 0,
    trace_id: Any = None,
    warnings: Sequence[str] = (),
    payload: Payload = None,
) -> bytes: ...


def encode(
    what: Union[Message, Frame, Iterable[Event]],
    stream: Optional[int] = None,
    *,
    flags: int = 0,
    trace_id: Any = None,
    warnings: Sequence[str] = (),
    payload: Payload = None,
) -> bytes:
    """The bytes of a frame.

    - Of a message, one of the classes of `cqlp.messages`, under this stream id, by default 0, and -1 of an `Event`. `warnings` and the UUID `trace_id`
      are of responses alone. `flags` are those of section 2.2 beside those of these parts, which are set: 02 asks for a trace. Raises BadValue
      where a value is none of its field or its column's type.
    - Of a `Frame`, as `cqlp.frames` gives it: its stream id, its parts and its message. What else it says is not looked at: its offset, opcode, direction
      and length. `dataclasses.replace(frame, stream=7)` is another one.
    - Of events, those that a decoder gives of the frame, in their order: that of its header, then its fields, and that of its end, which may be left
      out. Offsets are not looked at, nor the length of the body, which is counted, nor the number of the end. Raises BadEvent where no frame
      has them. Also an event with a number outside of what `include/cqlp.h` has for it is `NO_EVENT`, whether its tag uses it or not, and one
      whose octets are not as many as it is to have.
    """
    if isinstance(what, Frame):
        frame = what
        what, stream, flags, trace_id = frame.message, frame.stream, frame.flags, frame.trace_id
        warnings, payload = frame.warnings, frame.payload
    elif not isinstance(what, Message):
        return _encode.encode(what)
    if stream is None:
        stream = -1 if isinstance(what, messages.Event) else 0
    return _written(what, _frame(what, stream, flags, trace_id, warnings, payload))
