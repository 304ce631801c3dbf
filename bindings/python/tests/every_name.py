"""A program that uses each public name of the package, with the types that its annotations say: `mypy --strict` reads it, and test_names runs it."""

import io
import struct
from array import array
from typing import Dict, Iterable, Iterator, List, Optional, Tuple, Union

import cqlp
from cqlp import Code, Event, Field, Kind, Limits, Mark, Opcode, ResultKind, Tag, messages

OPTIONS = b"\4\0\0\0\5\0\0\0\0"
PREPARED = bytes.fromhex(
    "84000001080000002d 00000004 000170 000000000000000000000000 0000000100000002 00016b 000174 0001610009 000162 0020 000d"
)
BARE = bytes.fromhex("840000020800000025 00000002 00000004 00000002 00000001 0000000400000007 00000009000000010000000178")


def head(rows: int) -> List[Event]:
    return [
        Event(tag=Tag.FRAME, mark=Mark.RESPONSE, opcode=Opcode.RESULT),
        Event(tag=Tag.INT, field=Field.RESULT_KIND, number=ResultKind.ROWS),
        Event(tag=Tag.INT, field=Field.META_FLAGS, number=1),
        Event(tag=Tag.COUNT, field=Field.COLUMNS, number=1),
        Event(tag=Tag.TEXT, field=Field.KEYSPACE, content=b"k"),
        Event(tag=Tag.TEXT, field=Field.TABLE, content=b"t"),
        Event(tag=Tag.TEXT, field=Field.COLUMN_NAME, content=b"c"),
        Event(tag=Tag.TYPE_NODE, kind=Kind.INT),
        Event(tag=Tag.COUNT, field=Field.ROWS, number=rows),
    ]


def cells(rows: int) -> Iterator[Event]:
    return (Event(tag=Tag.LEAF, kind=Kind.INT, row=row, number=row) for row in range(rows))


def written(rows: int) -> bytes:
    size: int = cqlp.cells_size(cells(rows))
    with cqlp.PageWriter(size) as page:
        found: bytes = page.put(head(rows)) + page.put(cells(rows))
        page.end()
    assert found == cqlp.encode([*head(rows), *cells(rows)])
    return found


def read(data: bytes) -> None:
    rows: List[Tuple[object, ...]] = list(cqlp.rows(data))
    pages: Iterable[cqlp.Page] = cqlp.Pages(io.BytesIO(data), Limits(cell=1 << 10), progress=lambda read, total: None)
    for page in pages:
        column: cqlp.Column = page.columns[0]
        type: cqlp.Type = column.type
        state: Optional[bytes] = page.paging_state
        assert (column.name, type.kind, state, len(list(page))) == ("c", Kind.INT, None, len(rows))
    for in_columns in cqlp.columns(data, longest=1 << 20):
        page_columns: cqlp.PageColumns = in_columns
        series: cqlp.Series = page_columns["c"]
        numbers = series.values
        assert isinstance(numbers, array) and len(numbers) == page_columns.count and series.missing is None
    batches: cqlp.Batches = cqlp.arrays(data, rows=100)
    for batch in batches:
        arrays: cqlp.ArrayBatch = batch
        one: cqlp.ColumnArray = arrays["c"]
        view: memoryview = one.numbers()
        assert len(view) == arrays.count == one.cells
        missing: cqlp.Missing = "mask"
        assert missing in ("mask", "zero") and issubclass(cqlp.ValuesMissing, cqlp.Error)
        assert issubclass(cqlp.ColumnsMissing, ValueError)


def read_given() -> None:
    with cqlp.Types(PREPARED) as types:
        assert list(cqlp.rows(BARE, types=types)) == [(7, ["x"])]


def frames() -> None:
    skipped: List[cqlp.Skipped] = []
    for frame in cqlp.frames(OPTIONS + b"\4\0\0\2\7\0\0\0\12\0\0\0\3b\303d\0\1\0", skip=skipped.append):
        whole: cqlp.Frame = frame
        message: messages.Message = whole.message
        assert isinstance(message, messages.Options) and whole.stream == 0
    other: Optional[cqlp.Error] = refusal(b"\3\0\0\4\5\0\0\0\0")
    assert isinstance(other, cqlp.Refused) and cqlp.version_error(other.header)[2:4] == b"\0\4"
    reason: Union[cqlp.Reason, int] = skipped[0].reason
    assert reason == cqlp.Reason.BAD_UTF8
    assert [bytes(frame) for frame in cqlp.encode_frames(cqlp.events(OPTIONS))] == [OPTIONS]


def written_messages() -> None:
    query = messages.Query("SELECT", values=[cqlp.bind("list<int>", [1, 2]), None], page_size=5)
    requests = cqlp.encode(messages.Startup({"CQL_VERSION": "3.0.0"})) + cqlp.encode(query, 3, payload={"k": b"v"})
    page = messages.Rows.of([("id", "int"), ("tags", cqlp.Type.of("set<text>"))], [(1, {"new"})], keyspace="k", table="t")
    other = b"\5\0\0\4\5\0\0\0\0"
    with cqlp.MessageDecoder(longest=1 << 20) as decoder:
        for found in decoder.feed(requests + cqlp.encode(query, 4) + other):
            if isinstance(found, cqlp.OtherVersion):
                reply: bytes = found.reply
                assert found.version == 5 and reply == cqlp.version_error(found.header)
            else:
                message: messages.Message = found.message
                assert message.opcode == found.opcode
        assert decoder.finish().end == cqlp.End.REFUSED
    assert next(cqlp.frames(cqlp.encode(page, warnings=["slow"]))).message == page
    events: List[Event] = cqlp.cell_events("text", "x", row=0, column=1)
    assert [event.value for event in events] == ["x"]
    try:
        cqlp.encode(messages.Prepare("x" * 3), stream=1 << 20)
    except cqlp.BadValue as bad:
        assert (bad.field, bad.value) == ("stream", 1 << 20)


def decode() -> None:
    with cqlp.Decoder(Limits()) as decoder:
        events: List[Event] = decoder.decode(OPTIONS)
        held: cqlp.Held = decoder.held()
        verdict: cqlp.Verdict = decoder.finish()
    assert issubclass(cqlp.InUse, ValueError) and not isinstance(cqlp.check(bytearray(OPTIONS)), cqlp.InUse)
    assert len(events) == 2 and held.bytes == 0 and verdict.end == cqlp.End.WHOLE and verdict == cqlp.check(OPTIONS)


def cores() -> None:
    with cqlp.Client(4) as client, cqlp.Server(4) as server:
        ticket: cqlp.Ticket = client.begin(Opcode.STARTUP, "task")
        message: bytes = cqlp.header(Opcode.STARTUP, ticket.id, 2) + b"\0\0"
        for frame in cqlp.frames(message):
            server.accept(frame, "work")
            answered: cqlp.Answered = server.answer(frame.stream, Opcode.READY)
            assert answered.request == Opcode.STARTUP and answered.carried == "work"
        for frame in cqlp.frames(cqlp.header(Opcode.READY, ticket.id, 0, response=True)):
            reply: cqlp.Reply = client.reply(frame)
            assert reply.carried == "task" and reply.what == cqlp.ReplyKind.ANSWER
        phases: Tuple[Union[cqlp.Phase, int], ...] = (client.phase, server.phase)
        assert phases == (cqlp.Phase.READY, cqlp.Phase.READY)
    assert len(cqlp.event_header(3)) == len(cqlp.header(Opcode.EVENT, -1, 3, response=True)) == 9
    assert cqlp.version_error(b"\3\0\0\4\5\0\0\0\0")[:1] == b"\204"


def refusal(data: bytes, limits: Limits = Limits(), longest: int = 1 << 28) -> Optional[cqlp.Error]:
    """Why a stream is not read."""
    try:
        for _ in cqlp.frames(data, limits, longest=longest):
            pass
    except (cqlp.Refused, cqlp.Cut, cqlp.FrameTooLong) as error:
        return error
    return None


def refusals(page: bytes) -> None:
    assert isinstance(refusal(b"\3" * 9), cqlp.Refused) and isinstance(refusal(OPTIONS[:4]), cqlp.Cut)
    assert isinstance(refusal(page, longest=9), cqlp.FrameTooLong)
    codes: Dict[str, Union[Code, int]] = {}
    try:
        cqlp.encode([])
    except cqlp.BadEvent as bad:
        codes["encode"] = bad.code
    try:
        cqlp.Server(4).answer(1, Opcode.READY)
    except cqlp.BadCall as wrong:
        codes["answer"] = wrong.code
    try:
        cqlp.Decoder(Limits(depth=65))
    except cqlp.BadLimits as out:
        codes["limits"] = len(str(out))
    closed = cqlp.PageWriter()
    closed.close()
    try:
        closed.put([])
    except cqlp.Closed as gone:
        codes["closed"] = len(str(gone))
    try:
        list(cqlp.arrays(page, memory=64))
    except cqlp.CellTooLong as long:
        codes["long"] = long.row
    assert {"encode", "answer", "limits", "closed"} <= set(codes)


def words() -> None:
    assert cqlp.name(cqlp.Group.ERROR, cqlp.ErrorCode.UNAVAILABLE) == "Unavailable"
    assert cqlp.name(cqlp.Group.CONSISTENCY, cqlp.Consistency.ONE) == "ONE"
    assert cqlp.name(cqlp.Group.BATCH, cqlp.BatchType.LOGGED) == "logged"
    number: int = cqlp.version_number()
    assert cqlp.__version__ == cqlp.version()
    assert cqlp.version().startswith("%d." % (number // 1_000_000))


def values() -> None:
    days, milliseconds, nanoseconds = cqlp.Days(1), cqlp.Milliseconds(2), cqlp.Nanoseconds(3)
    assert days + milliseconds + nanoseconds == 6
    unset: cqlp.Unset = cqlp.UNSET
    bound: Tuple[Union[bytes, None, cqlp.Unset], ...] = (b"x", None, unset)
    assert len(bound) == 3 and cqlp.EMPTY is not None and struct.calcsize(">i") == 4


def main() -> None:
    page = written(3)
    read(page)
    read_given()
    frames()
    written_messages()
    decode()
    cores()
    refusals(page)
    words()
    values()


if __name__ == "__main__":
    main()
