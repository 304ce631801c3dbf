"""The rows of pages, as Python values."""

import threading
from typing import Any, Dict, Iterator, List, Optional, Tuple, Union

from . import _native
from ._decoder import BadCall, Cut, Decoder, Limits, Placed, Record, Skip, event_of
from ._events import Event
from ._sources import Batch, Progress, Source, _pieces, batches
from ._turns import InUse
from ._types import PLAIN, Column, Type, TypeReader
from ._values import EMPTY, LEAVES, ValueOf
from .numbers import Code, End, Field, Kind, Mark, Tag

_compiled: Any = _native.compiled("_cells")

Row = Tuple[ValueOf, ...]
# Makes a named tuple of its values, as its type does when it is called, in half the time.
_new: Any = tuple.__new__
_ROWS_RESULT = 2
_NO_METADATA = 0x04
_TEXTS = (Kind.ASCII, Kind.VARCHAR)
_BYTES = (Kind.BLOB, Kind.CUSTOM, Kind.RAW)


_RAW = Type(Kind.RAW)


def _frozen(value: ValueOf) -> ValueOf:
    """A value that may be in a set: a list as a tuple, a set as a frozenset, a dict as the tuple of its pairs."""
    if isinstance(value, (list, tuple)):
        return tuple(map(_frozen, value))
    if isinstance(value, set):
        return frozenset(value)
    if isinstance(value, dict):
        return tuple((key, _frozen(item)) for key, item in value.items())
    return value


class _Items:
    """A list, set, map, tuple or udt whose items are still to come."""

    def __init__(self, wanted: int, type: Type) -> None:
        self.kind = type.kind
        self.type = type
        self.wanted = wanted
        self.values: List[ValueOf] = []

    def next_type(self) -> Type:
        """The type of the item that comes next."""
        count, inner = len(self.values), self.type.inner
        if self.kind in (Kind.TUPLE, Kind.UDT):
            return inner[count]
        return inner[count % 2] if self.kind == Kind.MAP else inner[0]

    def value(self) -> ValueOf:
        values = self.values
        if self.kind == Kind.LIST:
            return values
        if self.kind == Kind.SET:
            return set(map(_frozen, values))
        if self.kind == Kind.MAP:
            return dict(zip(map(_frozen, values[::2]), values[1::2]))
        values += [None] * (self.wanted - len(values))
        # bytes after the last field, as a lenient reading gives them, have no name
        return dict(zip(self.type.names + ("",), values)) if self.kind == Kind.UDT else tuple(values)


class Page:
    """A page. It is iterated once, and gives its rows, each a tuple with a value of each column. A page without columns gives none,
    whatever its count."""

    def __init__(self, pages: "Pages", columns: Tuple[Column, ...], width: int, count: int, state: Optional[bytes]) -> None:
        self.columns = columns
        """Its columns; none where its metadata describes none."""
        self.width = width
        """How many columns it has, also where none are described."""
        self.count = count
        """How many rows it says that it has."""
        self.paging_state = state
        """Where the result goes on, or None where this is its last page."""
        self._pages = pages

    def __iter__(self) -> Iterator[Row]:
        pages = self._pages
        page, rows = pages._now
        while page is self:
            yield from rows
            pages._go_on(rows)
            page, rows = pages._now

    def __next__(self) -> Row:
        for row in self:
            return row
        raise StopIteration


class Pages:
    """The pages of a stream, one after the other; each is to be used before the next is asked for.

    Frames that are no page are passed over. Where the stream is refused or cut, the error comes after the last row before
    that place. With `skip` a frame that is refused within its body is passed over, and `skip` is called with it after the last row before that
    place: so a page may give fewer rows than its `count`. Threads that share it take rows in turn; where one reads on in the stream another
    that would do so too gets InUse at once.
    """

    def __init__(
        self,
        source: Source,
        limits: Limits = Limits(),
        *,
        piece: int = 65536,
        progress: Optional[Progress] = None,
        types: "Optional[Types]" = None,
        skip: Optional[Skip] = None,
        lenient: bool = False,
    ) -> None:
        """`types` are those of the pages that come without metadata and have as many columns; else their cells are bytes. With `lenient` a
        content that its type does not have is bytes, too; so is what comes after the last field of a tuple, as an item more, and of a udt,
        under the name of no letters."""
        placed = _compiled is not None
        found = batches(source, limits, piece, progress, placed, types._give if types else None, skip, lenient)
        self._found = _found(self, found, limits.types, types.columns if types else None)
        # the page under way and its rows that were read, together, since threads look at both
        self._now: Tuple[Optional[Page], Iterator[Row]] = (None, iter(()))
        self._coming: Optional[Page] = None
        self._turn = threading.Lock()

    def __iter__(self) -> "Pages":
        return self

    def __next__(self) -> Page:
        if not self._turn.acquire(blocking=False):
            raise InUse
        try:
            while self._now[0] is not None:  # what is left of it is passed over
                self._take()
            if self._coming is None:
                self._take()
            page = self._coming
            if page is None:
                raise StopIteration
            self._now, self._coming = (page, iter(())), None
            return page
        finally:
            self._turn.release()

    def _go_on(self, rows: Iterator[Row]) -> None:
        """Takes what comes after these rows, unless that was taken."""
        if not self._turn.acquire(blocking=False):
            raise InUse
        try:
            if self._now[1] is rows:
                self._take()
        finally:
            self._turn.release()

    def _take(self) -> None:
        """Takes what comes next: more rows of the page that is under way, or its end and the page after it, or the end of all."""
        found = next(self._found, None)
        if isinstance(found, list):
            self._now = self._now[0], iter(found)
        else:
            self._now, self._coming = (None, iter(())), found


class _Metadata:
    """What the events of a frame say before its rows."""

    def __init__(self) -> None:
        self.kind = 0
        self.flags = 0
        self.width = 0
        self.state: Optional[bytes] = None
        self.words: Dict[Union[Field, int], str] = {}
        self.types = TypeReader()
        self.columns: List[Column] = []

    def add_found(self, found: List[Any]) -> None:
        """Takes what `before` of _batches.c found."""
        words, columns = self.words, self.columns
        keyspace, table, name = (words.get(field, "") for field in _SPEC)
        for one in found:
            if type(one) is int:
                columns.append(_new(Column, (keyspace, table, name, PLAIN[one])))
            elif type(one) is str:
                words[_NAME] = name = one
            else:
                self.add(event_of(*one))
                columns = self.columns
                keyspace, table, name = (words.get(field, "") for field in _SPEC)

    def add(self, event: Event) -> None:
        if self.types.open or event.tag == Tag.TYPE_NODE:
            whole = self.types.add(event)
            if whole:
                keyspace, table, name = (self.words.get(field, "") for field in _SPEC)
                self.columns.append(Column(keyspace, table, name, whole))
        elif event.tag == Tag.TEXT:
            self.words[event.field] = event.value
        elif event.field == Field.RESULT_KIND:
            self.kind = event.number
        elif event.field == Field.META_FLAGS:
            # those of the bound variables of a PREPARED come before those of its result
            self.flags, self.columns = event.number, []
        elif event.field == Field.COLUMNS:
            self.width = event.number
        elif event.field == Field.PAGING_STATE:
            self.state = event.value


class Types:
    """The types of a result's columns, for pages without metadata: those of the metadata that a stream has last, as of the frame of a
    PREPARED. They may be given to any number of streams, and are let go by `close`, or as a context manager, or when they are let go."""

    def __init__(self, source: Source, limits: Limits = Limits()) -> None:
        """Reads the stream. Raises Refused or Cut where it is refused or cut."""
        metadata, self._decoder = _Metadata(), Decoder(limits)
        for data, _ in _pieces(source, 65536):
            for event in self._decoder.decode(data):
                metadata.add(event)
        self.columns: Tuple[Column, ...] = tuple(metadata.columns)
        """The columns, with their names and types."""
        verdict = self._decoder.finish()
        if verdict.end == End.CUT:
            raise Cut(verdict.at, verdict.bytes)

    def close(self) -> None:
        """Lets them go; a second time does nothing."""
        self._decoder.close()

    def __enter__(self) -> "Types":
        return self

    def __exit__(self, *_: object) -> None:
        self.close()

    def _give(self, decoder: Decoder) -> None:
        code = decoder._give(self._decoder)
        if code not in (Code.DONE, Code.BUSY, Code.ENDED):  # those that were given type the page under way, or no page will come
            raise BadCall(code)


_SPEC = _KEYSPACE, _TABLE, _NAME = Field.KEYSPACE, Field.TABLE, Field.COLUMN_NAME
_LEAF, _NULL, _EMPTY, _ENTER, _LEAVE, _PART = map(int, (Tag.LEAF, Tag.NULL, Tag.EMPTY, Tag.ENTER, Tag.LEAVE, Tag.PART))


def _found(
    pages: Pages, batches: Iterator[Batch], typed: bool, given: Optional[Tuple[Column, ...]] = None
) -> Iterator[Union[Page, List[Row]]]:
    """Each page, and after it its rows, in a list for each batch that ended some. `typed` says whether cells are read by the types of their
    columns, and `given` are the columns of a page without metadata."""
    metadata, cells = _Metadata(), _cells(0, ())
    for batch in batches:
        at, count = 0, len(batch)
        if isinstance(batch, Placed) and batch.cells:
            if batch.rows:
                yield batch.rows
            at = batch.at
        while at < count:
            rows, at = cells.take(batch, at)
            if rows:
                yield rows
            if at == count:
                break
            event = event_of(*batch[at])
            at += 1
            if event.tag == Tag.FRAME:
                metadata = _Metadata()
                _take_by(batch, None)
            elif event.field == Field.ROWS and metadata.kind == _ROWS_RESULT:
                columns = tuple(metadata.columns)
                if given and metadata.flags & _NO_METADATA and metadata.width == len(given):
                    columns = given
                cells = _cells(metadata.width, tuple(column.type for column in columns) if typed else ())
                _take_by(batch, cells)
                yield Page(pages, columns, metadata.width, event.number, metadata.state)
            else:
                metadata.add(event)


def _take_by(batch: Batch, cells: "Union[_Cells, _CompiledCells, None]") -> None:
    """Has events of cells made to rows as they come, from the next call on, or no more."""
    if isinstance(batch, Placed):
        batch.cells = cells


def _cells(width: int, types: Tuple[Type, ...]) -> "Union[_Cells, _CompiledCells]":
    if _compiled is None:
        return _Cells(width, types)
    return _CompiledCells(width, types)


class _CompiledCells:
    """What `_Cells` does, done by _cells.c, over events that are read where they lie."""

    def __init__(self, width: int, types: Tuple[Type, ...], to_columns: bool = False) -> None:
        cells = _compiled.Cells(width, types, LEAVES, EMPTY, _frozen, to_columns)
        self._take = cells.take
        self.read = cells.read
        self.put = cells.put
        self.columns = cells.columns

    def take(self, batch: Any, at: int) -> Tuple[List[Row], int]:
        """Takes events of `Placed` from one on."""
        rows, at = self._take(batch.address, at, batch.count)
        return rows, at


class _Cells:
    """Puts values together to cells, and cells to rows."""

    def __init__(self, width: int, types: Tuple[Type, ...]) -> None:
        self.types = types
        self.width = width
        self.row: List[ValueOf] = []
        self.open: List[_Items] = []
        self.parts: List[bytes] = []

    def take(self, batch: Batch, at: int) -> Tuple[List[Row], int]:
        """Takes events of cells, from this place of the batch on: the rows that they end, and the place of the first event that is
        none of a cell."""
        rows: List[Row] = []
        row, width = self.row, self.width
        for at in range(at, len(batch)):
            record, content = batch[at]
            tag = record[9]
            if tag == _LEAF and not record[6]:
                # most cells are scalars, so this is here and not in a call
                row.append(LEAVES[record[11]](record[3], content, record[7], record[8][: record[15]]))
                whole = len(row) == width
            elif _LEAF <= tag <= _PART:
                whole = self.add(record, content)
            else:
                return rows, at
            if whole:
                rows.append(tuple(row))
                row.clear()
        return rows, len(batch)

    def add(self, record: Record, content: bytes) -> bool:
        """Whether the event, one of a cell, ends a row."""
        tag = record[9]
        if tag == _LEAF:
            value = LEAVES[record[11]](record[3], content, record[7], record[8][: record[15]])
        elif tag == _NULL:
            value = None
        elif tag == _EMPTY:
            value = self._empty()
        elif tag == _ENTER:
            self.open.append(_Items(record[3], self._next_type()))
            return False
        elif tag == _LEAVE:
            value = self.open.pop().value()
        else:
            self.parts.append(content)
            if record[14] != Mark.LAST:
                return False
            value, self.parts = b"".join(self.parts), []
        if self.open:
            self.open[-1].values.append(value)
            return False
        self.row.append(value)
        return len(self.row) == self.width

    def _next_type(self) -> Type:
        if self.open:
            return self.open[-1].next_type()
        return self.types[len(self.row)] if self.types else _RAW

    def _empty(self) -> ValueOf:
        kind = self._next_type().kind
        return "" if kind in _TEXTS else b"" if kind in _BYTES else EMPTY


def rows(
    source: Source,
    limits: Limits = Limits(),
    *,
    piece: int = 65536,
    progress: Optional[Progress] = None,
    types: Optional[Types] = None,
    skip: Optional[Skip] = None,
    lenient: bool = False,
) -> Iterator[Row]:
    """The rows of all pages of a stream, as tuples. `types` are those of pages without metadata, and `skip` is called with each frame that is
    passed over, as in `Pages`; `lenient` is that of `Pages` too. `close()` of what it gives lets go of the source."""
    found = Pages(source, limits, piece=piece, progress=progress, types=types, skip=skip, lenient=lenient)._found
    made: Iterator[Row] = _rows_of(found) if _compiled is None else _compiled.Rows(found)
    return made


def _rows_of(found: "Iterator[Union[Page, List[Row]]]") -> Iterator[Row]:
    for some in found:
        if isinstance(some, list):
            yield from some
