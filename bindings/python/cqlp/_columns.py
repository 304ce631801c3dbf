"""Pages column by column: the numbers of a column in an `array.array`."""

import ctypes
import sys
from array import array
from dataclasses import dataclass
from typing import Any, Dict, Iterator, List, NamedTuple, Optional, Tuple, Union

from . import _native, _pages
from ._arrays import _Arrays
from ._decoder import Behind, Decoder, Limits, Placed, Record, Refused, Skip, event_of
from ._events import Event
from ._missing import Missing, numpy_of
from ._pages import Row, _Cells, _cells, _CompiledCells
from ._sources import Batch, Progress, Source, _must_be_whole, _pieces, batches
from ._types import Column, Type, column_text
from ._values import ValueOf
from .messages import Frame, Rows, _Frames
from .numbers import Kind, Stop, Tag

# The kinds whose values are in an array, and the code of its items.
_CODES: Dict[int, str] = {
    Kind.BOOLEAN: "b",
    Kind.TINYINT: "b",
    Kind.SMALLINT: "h",
    Kind.INT: "i",
    Kind.DATE: "i",
    Kind.BIGINT: "q",
    Kind.COUNTER: "q",
    Kind.TIMESTAMP: "q",
    Kind.TIME: "q",
    Kind.FLOAT: "f",
    Kind.DOUBLE: "d",
}
_LEAF, _NULL, _EMPTY, _PART = map(int, (Tag.LEAF, Tag.NULL, Tag.EMPTY, Tag.PART))
# The kinds whose values the library puts into arrays.
_SCALARS = {int(kind) for kind in Kind} - {int(kind) for kind in (Kind.LIST, Kind.SET, Kind.MAP, Kind.TUPLE, Kind.UDT)}
# How many events of a page come before its cells go through these arrays, and how many rows and bytes the arrays have.
_ROOM, _ROWS, _MEMORY = 1024, 4096, 1 << 24
# What the byte of a number says of it.
_IS_THERE, _IS_NULL, _IS_EMPTY, _IS_ODD = range(4)


class Series(NamedTuple):
    """The values of a column of a page."""

    column: Optional[Column]
    """The column as the page's metadata describes it, if it does."""
    values: "Union[array[Any], List[ValueOf]]"
    """Numbers in an array: of a boolean 0 or 1, of a date the days from 1970, of a timestamp milliseconds from 1970, of a time
    nanoseconds since midnight, and 0 where one is missing. Of other types a list, with the values that `rows` gives."""
    missing: Optional[bytes]
    """None where no number is missing; else a byte for each: 0 where it is there, 1 where it is null, 2 where it has no bytes, 3 where a
    lenient reading found a content that is none of its type: `rows` gives its bytes."""

    def __repr__(self) -> str:
        return "<Series of %d values: %s>" % (len(self.values), column_text(self.column))

    def numpy(self, missing: Missing = "refuse") -> Any:
        """The numbers as an array of NumPy, over the same memory. NumPy has to be there. Where a number is missing it raises ValuesMissing; with
        `missing="mask"` it is a masked array, and with `missing="zero"` such a number is 0."""
        if not isinstance(self.values, array):
            raise TypeError("the values of this column are no numbers")
        states = self.missing or b""
        count = len(states) - states.count(0)
        return numpy_of(
            memoryview(self.values), self.column, missing, count, lambda module: module.frombuffer(states, module.uint8) != 0
        )


@dataclass(frozen=True, repr=False)
class PageColumns:
    """A page column by column."""

    series: Tuple[Series, ...]
    """One for each column; none where the page has no row and describes no columns."""
    count: int
    """How many rows it says that it has; each series has as many values."""
    paging_state: Optional[bytes]
    """Where the result goes on, or None where this is its last page."""

    def __repr__(self) -> str:
        return "<PageColumns of %d rows: %s>" % (self.count, ", ".join(column_text(each.column) for each in self.series))

    def __getitem__(self, name: str) -> Series:
        """The series of the first column of this name."""
        for series in self.series:
            if series.column is not None and series.column.name == name:
                return series
        raise KeyError(name)


class _Numbers:
    """The numbers of a column, as _cells.c puts them."""

    def __init__(self, kind: Union[Kind, int]) -> None:
        self.kind = kind
        self.values: "array[Any]" = array(_CODES[kind])
        self.missing: Optional[bytearray] = None
        # floats are kept as their bytes, so that those that are no number stay as they are
        self.octets = bytearray()

    def add(self, record: Record) -> None:
        state = self._state(record)
        if state != _IS_THERE and self.missing is None:
            self.missing = bytearray(len(self))
        if self.missing is not None:
            self.missing.append(state)
        if self.kind in (Kind.FLOAT, Kind.DOUBLE):
            self.octets += record[8][: self.values.itemsize] if state == _IS_THERE else bytes(self.values.itemsize)
        else:
            self.values.append(self._number(record) if state == _IS_THERE else 0)

    def _state(self, record: Record) -> int:
        tag = record[9]
        if tag == _LEAF:
            return _IS_THERE if record[11] == self.kind else _IS_ODD
        return _IS_NULL if tag == _NULL else _IS_EMPTY

    def _number(self, record: Record) -> int:
        number: int = record[3]
        return number - (1 << 31) if self.kind == Kind.DATE else number

    def __len__(self) -> int:
        return len(self.values) + len(self.octets) // self.values.itemsize

    def tobytes(self) -> bytes:
        """As this machine has them."""
        found = array(self.values.typecode, self.values)
        found.frombytes(self.octets)
        if self.octets and sys.byteorder == "little":
            found.byteswap()
        return found.tobytes()


class _ColumnCells(_Cells):
    """Puts values together to cells, and cells to columns."""

    def __init__(self, width: int, types: Tuple[Type, ...]) -> None:
        super().__init__(1, types)
        self.count = width
        self.at = 0
        # those whose types are described; else as many as cells of the first row have come, so that a count that lies gets no memory
        self.found: "List[Union[_Numbers, List[ValueOf]]]" = [
            _Numbers(type.kind) if type.kind in _CODES else [] for type in types
        ]

    def take(self, batch: Batch, at: int) -> Tuple[List[Row], int]:
        for at in range(at, len(batch)):
            record, content = batch[at]
            if not _LEAF <= record[9] <= _PART:
                return [], at
            if self.at == len(self.found):
                self.found.append([])
            column = self.found[self.at]
            if isinstance(column, _Numbers):
                column.add(record)
            elif self.add(record, content):
                column.append(self.row.pop())
            else:
                continue
            self.at = (self.at + 1) % self.count
        return [], len(batch)

    def _next_type(self) -> Type:
        return super()._next_type() if self.open or not self.types else self.types[self.at]

    def columns(self) -> List[Tuple[Any, Optional[bytes]]]:
        return [(one.tobytes(), one.missing) if isinstance(one, _Numbers) else (one, None) for one in self.found]


class _Columns(_Frames):
    """Makes pages of events, column by column."""

    kinds: Tuple[int, ...] = ()
    """The kinds of the columns of the page under way, where their types are described and none has items; else none."""
    body = count = 0
    """How many bytes the frame under way has, and how many rows its page says."""

    def add(self, event: Event) -> Optional[Frame]:
        if event.tag in (Tag.FRAME, Tag.END):
            self.body, self.kinds = event.number, ()
        return super().add(event)

    def begin(self, page: Rows) -> None:
        width, types = page.metadata.width, self.types_of(page)
        kinds = tuple(int(type.kind) for type in types)
        self.count, self.kinds = page.count, kinds if _SCALARS.issuperset(kinds) else ()
        if not width:
            self.cells = _cells(0, ())
        elif _pages._compiled is None:
            self.cells = _ColumnCells(width, types)
        else:
            self.cells = _CompiledCells(width, types, True)

    def page(self, page: Rows) -> PageColumns:
        """The page whose frame has ended."""
        columns, types = page.metadata.columns, self.types_of(page)
        found: List[Tuple[Any, Optional[bytes]]] = getattr(self.cells, "columns", list)()
        series = []
        for at, (values, missing) in enumerate(found):
            if types and types[at].kind in _CODES:
                numbers: "array[Any]" = array(_CODES[types[at].kind])
                numbers.frombytes(values)
                values = numbers
            series.append(Series(columns[at] if columns else None, values, None if missing is None else bytes(missing)))
        return PageColumns(tuple(series), page.count, page.metadata.paging_state)


class _Filling:
    """Has the library put the cells of a long page into its arrays, and these into its columns."""

    def __init__(self, found: _Columns, decoder: Decoder, limits: Limits) -> None:
        self.found = found
        self.decoder = decoder
        self.arrays = _Arrays(limits, _ROWS, _MEMORY)
        self.views: Any = None

    def take(self, batch: Placed) -> Iterator[Frame]:
        """The frames that the events of a call end, and what it put into the arrays before them."""
        if self.decoder._filling is not None and (batch.count or self.decoder._batch.stop):
            self.put()
        yield from self.found.take(batch)
        kinds = self.found.kinds
        if not kinds:
            self.decoder._filling = None
        elif self.decoder._filling is None and self.decoder._batch.stop == Stop.FULL:
            self.begin(kinds)

    def begin(self, kinds: Tuple[int, ...]) -> None:
        """From here on the cells of the page go into arrays."""
        self.arrays.begin(kinds, self.found.count, self.found.body)
        self.views = (_native.Column * len(kinds))()
        self.decoder._filling = self.arrays.handle

    def put(self) -> None:
        """Puts the cells of the arrays into the columns, and leaves none there."""
        handle, cells, get = self.arrays.handle, self.found.cells, _native.library.cqlp_columns_get
        get(handle, 0, self.views[0])
        if not self.views[0].cells:
            return  # as where cells come one by one, of a row that had begun before
        for at, view in enumerate(self.views):
            get(handle, at, view)
        if isinstance(cells, _CompiledCells):
            cells.put(ctypes.addressof(self.views), len(self.views))
        _native.library.cqlp_columns_clear(handle)


def _filled(
    found: _Columns,
    pieces: Iterator[Tuple[bytes, Optional[int]]],
    limits: Limits,
    progress: Optional[Progress],
    skip: Optional[Skip],
    lenient: bool,
) -> Iterator[Frame]:
    """The frames of these pieces, the cells of whose pages go through the library's arrays where they may."""
    behind = Behind()
    with Decoder(limits, room=_ROOM, lenient=lenient) as decoder:
        filling = _Filling(found, decoder, limits)
        with filling.arrays:
            for data, total in pieces:
                for batch, refusal in decoder._placed(data, skip):
                    yield from filling.take(batch)
                    if refusal:
                        raise Refused(*refusal, [event_of(*one) for one in batch], header=behind.header(refusal, data))
                behind.add(data)
                if progress:
                    progress(behind.offset, total)
        _must_be_whole(decoder.finish())


def columns(
    source: Source,
    limits: Limits = Limits(),
    *,
    longest: int = 1 << 28,
    piece: int = 65536,
    progress: Optional[Progress] = None,
    skip: Optional[Skip] = None,
    lenient: bool = False,
) -> Iterator[PageColumns]:
    """The pages of a stream, each once it is whole, column by column. A page is held whole, as by `frames`, and `longest` bounds it.

    Where the stream is refused or cut, Refused or Cut is raised after the last page that ends before that place; `events` of Refused has none of
    the cells of a long page. With `skip` a frame that is refused within its body is passed over, and `skip` is called with it. With `lenient` a content
    that its type does not have is bytes in a list, and in an array a number that is missing.
    """
    found = _Columns(longest, limits.types)
    if _pages._compiled is not None:
        frames = _filled(found, _pieces(source, piece), limits, progress, skip, lenient)
    else:
        events = batches(source, limits, piece, progress, skip=skip, lenient=lenient)
        frames = (frame for batch in events for frame in found.take(batch))
    return (found.page(frame.message) for frame in frames if isinstance(frame.message, Rows))
