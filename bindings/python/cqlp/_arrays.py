"""Pages as arrays in the layout of Apache Arrow, batch by batch, in the memory of the library until they are copied out of it."""

import ctypes
import sys
from array import array
from dataclasses import dataclass
from functools import lru_cache
from itertools import repeat
from typing import Any, Dict, FrozenSet, Iterable, Iterator, List, NamedTuple, Optional, Tuple, Union

from . import _arrow, _native
from ._decoder import _KINDS, BadCall, Behind, Decoder, Limits, Placed, Refusal, Refused, Skip, _address, _must_be_done, event_of
from ._events import Event
from ._item_arrays import ITEMS, Members, members_of
from ._missing import ColumnsMissing, Missing, numpy_of
from ._pages import _NO_METADATA, _ROWS_RESULT, Row, Types, _cells, _Metadata, _new
from ._sources import Progress, Source, _must_be_whole, _pieces, _pieces_of_frames
from ._turns import Error
from ._types import Column, Type, column_text
from .numbers import Code, Field, Kind, Stop, Tag

_compiled: Any = _native.compiled("_nested")
_batches: Any = _native.compiled("_batches")
# Where the calls lie that _batches.c makes.
_NEXT, _GET = (ctypes.cast(getattr(_native.library, name), ctypes.c_void_p).value for name in ("cqlp_next", "cqlp_columns_get"))
# How many bytes the arrays of a reader that has ended may have, so that the next reader begins with them.
_SPARE = 1 << 23

# The kinds whose values are numbers in their array, and the code of its items.
_CODES: Dict[int, str] = {
    Kind.TINYINT: "b",
    Kind.SMALLINT: "h",
    Kind.INT: "i",
    Kind.BIGINT: "q",
    Kind.COUNTER: "q",
    Kind.TIMESTAMP: "q",
    Kind.TIME: "q",
    Kind.DATE: "I",
    Kind.FLOAT: "f",
    Kind.DOUBLE: "d",
}
# How many bytes the values of a kind have that all have the same.
_FIXED: Dict[int, int] = {int(kind): array(code).itemsize for kind, code in _CODES.items()}
_FIXED.update({int(Kind.BOOLEAN): 1, int(Kind.UUID): 16, int(Kind.TIMEUUID): 16})
_FULL, _MORE, _REFUSED = int(Stop.FULL), int(Stop.MORE), int(Stop.REFUSED)
_MANY = 256  # how many events of cells with items one call of the library puts
_LEAF, _PART, _END = int(Tag.LEAF), int(Tag.PART), int(Tag.END)


class CellTooLong(Error, ValueError):
    """A value of a page is longer than its arrays may hold: that of the row and the column counted from 0."""

    def __init__(self, row: int, column: int) -> None:
        super().__init__("the value in row %d, column %d is longer than the arrays may hold" % (row, column))
        self.row = row
        self.column = column


class ColumnArray(NamedTuple):
    """The values of a column of a batch, in the layout of Apache Arrow."""

    column: Optional[Column]
    """What the page, or its types, say of the column, if they do."""
    kind: Union[Kind, int]
    """Of which kind the values are: RAW where they are not read by their type."""
    cells: int
    """How many cells there are."""
    values: bytes
    """The values, one after the other, zeros where a cell has none: of booleans a bit each, the least of a byte first; numbers with their lowest
    byte first; of uuids 16 bytes; of other kinds the bytes between the offsets. A date is the days from 1970 and 2^31 to them."""
    offsets: Optional[memoryview]
    """Of values without a fixed length, where each begins in `values`, and where the last one ends: 64-bit integers, one more than cells."""
    validity: Optional[bytes]
    """A bit for each cell, set where it has a value, the least of a byte first. None where all have one."""
    empties: Optional[bytes]
    """A bit for each cell, set where it has a value of no bytes. None where none has. Of values of a fixed length such a cell has no value in
    `validity`."""
    items: "Tuple[ColumnArray, ...]" = ()
    """The arrays of the values in it: of a list or a set one, of a map that of keys and that of values, between its `offsets`; of a tuple or a udt
    one for each field, with as many cells."""
    decimals: _arrow.Decimals = "decimal"
    """What decimals and varints in it are in Arrow."""

    def __repr__(self) -> str:
        return "<ColumnArray of %d cells: %s>" % (self.cells, column_text(self.column, self.kind))

    def numbers(self) -> memoryview:
        """The values of a kind that has numbers, as this machine has them, over the same memory where its bytes are in this order: 0 where a cell
        has none, of which `validity` says."""
        code = _CODES.get(self.kind)
        if code is None:
            raise TypeError("the values of this column are no numbers")
        if sys.byteorder == "little":
            return memoryview(self.values).cast(code)
        found = array(code, self.values)
        found.byteswap()
        return memoryview(found)

    def numpy(self, missing: Missing = "refuse") -> Any:
        """The numbers as an array of NumPy, over the same memory where `numbers` is. NumPy has to be there. Where a cell has no value it raises
        ValuesMissing; with `missing="mask"` it is a masked array, and with `missing="zero"` such a cell is 0."""
        numbers, valid = self.numbers(), self.validity or b""
        count = 0 if self.validity is None else self.cells - bin(int.from_bytes(valid, "little")).count("1")

        def mask(module: Any) -> Any:
            return module.unpackbits(module.frombuffer(valid, module.uint8), count=self.cells, bitorder="little") == 0

        return numpy_of(numbers, self.column, missing, count, mask)

    def __arrow_c_schema__(self) -> Any:
        """A capsule with the schema, of the C data interface of Arrow."""
        return _arrow.capsules().schema(*self._arrow_schema())

    def __arrow_c_array__(self, requested_schema: Any = None) -> Tuple[Any, Any]:
        """Capsules with the schema and the array, without a copy but of dates and decimals. No other schema is made on request."""
        schema = self._arrow_schema()
        return _arrow.capsules().schema(*schema), _arrow.capsules().array(*self._arrow_array(schema))

    def _arrow_schema(self, like: Optional[_arrow.Parts] = None) -> _arrow.Parts:
        """What the schema is made of. Decimals are as in a schema that is given."""
        typed = self.column is not None and self.column.type.kind == self.kind
        type, name = (self.column.type, self.column.name) if self.column and typed else (Type(self.kind), self.column.name if self.column else "")
        return _arrow.schema_of(type, name, self._forms(like))

    def _forms(self, like: Optional[_arrow.Parts]) -> _arrow.Parts:
        """The forms of the decimals in it, those of a schema where one is given."""
        if self.kind in _arrow.DECIMALS:
            return (like[0] if like else _arrow.form_of_decimals(self),)
        inner = like[4] if like else ()
        if self.kind == Kind.MAP and inner:
            inner = inner[0][4]
        if len(inner) != len(self.items):
            inner = (None,) * len(self.items)
        return tuple(one._forms(each) for one, each in zip(self.items, inner))

    def _arrow_array(self, schema: _arrow.Parts) -> _arrow.Parts:
        return _arrow.array_of(self, schema, self.column.name if self.column else "")

    def _with(self, decimals: _arrow.Decimals) -> "ColumnArray":
        return self._replace(decimals=decimals, items=tuple(one._with(decimals) for one in self.items))

    def __reduce__(self) -> Tuple[Any, ...]:
        """Offsets pickle as their bytes."""
        return _unpickled, (tuple(self._replace(offsets=None)), None if self.offsets is None else bytes(self.offsets))


def _array_of_members(kind: int, column: Optional[Column], count: int, members: Members) -> ColumnArray:
    values, offsets, validity, empties, inner = members
    cells = count if offsets is None else offsets[count]
    items = tuple(_array_of_members(type.kind, None, cells, one) for type, one in inner)
    return ColumnArray(column, _KINDS[kind], count, values, offsets, validity, empties, items)


def _array_of_built(type: Type, column: Optional[Column], built: Tuple[Any, ...]) -> ColumnArray:
    """What _nested.c built of the cells of a column."""
    cells, values, ends, validity, empties, inner = built
    offsets = None if ends is None else memoryview(ends).cast("q")
    items = tuple(_array_of_built(one, None, each) for one, each in zip(type.inner, inner))
    return ColumnArray(column, _KINDS[type.kind], cells, values, offsets, validity, empties, items)


def _unpickled(members: Tuple[Any, ...], offsets: Optional[bytes]) -> ColumnArray:
    return ColumnArray(*members)._replace(offsets=None if offsets is None else memoryview(offsets).cast("q"))


@dataclass(frozen=True, repr=False)
class ArrayBatch:
    """Rows of a page, one after the other, column by column."""

    arrays: Tuple[ColumnArray, ...]
    """One for each column of the page."""
    count: int
    """How many rows it has; each array has as many cells."""
    first: int
    """Which row of the page is its first, counted from 0."""
    page: int
    """Which page of the stream they are of, counted from 0."""
    rows: int
    """How many rows the page says that it has."""
    paging_state: Optional[bytes]
    """Where the result goes on after the page, or None where this is its last one."""

    def __repr__(self) -> str:
        columns = ", ".join(column_text(each.column, each.kind) for each in self.arrays)
        return "<ArrayBatch of %d rows from row %d on: %s>" % (self.count, self.first, columns)

    def __getitem__(self, name: str) -> ColumnArray:
        """The array of the first column of this name."""
        for found in self.arrays:
            if found.column is not None and found.column.name == name:
                return found
        raise KeyError(name)

    def __arrow_c_schema__(self) -> Any:
        """A capsule with the schema, a struct of the columns, of the C data interface of Arrow."""
        return _arrow.capsules().schema(*self._arrow_schema())

    def __arrow_c_array__(self, requested_schema: Any = None) -> Tuple[Any, Any]:
        """Capsules with the schema and the array, without a copy but of dates and decimals. No other schema is made on request."""
        schema = self._arrow_schema()
        return _arrow.capsules().schema(*schema), _arrow.capsules().array(*self._arrow_array(schema))

    def _arrow_schema(self, like: Optional[_arrow.Parts] = None) -> _arrow.Parts:
        """What the schema is made of. Decimals are as in a schema that is given, where it has as many columns."""
        inner = like[4] if like and len(like[4]) == len(self.arrays) else (None,) * len(self.arrays)
        return _arrow.schema_of_batch(tuple(one._arrow_schema(each) for one, each in zip(self.arrays, inner)))

    def _arrow_array(self, schema: _arrow.Parts) -> _arrow.Parts:
        return _arrow.array_of_batch(self.count, tuple(one._arrow_array(each) for one, each in zip(self.arrays, schema[4])))


class Batches(Iterator[ArrayBatch]):
    """The batches of a stream, one after the other. Other packages take them as a stream of Arrow: `pyarrow.table(cqlp.arrays("page.bin"))`."""

    def __init__(self, found: Iterator[ArrayBatch]) -> None:
        self._found = found

    def __next__(self) -> ArrayBatch:
        return next(self._found)

    def close(self) -> None:
        """Lets go of the source."""
        self._found.close()  # type: ignore[attr-defined]

    def __arrow_c_stream__(self, requested_schema: Any = None) -> Any:
        """A capsule with a stream of the batches that are still to come. Its schema is that of the next one, which is read for it; a batch with other
        columns, as of another page, ends it with an error. Raises ValueError where no batch comes."""
        first = next(self._found, None)
        if first is None:
            raise ValueError("there is no page, so there is no schema")
        schema = first._arrow_schema()
        return _arrow.capsules().stream(schema, self._arrow_arrays(first, schema))

    def _arrow_arrays(self, batch: Optional[ArrayBatch], schema: _arrow.Parts) -> Iterator[_arrow.Parts]:
        while batch is not None:
            if batch._arrow_schema(schema) != schema:
                raise ValueError("page %d has other columns than the page before it" % batch.page)
            yield batch._arrow_array(schema)
            batch = next(self._found, None)


class _Store:
    """Columns that the library fills, for values of these kinds: this many rows, bytes before the last row, and bytes of one value."""

    def __init__(self, kinds: Tuple[int, ...] = (), sizes: Tuple[int, int, int] = (0, 0, 0)) -> None:
        self.handle = _native.Handle(0, None)
        self.kinds = kinds
        self.sizes = sizes
        if kinds:
            limits = _native.BatchLimits(len(kinds), *sizes)
            code = _native.library.cqlp_columns_new(limits, bytes(kinds), len(kinds), self.handle)
            if code == Code.UNSUPPORTED:
                raise BadCall(code)
            _must_be_done(code)

    def serves(self, kinds: Tuple[int, ...], sizes: Tuple[int, int, int], most: Tuple[int, int, int]) -> bool:
        """Whether it is as large as is wanted, and no larger than it may be."""
        return self.kinds == kinds and all(low <= there <= high for low, there, high in zip(sizes, self.sizes, most))

    def is_small(self) -> bool:
        rows, before, one = self.sizes
        return len(self.kinds) * (9 * rows + before + one) <= _SPARE

    def __del__(self, _free: Any = _native.library.cqlp_columns_free) -> None:
        if hasattr(self, "handle"):
            _free(self.handle)


# Those of the reader that ended last: memory for columns is written with zeros when it is made, which takes as long as some thousand rows.
_spare: List[_Store] = []


def _taken_spare() -> _Store:
    try:
        return _spare.pop()
    except IndexError:  # also where another thread took it
        return _Store()


class _Arrays:
    """The columns that the library fills for a reader."""

    def __init__(self, limits: Limits, rows: int, memory: int) -> None:
        self.limits = limits
        self.rows = rows
        self.memory = memory
        self.store = _Store()
        self.native = _native.Column()

    @property
    def handle(self) -> Any:
        return self.store.handle

    def begin(self, kinds: Tuple[int, ...], rows: int, body: int) -> None:
        """Makes columns without rows for a page with values of these kinds, with this many rows and in a body of this many bytes. Those that
        are there are used again where they are as large."""
        width, widths = len(kinds), [_FIXED.get(kind, 0) for kind in set(kinds)]
        widest = max(widths) if all(widths) else None
        sizes, most = self.sizes_for(width, widest, rows, body), self.sizes_for(width, widest, self.rows, 1 << 32)
        if not self.store.serves(kinds, sizes, most):
            self.store = _taken_spare()
        if self.store.serves(kinds, sizes, most):
            _native.library.cqlp_columns_clear(self.handle)
        else:
            self.store = _Store(kinds, sizes)

    def sizes_for(self, width: int, widest: Optional[int], rows: int, body: int) -> Tuple[int, int, int]:
        """How many rows, how many bytes of values before the last row, and how many bytes of one value, such that so many columns together have no
        more than the memory, and none has more than the page needs. `widest` is how many bytes their values have at most that all have a fixed length."""
        share = self.memory // width
        most = max(1, min(self.rows, share // 32, rows))
        if widest is not None:
            return most, widest * most, widest
        return most, max(1, min(64 * self.rows, share // 4, body)), max(16, min(self.limits.cell, share // 4, body))

    def take(self, columns: Tuple[Column, ...]) -> List[ColumnArray]:
        """The whole rows that came, and no row from then on."""
        width, described = len(self.store.kinds), columns or repeat(None)
        if _batches:
            count, found = _batches.copied(_GET, ctypes.addressof(self.handle), width)
            arrays = [
                _new(ColumnArray, (column, _KINDS[kind], count, values, offsets, validity, empties, (), "decimal"))
                for column, (kind, values, offsets, validity, empties) in zip(described, found)
            ]
        else:
            count = self.count()
            arrays = [_array_of(self.view(at), column, count) for at, column in zip(range(width), described)]
        _native.library.cqlp_columns_clear(self.handle)
        return arrays

    def count(self) -> int:
        """How many whole rows came."""
        found: int = self.view(len(self.store.kinds) - 1)[6]
        return found

    def view(self, at: int) -> Tuple[Any, ...]:
        """Where the arrays of a column lie."""
        _native.library.cqlp_columns_get(self.handle, at, self.native)
        return _native.VIEW.unpack_from(self.native)

    def close(self) -> None:
        """Lets go of the columns, or leaves them to the next reader."""
        store, self.store = self.store, _Store()
        if store.kinds and store.is_small() and not _spare:
            _spare.append(store)

    def __enter__(self) -> "_Arrays":
        return self

    def __exit__(self, *_: object) -> None:
        self.close()


def _array_of(view: Tuple[Any, ...], column: Optional[Column], count: int) -> ColumnArray:
    """A copy of the first cells of a column."""
    place, ends, valid, empty, size, bounds, cells, kind = view
    offsets = None
    if bounds:
        offsets = memoryview(ctypes.string_at(ends, 8 * (count + 1))).cast("q")
        size = offsets[count]
    elif cells and kind != _BOOLEAN:
        size = size // cells * count
    values = _bits(place, count) if kind == _BOOLEAN else _copied(place, size)
    validity, empties = _bits(valid, count), _bits(empty, count)
    return ColumnArray(
        column,
        _KINDS[kind],
        count,
        values,
        offsets,
        None if validity == _repeated(True, count) else validity,
        None if empties == _repeated(False, count) else empties,
    )


_BOOLEAN = int(Kind.BOOLEAN)


def _copied(place: int, size: int) -> bytes:
    return ctypes.string_at(place, size) if size else b""


def _bits(place: int, count: int) -> bytes:
    """This many bits, and zeros after the last."""
    found = _copied(place, (count + 7) // 8)
    return found[:-1] + bytes([found[-1] & (1 << count % 8) - 1]) if count % 8 else found


@lru_cache(maxsize=8)
def _repeated(bit: bool, count: int) -> bytes:
    """This many bits that are all this one, and zeros after the last."""
    return ((1 << count) - 1 if bit else 0).to_bytes((count + 7) // 8, "little")


class _Page(NamedTuple):
    """What came of the metadata of the page under way."""

    columns: Tuple[Column, ...]
    number: int
    rows: int
    paging_state: Optional[bytes]


class _Reader:
    """Reads the frames of one stream, the cells of pages into arrays, and each other event alone."""

    def __init__(
        self,
        decoder: Decoder,
        arrays: _Arrays,
        given: Optional[Tuple[Column, ...]],
        names: Optional[FrozenSet[str]],
        decimals: _arrow.Decimals,
    ) -> None:
        self.names = names
        self.decimals: _arrow.Decimals = decimals
        self.decoder = decoder
        self.arrays = arrays
        self.given = given
        self.metadata = _Metadata()
        self.page: Optional[_Page] = None
        self.behind = Behind()
        self.pages = self.first = self.body = self.offset = self.end = 0
        # of a page with values that have items: what makes its arrays, of many events at a time
        self.nested: Any = None
        self.types: List[Optional[Type]] = []
        self.many = (_native.Event * _MANY)()
        self.taken = [0, 0]  # how many of these events were taken, and why no more
        # the same without the module in C: what makes its rows, of one event at a time, and those that wait for a batch
        self.cells: Any = None
        self.rows: List[Row] = []
        self.event, self.batch = _native.Event(), _native.Batch()
        self.places = tuple(map(ctypes.addressof, (decoder._handle, self.event, self.batch)))
        self.placed = Placed(self.event, self.event)
        self.placed.count = 1

    def read(self, place: int, length: int, skip: Optional[Skip]) -> Iterator[ArrayBatch]:
        """The batches that a piece ends. Where the stream is refused, the rows before that place come first."""
        used, stop = 0, _FULL
        while stop == _FULL:
            self.call(place + used, length - used)
            used, stop = used + self.batch.used, self.batch.stop
            self.offset += self.batch.used
            refusal = self.decoder._refusal(self.batch) if stop == _REFUSED else None
            if self.batch.events:
                yield from self.take_many() if self.nested else self.take()
            elif stop == _FULL:
                yield from self.rest()
            if refusal:
                yield from self.rest()
                self.pass_over(refusal, skip, place, length)
            if refusal or (stop == _MORE and used < length):  # the frame has ended, and there are more
                stop = _FULL
        last = min(8, length)
        self.behind.offset += length - last
        self.behind.add(ctypes.string_at(place + length - last, last))

    def call(self, place: int, length: int) -> None:
        """Within a page one call of the library, which fills the arrays, or puts many events and none of the next frame. Else it puts one, after those
        that only say more of the frame under way."""
        decoder, event, batch = self.decoder._handle, self.event, self.batch
        if self.page is None and _batches:
            code, found = _batches.before(_NEXT, self.places[0], place, length, *self.places[1:])
            self.metadata.add_found(found)
        elif self.nested:
            length = min(length, self.end - self.offset)
            *self.taken, code = self.nested.read(_NEXT, self.places[0], place, length, ctypes.addressof(self.many), _MANY, self.places[2])
        elif self.page is None or self.cells:
            code = _native.library.cqlp_next(decoder, place, length, ctypes.addressof(event), 1, batch)
        else:
            code = _native.library.cqlp_columns_next(decoder, self.arrays.handle, place, length, event, batch)
        if code:
            _must_be_done(code)

    def take(self) -> Iterator[ArrayBatch]:
        """Takes an event that is none of the arrays'."""
        tag, field = self.event.tag, self.event.field
        if self.page is not None:
            if self.cells and _LEAF <= tag <= _PART:
                self.rows += self.cells.take(self.placed, 0)[0]
                if len(self.rows) >= self.arrays.rows:
                    yield from self.rest()
            elif _LEAF <= tag <= _PART:
                raise CellTooLong(self.event.row, self.event.column)
            if tag == _END:
                yield from self.rest(True)
                self.page = None
        elif tag == Tag.FRAME:
            self.metadata, self.body = _Metadata(), self.event.number
            self.end = self.event.at + 9 + self.body
        elif field == Field.ROWS and self.metadata.kind == _ROWS_RESULT:
            yield from self.begin(self.event.number)
        elif not _LEAF <= tag <= _END:
            self.metadata.add(self.whole_event())

    def take_many(self) -> Iterator[ArrayBatch]:
        """Takes events of cells that a call left, and the end of the frame after them."""
        (at, state), count = self.taken, self.batch.events
        while self.nested:
            if state == 2:
                raise CellTooLong(self.many[at - 1].row, self.many[at - 1].column)
            ended = not state and at < count
            if state or ended:
                yield from self.rest(ended)
            if ended:
                self.page = self.nested = None
            if ended or at == count:
                return
            at, state, _ = self.nested.take(ctypes.addressof(self.many), at, count)

    def whole_event(self) -> Event:
        content = ctypes.string_at(self.event.content, self.event.length) if self.event.length else b""
        return event_of(_native.RECORD.unpack_from(self.event), content)

    def begin(self, rows: int) -> Iterator[ArrayBatch]:
        """Begins a page. One without columns has no rows to come."""
        metadata, columns, typed = self.metadata, tuple(self.metadata.columns), self.arrays.limits.types
        if self.given and metadata.flags & _NO_METADATA and metadata.width == len(self.given):
            columns = self.given
        self.must_have_names(columns)
        page, self.first = _Page(columns, self.pages, rows, metadata.state), 0
        self.pages += 1
        if not metadata.width:
            yield ArrayBatch((), 0, 0, page.number, rows, page.paging_state)
            return
        if metadata.width > self.arrays.limits.entries:
            raise BadCall(Code.TOO_MANY_COLUMNS)
        kinds = tuple([int(one.type.kind) for one in columns]) if typed and columns else (int(Kind.RAW),) * metadata.width
        self.nested, self.cells, self.rows = None, None, []
        left = {kind for kind, column in zip(kinds, columns) if not self.is_wanted(column)} if self.names is not None else set()
        if _compiled and (ITEMS & set(kinds) or not left <= _FIXED.keys()):  # columns that are left out hold nothing then
            self.types = [(column.type if typed else Type(Kind.RAW)) if self.is_wanted(column) else None for column in columns]
            self.nested = _compiled.Nested(tuple(self.types), self.arrays.rows, self.arrays.memory)
        elif ITEMS & set(kinds):
            self.cells = _cells(metadata.width, tuple(column.type for column in columns))
        else:
            self.arrays.begin(kinds, rows, self.body)
        self.page = page

    def rest(self, last: bool = False) -> Iterator[ArrayBatch]:
        """The whole rows that came of the page under way; at its end also none, where it has none."""
        if self.page is None:
            return
        page, first = self.page, self.first
        if last and first and not (self.nested or self.cells or self.arrays.count()):
            return  # its last row filled a batch
        if self.nested:
            count, built = self.nested.arrays()
            wanted = [(type, column) for type, column in zip(self.types, page.columns) if type is not None]
            arrays = [_array_of_built(type, column, one) for (type, column), one in zip(wanted, built)]
        elif self.cells:
            count, arrays = len(self.rows), self.of_rows(page.columns)
        else:
            arrays = self.arrays.take(page.columns)
            count = arrays[-1].cells
            if self.names is not None:
                arrays = [one for one in arrays if self.is_wanted(one.column)]
        self.first += count
        if self.decimals != "decimal":
            arrays = [one._with(self.decimals) for one in arrays]
        if count or last and not first:
            yield ArrayBatch(tuple(arrays), count, first, page.number, page.rows, page.paging_state)

    def of_rows(self, columns: Tuple[Column, ...]) -> List[ColumnArray]:
        """Arrays of the rows that came, which are let go."""
        rows, self.rows = self.rows, []
        found = []
        for at, column in enumerate(columns):
            if self.is_wanted(column):
                members = members_of(column.type, [row[at] for row in rows], _CODES)
                found.append(_array_of_members(column.type.kind, column, len(rows), members))
        return found

    def must_have_names(self, columns: Tuple[Column, ...]) -> None:
        """Raises ColumnsMissing where one of the names is of no column. A page without metadata has no names."""
        if self.names is None:
            return
        found = tuple(column.name for column in columns)
        missing = self.names.difference(found)
        if columns and missing:
            raise ColumnsMissing(self.pages, tuple(sorted(missing)), found)

    def is_wanted(self, column: Optional[Column]) -> bool:
        """Whether the array of a column is handed out. Those without metadata all are."""
        return self.names is None or column is None or column.name in self.names

    def pass_over(self, refusal: Tuple[int, Any], skip: Optional[Skip], place: int, length: int) -> None:
        """Goes on with the next frame after a refusal in the piece that lies there, where that is asked for and can be done."""
        if skip is not None:
            code, skipped = self.decoder._skip()
            if not code:
                self.page = self.nested = None
                skip(skipped)
                return
        raise Refused(*refusal, [], header=self.behind.header(refusal, ctypes.string_at(place, length)))


def _places(source: Source, piece: int, of_frames: bool, at_once: bool) -> Iterator[Tuple[int, int, Optional[int]]]:
    """Where the pieces of a source lie, until the next is asked for, each with its length and the bytes of the whole. Bytes that are there may come at
    once: so no value is put together of pieces."""
    pieces = _pieces(source, piece)
    if type(source) is bytes and not of_frames:
        return _places_in(source, max(piece, len(source)) if at_once else piece)
    return ((_address(data), len(data), total) for data, total in (_pieces_of_frames(pieces) if of_frames else pieces))


def _places_in(source: bytes, piece: int) -> Iterator[Tuple[int, int, Optional[int]]]:
    base, total = _address(source), len(source)
    for at in range(0, total, piece):
        yield base + at, min(piece, total - at), total


def arrays(
    source: Source,
    limits: Limits = Limits(),
    *,
    rows: int = 4096,
    memory: int = 1 << 26,
    piece: int = 1 << 18,
    progress: Optional[Progress] = None,
    types: Optional[Types] = None,
    skip: Optional[Skip] = None,
    columns: Optional[Iterable[str]] = None,
    decimals: _arrow.Decimals = "decimal",
) -> Batches:
    """The rows of all pages of a stream as arrays in the layout of Apache Arrow, in batches of at most this many rows. A page has a batch at
    least, also where it has no rows. Each batch is a copy, and lives on.

    With `columns`, names, only these columns are handed out, and of others with texts, bytes or items nothing is kept. A page that lacks one of them
    raises ColumnsMissing, but a page without metadata, of which all columns are handed out. `decimals` says what decimals and varints are in Arrow: by
    default numbers where all of a batch have one scale, else texts; "text" or "bytes".

    The arrays of a batch have no more than `memory` bytes, and what `Limits` say comes beside them. A batch is shorter where its columns are many or its
    values long. A value for which there is no room even so raises CellTooLong: one longer than a quarter of a column's share of the memory, or that in a
    row which has no room, of a page with lists, sets, maps, tuples or udts or where columns are left out. So does a part, where `limits.parts` is set, but
    of such a page. A page with more columns than `limits.entries` raises BadCall with TOO_MANY_COLUMNS.

    Where the stream is refused or cut, Refused or Cut is raised after the last row before that place. `types` and `skip` are as in `Pages`.
    """
    if rows < 1 or memory < 1:
        raise ValueError("rows and memory are over 0")
    if decimals not in ("decimal", "text", "bytes"):
        raise ValueError('decimals is "decimal", "text" or "bytes"')
    if isinstance(columns, (str, bytes)):
        raise TypeError("columns is a list of names, and a %s is none" % type(columns).__name__)
    places = _places(source, piece, types is not None, progress is None and skip is None)
    names = None if columns is None else frozenset(columns)
    return Batches(_batches_of(places, limits, min(rows, 1 << 24), memory, progress, types, skip, names, decimals))


def _batches_of(
    places: Iterator[Tuple[int, int, Optional[int]]],
    limits: Limits,
    rows: int,
    memory: int,
    progress: Optional[Progress],
    types: Optional[Types],
    skip: Optional[Skip],
    names: Optional[FrozenSet[str]],
    decimals: _arrow.Decimals,
) -> Iterator[ArrayBatch]:
    with Decoder(limits, room=1) as decoder, _Arrays(limits, rows, memory) as held:
        reader = _Reader(decoder, held, types.columns if types else None, names, decimals)
        for place, length, total in places:
            if types:
                types._give(decoder)
            yield from reader.read(place, length, skip)
            if progress:
                progress(reader.behind.offset, total)
        yield from reader.rest()
        _must_be_whole(decoder.finish())
