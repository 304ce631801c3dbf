"""Pages of any size, written of their events, by cqlp_page_begin and the calls after it."""

import ctypes
import itertools
from typing import Callable, Iterable, List, NoReturn, Sequence

from . import _encode, _native
from ._decoder import Closed, must_be_new
from ._encode import BadEvent
from ._events import Event
from ._turns import Turns, one_at_a_time
from .numbers import Field, Tag

# How many bytes one call puts, where no cell wants more, and how many events are measured at a time.
_ROOM = 1 << 14
_MEASURED = 256
_CELLS = frozenset((Tag.LEAF, Tag.NULL, Tag.EMPTY, Tag.PART, Tag.LEAVE))


def cells_size(events: Iterable[Event]) -> int:
    """How many bytes of a page's cells these events take up: the sum over all events of its cells is the `size` of a PageWriter. An event of no cell
    takes up none. Raises BadEvent with `NO_EVENT`, or `UNBUILT` of a part of a scalar."""
    given, measured, before = iter(events), _native.Measured(), 0
    while True:
        some = tuple(itertools.islice(given, _MEASURED))
        if not some:
            return int(measured.size)
        records, contents = _encode.pack(some)
        code = _native.library.cqlp_page_measure(records, len(some), contents, len(contents), measured)
        if code:
            _refuse(code, some, measured.event, before)
        before += len(some)


class PageWriter:
    """Writes a page of any size of its events, those that a decoder gives of it, in their order: `put` takes the next ones, as many as there are, and
    gives the bytes of the cells that they end, the first time with all before them. All that it gives is what `encode` would write of all
    events.

    No more of the page is held than its head, the events of a cell that has begun and not ended, and the bytes that one call of the library
    puts, 16 KiB, or as many as one cell has where it has more. A cell is held whole.

    After a refusal the page is closed: what was given of it stays, and of that call nothing is given. It is closed by `close` too, or as a context
    manager, or when it is let go. Threads may share it: their calls come one after the other.
    """

    def __init__(self, size: int = 0) -> None:
        must_be_new(self)
        self._turns = Turns()
        self.size = size
        """How many bytes the cells have: the header counts the body, and it is written before them. It is looked at when the count of the rows
        comes. Where the cells keep their lengths it is what is left of the body of the page that is read; else go over the events of the cells
        twice, and let `cells_size` add them up."""
        self._page = _native.Handle(0, None)
        self._room = ctypes.create_string_buffer(_ROOM)
        # Those that are not written, and how many were.
        self._held: List[Event] = []
        self._written = 0
        self._begun = self._closed = self._ended = False

    def put(self, events: Iterable[Event]) -> bytes:
        """Takes the next events, and gives the bytes of the cells that have ended. The event of the page's end may come last, and then no more may
        come; it may also be left out.

        Raises BadEvent with what `include/cqlp.h` says of cqlp_page_begin at the count of the rows, of cqlp_page_put at cells, and of cqlp_page_end
        at the page's end. Its `index` counts all events of the page, the header's being 0. Raises Closed after that.
        """
        given = tuple(events)
        for event in given:
            _encode.must_be_event(event)
        return self._until_refused(lambda: self._put(given))

    def end(self) -> None:
        """Sees that all cells and all bytes of the page have come, and closes it, as the event of its end does. Raises what `put` does."""
        if not self._ended:
            self._until_refused(self._end)

    @one_at_a_time
    def close(self) -> None:
        """Frees the page, whole or not; a second time does nothing. `put` raises Closed from then on."""
        self._free()

    def __enter__(self) -> "PageWriter":
        return self

    def __exit__(self, *_: object) -> None:
        self.close()

    def __del__(self) -> None:
        if hasattr(self, "_closed"):
            self._free()

    def _free(self) -> None:
        _native.library.cqlp_page_free(self._page)
        self._closed = True
        self._held = []

    @one_at_a_time
    def _until_refused(self, step: Callable[[], bytes]) -> bytes:
        """Makes a step, and closes the page where it raises something."""
        if self._closed:
            raise Closed("the page")
        try:
            return step()
        except BaseException:
            self._free()
            raise

    def _put(self, given: Sequence[Event]) -> bytes:
        held, before = self._held, len(self._held)
        held.extend(given)
        if self._begun:
            return self._put_cells(before)
        for at in range(before, len(held)):
            if held[at].tag == Tag.END or (held[at].tag == Tag.COUNT and held[at].field == Field.ROWS):
                return self._begin(at + 1) + self._put_cells(0)
        return b""

    def _put_cells(self, before: int) -> bytes:
        """The cells that end after as many of the events that are held, or the last ones."""
        if self._held and self._held[-1].tag == Tag.END:
            self._held.pop()
            return self._end()
        for count in range(len(self._held), before, -1):
            if not _goes_on(self._held[count - 1]):
                return self._cells(count)
        return b""

    def _end(self) -> bytes:
        """The last cells, of all events that are held."""
        if not self._begun:
            self._begin(len(self._held))
        found = self._cells(len(self._held))
        code = _native.library.cqlp_page_end(self._page)
        if code:
            raise BadEvent(code, self._written, None)
        self._ended = True
        self._free()
        return found

    def _begin(self, count: int) -> bytes:
        """All before the first cell, of as many events."""
        head, begun = self._held[:count], _native.Encoded()
        records, contents = _encode.pack(tuple(head))
        code = _native.NO_ROOM
        while code == _native.NO_ROOM:
            self._grow(begun.length)
            size = self.size if 0 <= self.size < 1 << 64 else (1 << 64) - 1
            code = _native.library.cqlp_page_begin(
                records, count, contents, len(contents), size, self._room, len(self._room), self._page, begun
            )
        if code:
            _refuse(code, head, begun.event, 0)
        self._begun = True
        self._let_go(count)
        return ctypes.string_at(self._room, begun.length)

    def _cells(self, count: int) -> bytes:
        """The cells of as many events."""
        events, put, found = self._held[:count], _native.Put(), []
        records, contents = _encode.pack(tuple(events))
        places = _place(records), _place(contents)
        done = used = 0
        while done < count:
            code = _native.library.cqlp_page_put(
                self._page,
                places[0] + done * _native.RECORD.size,
                count - done,
                places[1] + used,
                len(contents) - used,
                self._room,
                len(self._room),
                put,
            )
            if code not in (_native.DONE, _native.NO_ROOM):
                _refuse(code, events, done + put.event, self._written)
            found.append(ctypes.string_at(self._room, put.length))
            done += put.events
            used += put.used
            self._grow(put.wanted)
        self._let_go(count)
        return b"".join(found)

    def _let_go(self, count: int) -> None:
        del self._held[:count]
        self._written += count

    def _grow(self, wanted: int) -> None:
        if wanted > len(self._room):
            self._room = ctypes.create_string_buffer(wanted)


def _goes_on(event: Event) -> bool:
    """Whether a cell goes on after this event."""
    return event.tag == Tag.ENTER or (event.level > 0 and event.tag in _CELLS)


def _place(data: bytes) -> int:
    """Where these bytes lie, as long as they are there."""
    return ctypes.cast(ctypes.c_char_p(data), ctypes.c_void_p).value or 0


def _refuse(code: int, events: Sequence[Event], at: int, before: int) -> NoReturn:
    if code == _native.NO_MEMORY:
        raise MemoryError("cqlp")
    raise BadEvent(code, before + at, events[at] if at < len(events) else None)
