"""Streams from bytes and files."""

import errno
import io
import os
from typing import TYPE_CHECKING, Any, BinaryIO, Callable, Iterator, Optional, Sequence, Tuple, Union

from ._decoder import Behind, Buffer, Cut, Decoder, Limits, Placed, Record, Refusal, Refused, Skip, Verdict, event_of, octets_of, view_of
from ._events import Event
from .numbers import End

if TYPE_CHECKING:
    Source = Union[Buffer, str, "os.PathLike[str]", BinaryIO]
else:
    Source = Any
"""Bytes, in any buffer; the path of a file; or a binary file that is open, also a pipe."""

Progress = Callable[[int, Optional[int]], None]
"""Is called after each piece with how many bytes were read, and of how many, or None where that is not known."""


def _pieces(source: Source, size: int) -> Iterator[Tuple[bytes, Optional[int]]]:
    """The pieces of a source, each with the bytes of the whole."""
    if size < 1:
        raise ValueError("piece is over 0")
    if isinstance(source, (str, os.PathLike)):
        return _of_path(source, size)
    if hasattr(source, "read"):
        return _of_file(source, size)
    return _of_view(view_of(source), size)


def _of_view(view: memoryview, size: int) -> Iterator[Tuple[bytes, Optional[int]]]:
    for at in range(0, len(view), size):
        yield bytes(view[at : at + size]), len(view)


def _of_path(path: Union[str, "os.PathLike[str]"], size: int) -> Iterator[Tuple[bytes, Optional[int]]]:
    with open(path, "rb") as file:
        yield from _of_file(file, size)


def _of_file(file: Any, size: int) -> Iterator[Tuple[bytes, Optional[int]]]:
    total = _length_of(file)
    # what is there is taken, and a pipe not waited for until the piece is full
    read = getattr(file, "read1", file.read)
    while True:
        piece = read(size)
        if piece is not None and not len(piece) and _never_blocks(file):
            piece = file.raw.read(size)  # read1 gives no bytes where none came yet, too
        if piece is None:
            raise BlockingIOError(errno.EAGAIN, "nothing came yet of a file that does not block: give what comes to a Decoder")
        if isinstance(piece, str):
            raise TypeError("a file of bytes is wanted, as open(path, 'rb') gives it")
        octets = octets_of(piece)
        if not octets:
            return
        yield octets, total


def _never_blocks(file: Any) -> bool:
    """Whether it is a buffered file over one that gives None where nothing came yet."""
    try:
        return isinstance(file, io.BufferedReader) and not os.get_blocking(file.fileno())
    except OSError:
        return False


def _length_of(file: BinaryIO) -> Optional[int]:
    """How many bytes are left of a plain file that has an end. One that is decompressed as it is read would have to be read for it."""
    if not isinstance(file, (io.BufferedReader, io.BytesIO, io.FileIO)):
        return None
    try:
        at = file.tell()
        end = file.seek(0, os.SEEK_END)
        file.seek(at)
    except (OSError, ValueError):
        return None
    return end - at


def _pieces_of_frames(pieces: Iterator[Tuple[bytes, Optional[int]]]) -> Iterator[Tuple[bytes, Optional[int]]]:
    """The same bytes, in pieces that end where a frame ends too."""
    header, body = b"", 0  # what came of a header, and how much of a body is to come
    for data, total in pieces:
        begin = at = 0
        while at < len(data):
            step = min(body or 9 - len(header), len(data) - at)
            if body:
                body -= step
            else:
                header += data[at : at + step]
            at += step
            if len(header) == 9:
                header, body = b"", int.from_bytes(header[5:], "big")
            if not header and not body:
                yield data[begin:at], total
                begin = at
        if begin < len(data):
            yield data[begin:], total


Batch = Union[Placed, Sequence[Tuple[Record, bytes]]]
"""Events with their contents."""


def batches(
    source: Source,
    limits: Limits,
    piece: int,
    progress: Optional[Progress],
    placed: bool = False,
    give: Optional[Callable[[Decoder], None]] = None,
    skip: Optional[Skip] = None,
    lenient: bool = False,
) -> Iterator[Batch]:
    """The events of a source with their contents, batch by batch; the one before a refusal too. With `placed` each batch is one
    of `Placed`, which is read before the next is asked for. `give` is called at the begin of each frame, and at other places; `skip` for each
    frame that is passed over, after the events of it that came before what is refused."""
    pieces = _pieces(source, piece)
    return _batches_of(_pieces_of_frames(pieces) if give else pieces, limits, progress, placed, give, skip, lenient)


def _batches_of(
    pieces: Iterator[Tuple[bytes, Optional[int]]],
    limits: Limits,
    progress: Optional[Progress],
    placed: bool,
    give: Optional[Callable[[Decoder], None]],
    skip: Optional[Skip],
    lenient: bool,
) -> Iterator[Batch]:
    behind = Behind()
    with Decoder(limits, room=1024, lenient=lenient) as decoder:
        take: Callable[[bytes, Optional[Skip]], Iterator[Tuple[Any, Refusal]]] = decoder._placed if placed else decoder._batches
        for data, total in pieces:
            if give:
                give(decoder)
            for batch, refusal in take(data, skip):
                yield batch
                if refusal:
                    raise Refused(*refusal, [event_of(*one) for one in batch], header=behind.header(refusal, data))
            behind.add(data)
            if progress:
                progress(behind.offset, total)
        _must_be_whole(decoder.finish())


def _must_be_whole(verdict: Verdict) -> None:
    if verdict.end == End.CUT:
        raise Cut(verdict.at, verdict.bytes)


def events(
    source: Source,
    limits: Limits = Limits(),
    *,
    piece: int = 65536,
    progress: Optional[Progress] = None,
    skip: Optional[Skip] = None,
    lenient: bool = False,
) -> Iterator[Event]:
    """The events of a stream, read in pieces of at most this many bytes. After the last event, Refused or Cut is raised where the
    stream is refused or cut. With `skip` a frame that is refused within its body is passed over, and `skip` is called with it: the events go on with
    the next frame. `lenient` is that of `Decoder`.

    A file that does not block raises BlockingIOError where nothing came yet; a Decoder is for those. A buffer that can be resized cannot be as
    long as it is read. What this gives is a generator; it, and what `rows`, `frames`, `columns` and `arrays` give, is for one thread at a time.
    Another that enters meanwhile gets the ValueError of Python's generators, and takes nothing from the first.
    """
    found = batches(source, limits, piece, progress, skip=skip, lenient=lenient)
    return (event_of(*one) for batch in found for one in batch)
