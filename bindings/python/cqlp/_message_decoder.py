"""Messages of a stream whose pieces come from elsewhere, as of asyncio."""

from typing import Any, Callable, Iterator, List, NamedTuple, Optional, Union

from . import _pages
from ._core import version_error
from ._decoder import Behind, Buffer, Decoder, Limits, Refused, Skip, Verdict, must_be_new, octets_of
from ._turns import Turns, one_at_a_time
from .messages import Frame, _Frames


class OtherVersion(NamedTuple):
    """A frame that is not of version 4. Nothing more is read of its stream."""

    at: int
    """The offset in the stream of its first byte."""
    header: bytes
    """Its first nine bytes, which are the header of versions 3 to 5."""

    @property
    def version(self) -> int:
        return self.header[0] & 0x7F

    @property
    def reply(self) -> bytes:
        """What a server answers before it closes: the `version_error` by which a driver tries version 4."""
        return version_error(self.header)


class MessageDecoder:
    """Reads the frames of one stream, each whole with its message, from pieces of any size: what `cqlp.frames` is for a source that it reads itself.

    It is closed by `close`, or as a context manager, or when it is let go. Threads may share it: their calls come one after the other.
    """

    def __init__(
        self, limits: Limits = Limits(), *, longest: int = 1 << 28, skip: Optional[Skip] = None, lenient: bool = False
    ) -> None:
        """A frame whose body has more than `longest` bytes raises FrameTooLong. With `skip` a frame that is refused within its body is passed over,
        and `skip` is called with it. `lenient` is that of `Decoder`."""
        must_be_new(self)
        self._turns = Turns()
        self._decoder = Decoder(limits, room=1024, lenient=lenient)
        self._frames = _Frames(longest, limits.types)
        self._behind = Behind()
        self._skip = skip
        self._ended: Optional[Exception] = None

    @one_at_a_time
    def feed(self, data: Buffer) -> "Iterator[Union[Frame, OtherVersion]]":
        """The frames that these bytes end, the next ones of the stream, in any buffer, which is copied. All bytes are read before this returns.

        A frame of another version is the last that comes. What is refused raises Refused, and a frame that is too long FrameTooLong, **after the last
        frame before it was taken from this iterator**, or at once where there is none; so does each later call.
        """
        found: List[Union[Frame, OtherVersion]] = []
        if self._ended is None:
            self._ended = self._read(octets_of(data), found)
        if self._ended and not found:
            raise self._ended
        return _then(found, None if found and isinstance(found[-1], OtherVersion) else self._ended)

    def _read(self, piece: bytes, found: List[Union[Frame, OtherVersion]]) -> Optional[Exception]:
        """Adds the frames that a piece ends, and answers what ends the stream, if something does."""
        decoder = self._decoder
        take: Callable[..., Any] = decoder._batches if _pages._compiled is None else decoder._placed
        try:
            for batch, refusal in take(piece, self._skip):
                for frame in self._frames.take(batch):
                    found.append(frame)
                if refusal:
                    header = self._behind.header(refusal, piece)
                    if header:
                        found.append(OtherVersion(refusal[0], header))
                    return Refused(refusal[0], refusal[1], [], header=header)
        except Exception as error:
            return error
        self._behind.add(piece)
        return None

    @one_at_a_time
    def finish(self) -> Verdict:
        """How the stream ends, if it ends here. It changes nothing."""
        return self._decoder.finish()

    @one_at_a_time
    def close(self) -> None:
        """Frees the decoder; a second time does nothing. `feed` and `finish` raise Closed from then on."""
        self._decoder.close()

    def __enter__(self) -> "MessageDecoder":
        return self

    def __exit__(self, *_: object) -> None:
        self.close()


def _then(found: List[Union[Frame, OtherVersion]], error: Optional[Exception]) -> Iterator[Union[Frame, OtherVersion]]:
    yield from found
    if error:
        raise error
