"""Passes requests on from standard input to standard output, with LOCAL_QUORUM in place of the consistency ONE."""

import os
import sys
from typing import Iterable, Iterator

import cqlp
from cqlp import Consistency, Field


def altered(pieces: Iterable[bytes]) -> Iterator[bytes]:
    """The last byte of a piece waits for the next piece: it may be the first of the two bytes of a consistency."""
    buffer, base = bytearray(), 0
    with cqlp.Decoder() as decoder:
        for piece in pieces:
            buffer += piece
            for event in decoder.decode(piece):
                if event.field == Field.CONSISTENCY and event.number == Consistency.ONE:
                    buffer[event.at - base + 1] = Consistency.LOCAL_QUORUM
            yield bytes(buffer[:-1])
            base += len(buffer) - 1
            del buffer[:-1]
    yield bytes(buffer)


def main() -> None:
    pieces = iter(lambda: os.read(sys.stdin.fileno(), 4096), b"")
    try:
        for piece in altered(pieces):
            sys.stdout.buffer.write(piece)
    except cqlp.Refused as refused:
        sys.exit(str(refused))  # nothing of its piece is passed on


main()
