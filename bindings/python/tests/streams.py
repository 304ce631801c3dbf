"""The streams of bindings/streams.txt, and what is said of each."""

from pathlib import Path
from typing import Iterator, List, NamedTuple

from cqlp import Limits

BINDINGS = Path(__file__).resolve().parents[2]


class Stream(NamedTuple):
    name: str
    limits: Limits
    bytes: bytes
    lines: List[str]
    verdict: str


def streams() -> Iterator[Stream]:
    lines = iter((BINDINGS / "streams.txt").read_text("utf-8").split("\n")[:-1])
    for line in lines:
        word, name, text, cell, entries, depth, types, parts = line.split(" ")
        assert word == "stream"
        limits = Limits(int(text), int(cell), int(entries), int(depth), types == "1", parts == "1")
        data = bytes.fromhex(next(lines)[len("bytes ") :])
        events = []
        while not (line := next(lines)).startswith("end "):
            events.append(line)
        yield Stream(name, limits, data, events, line[len("end ") :])
