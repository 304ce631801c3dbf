"""Of events that no frame has, `encode` names the first that does not fit. Whether events are the first ones of a frame a decoder says here: they are
spelled, the lengths that come later as long as may be, and are read as these events, and nothing in them is refused."""

import random
import struct
import unittest
from typing import Dict, List, Optional, Sequence

import cqlp
from cqlp import Code, Event, Field, Kind, Mark, Tag

from .test_encode import CHANGES, COMPILED, frames, mutated, outcome, plain

# What no body and no cell here is as long as.
LONG = 1_000_000
LIMITS = cqlp.Limits(text=1 << 24, cell=1 << 24, entries=1 << 16, depth=64)
NUMBERS = {Tag.BYTE: ">B", Tag.SHORT: ">H", Tag.INT: ">i", Tag.LONG: ">q"}
WIDE_COUNTS = (Field.COLUMNS, Field.KEYS, Field.ROWS)
SCALARS: Dict[int, str] = {
    **dict.fromkeys((Kind.BIGINT, Kind.COUNTER, Kind.TIMESTAMP, Kind.TIME), ">q"),
    **{Kind.BOOLEAN: ">B", Kind.DATE: ">I", Kind.INT: ">i", Kind.SMALLINT: ">h", Kind.TINYINT: ">b"},
}
OCTETS = (Kind.DOUBLE, Kind.FLOAT, Kind.INET, Kind.TIMEUUID, Kind.UUID)
NO_LENGTH = {Mark.NULL: -1, Mark.UNSET: -2}


class Unspelled(Exception):
    """No bytes are this event."""


def with_length(content: bytes) -> bytes:
    return struct.pack(">i", len(content)) + content


def field(event: Event) -> bytes:
    """A field in its notation, or the id of a type option."""
    tag, wide = event.tag, event.field == Field.QUERY
    if tag == Tag.TYPE_NODE:
        return struct.pack(">H", event.kind)
    if tag == Tag.COUNT:
        return struct.pack(">i" if event.field in WIDE_COUNTS else ">H", event.number)
    if tag == Tag.UUID:
        return event.octets
    if tag == Tag.INET:
        return bytes([len(event.octets)]) + event.octets + struct.pack(">i", event.extra)
    if tag in NUMBERS:
        return struct.pack(NUMBERS[Tag(tag)], event.number)
    if tag in (Tag.BYTES, Tag.BOUND) and event.mark != Mark.NONE:
        return struct.pack(">i", NO_LENGTH[Mark(event.mark)])
    if event.field == Field.STATEMENT_ID or (tag == Tag.TEXT and not wide):
        return struct.pack(">H", len(event.content)) + event.content
    return with_length(event.content)


def scalar(event: Event) -> bytes:
    if event.kind in SCALARS:
        return struct.pack(SCALARS[event.kind], event.number)
    if event.kind in OCTETS:
        return event.octets
    return (struct.pack(">i", event.extra) if event.kind == Kind.DECIMAL else b"") + event.content


class Opened:
    """A value with items that has not ended: its bytes so far, and how many items are still to come."""

    def __init__(self, event: Event) -> None:
        has_count = event.kind in (Kind.LIST, Kind.MAP, Kind.SET)
        self.bytes = struct.pack(">i", event.number) if has_count else b""
        self.left = event.number * (2 if event.kind == Kind.MAP else 1)


class Cells:
    """The cells of a page, one value after the other."""

    def __init__(self) -> None:
        self.bytes = b""
        self.around: List[Opened] = []

    def put(self, value: bytes) -> None:
        if self.around:
            self.around[-1].bytes += value
            self.around[-1].left -= 1
        else:
            self.bytes += value

    def take(self, event: Event) -> None:
        if event.tag == Tag.ENTER:
            self.around.append(Opened(event))
        elif event.tag == Tag.LEAVE:
            if not self.around:
                raise Unspelled
            self.put(with_length(self.around.pop().bytes))
        elif event.tag == Tag.LEAF:
            self.put(with_length(scalar(event)))
        else:
            self.put(struct.pack(">i", -1 if event.tag == Tag.NULL else 0))

    def ended(self) -> bytes:
        """Their bytes: a value that has all of its items ends there, and others as far away as may be."""
        while self.around and self.around[-1].left == 0:
            self.put(with_length(self.around.pop().bytes))
        inner, left = b"", LONG
        for value in reversed(self.around):
            inner = struct.pack(">i", len(value.bytes) + 4 + left) + value.bytes + inner
            left += len(value.bytes) + LONG
        return self.bytes + inner


def spelled(events: Sequence[Event]) -> bytes:
    """The first bytes of a frame with these events, which ends with the last of them where that is an end."""
    body, cells = b"", Cells()
    for event in events[1:]:
        if event.tag == Tag.END:
            break
        if event.tag in (Tag.LEAF, Tag.NULL, Tag.EMPTY, Tag.ENTER, Tag.LEAVE):
            cells.take(event)
        else:
            body += field(event)
    body += cells.ended()
    head, length = events[0], len(body) if events[-1].tag == Tag.END else 1 << 28
    version = 0x84 if head.mark == Mark.RESPONSE else 0x04
    return struct.pack(">BBhBi", version, head.flags, head.extra, head.opcode, length) + body


def are_first(events: Sequence[Event]) -> bool:
    """Whether they are the first events of a frame."""
    try:
        data = spelled(events)
    except (Unspelled, KeyError, struct.error):
        return False
    with cqlp.Decoder(LIMITS) as decoder:
        try:
            found = decoder.decode(data)
        except cqlp.Refused:
            return False
    return [plain(event) for event in found[: len(events)]] == [plain(event) for event in events]


def misfit(events: Sequence[Event]) -> int:
    """The first event that does not fit: that with which they are the first ones of no frame."""
    least, most = 0, len(events)
    while least < most:
        middle = (least + most) // 2
        if are_first(events[: middle + 1]):
            least = middle + 1
        else:
            most = middle
    return least


class Misfits(unittest.TestCase):
    def check(self, events: Sequence[Event], name: str) -> Optional[int]:
        """Which event is named of those that no frame has."""
        said = outcome(events, COMPILED[0])
        if not isinstance(said, tuple) or said[0] != Code.NO_SUCH_FRAME:
            return None
        at: int = said[1]
        self.assertEqual(at, misfit(events), (name, said, at < len(events) and events[at], events))
        return at

    def test_each_beginning(self) -> None:
        """All events of a beginning of a frame fit, and more are due."""
        for frame in frames():
            if outcome(frame.events, COMPILED[0]).__class__ is tuple:
                continue
            for count in range(1, len(frame.events)):
                at = self.check(frame.events[:count], frame.name)
                self.assertEqual(count if count < len(frame.events) - 1 else None, at, frame.name)

    def test_each_event_left_out_or_twice(self) -> None:
        named = 0
        for frame in frames():
            for i, event in enumerate(frame.events):
                for other in ((), (event, event)):
                    events = frame.events[:i] + other + frame.events[i + 1 :]
                    named += events != () and self.check(events, frame.name) is not None
        self.assertGreater(named, 1000)

    def test_events_changed_at_random(self) -> None:
        rng, found, places = random.Random(7), [frame for frame in frames()], [0, 0, 0, 0]
        for _ in range(CHANGES // 10):
            frame = rng.choice(found)
            events = list(frame.events)
            for _ in range(rng.randrange(1, 3)):
                events = mutated(rng, events)
            events = events[: rng.choice((len(events), rng.randrange(len(events)) + 1))]
            at = self.check(events, frame.name)
            if at is not None:
                places[0 if at == 0 else 3 if at == len(events) else 2 if at == len(events) - 1 else 1] += 1
        self.assertGreater(min(places), CHANGES // 1000, places)


if __name__ == "__main__":
    unittest.main()
