"""Frames are written of their events, by the module in C and by Python alone: those of bindings/streams.txt as they came, and events that
were changed at random as what is written of them is read."""

import os
import random
import sys
import unittest
from typing import Any, Iterator, List, NamedTuple, Optional, Tuple
from unittest import mock

import cqlp
from cqlp import BadEvent, Code, Event, Field, Kind, Mark, Opcode, Tag, _encode

from .streams import streams

CHANGES = int(os.environ.get("CQLP_CHANGES", 100_000))
COMPILED = [_encode._compiled, None] if _encode._compiled else [None]
NUMBERS = (0, 1, -1, 2, 3, 4, 5, 255, 256, 65535, 65536, 2**31 - 1, 2**31, -(2**31), 2**32 - 1, 2**32, 2**63 - 1, -(2**63), 2**63, 2**70)
QUERY = (
    Event(tag=Tag.FRAME, opcode=Opcode.QUERY, extra=7),
    Event(tag=Tag.TEXT, field=Field.QUERY, content="ä!".encode()),
    Event(tag=Tag.SHORT, field=Field.CONSISTENCY, number=1),
    Event(tag=Tag.BYTE, field=Field.QUERY_FLAGS),
    Event(tag=Tag.END),
)


class WholeFrame(NamedTuple):
    """A whole frame of a stream, with its events."""

    name: str
    limits: cqlp.Limits
    bytes: bytes
    events: Tuple[Event, ...]


def frames() -> Iterator[WholeFrame]:
    for stream in streams():
        events: List[Event] = []
        with cqlp.Decoder(stream.limits) as decoder:
            try:
                found = decoder.decode(stream.bytes)
            except cqlp.Refused as refused:
                found = refused.events
        for event in found:
            events = [event] if event.tag == Tag.FRAME else events + [event]
            if event.tag == Tag.END:
                yield WholeFrame(stream.name, stream.limits, stream.bytes[events[0].at : event.at], tuple(events))


def has(events: Tuple[Event, ...], tag: Tag) -> bool:
    """Whether one has this tag."""
    return any(event.tag == tag for event in events)


def refusal(frame: WholeFrame) -> Optional[Code]:
    """Why it is not written, if it is not: a scalar of a cell comes in parts, or cells were read without their types."""
    if has(frame.events, Tag.PART):
        return Code.UNBUILT
    return Code.NO_SUCH_FRAME if has(frame.events, Tag.TYPE_NODE) and not frame.limits.types else None


def spelled(frame: WholeFrame) -> bytes:
    """The bytes of a frame without those after its last field, with a null of the length -1, and with 1 for true. There is no other way to spell
    it."""
    data, base = bytearray(frame.bytes), frame.events[0].at
    for event in frame.events:
        if event.tag == Tag.NULL or event.mark == Mark.NULL:
            data[event.at - base : event.at - base + 4] = b"\xff" * 4
        if event.tag == Tag.LEAF and event.kind == Kind.BOOLEAN:
            data[event.at - base + 4] = event.number
    del data[len(data) - frame.events[-1].number :]
    data[5:9] = (len(data) - 9).to_bytes(4, "big")
    return bytes(data)


NUMBERED = (Tag.BYTE, Tag.SHORT, Tag.INT, Tag.LONG, Tag.COUNT)
CONTENTS = (Kind.CUSTOM, Kind.ASCII, Kind.BLOB, Kind.DECIMAL, Kind.VARCHAR, Kind.VARINT, Kind.RAW)
# What a tag uses of an event.
USED = {
    Tag.FRAME: ("extra", "opcode", "flags", "mark"),
    Tag.UUID: ("field", "octets"),
    Tag.INET: ("field", "octets", "extra"),
    Tag.TEXT: ("field", "content"),
    Tag.TYPE_NODE: ("kind",),
    Tag.NULL: ("row", "column", "level"),
    Tag.EMPTY: ("row", "column", "level"),
    Tag.ENTER: ("row", "column", "level", "kind", "number"),
    Tag.LEAVE: ("level", "number"),
    Tag.PART: ("row", "column", "level", "number", "content", "mark"),
    Tag.END: (),
    **{tag: ("field", "number") for tag in NUMBERED},
}


def plain(event: Event) -> Event:
    """An event with the members that its tag uses, without offsets and lengths of frames."""
    if event.tag in (Tag.BYTES, Tag.BOUND):
        used: Tuple[str, ...] = ("field", "mark", "content") if event.mark == Mark.NONE else ("field", "mark")
    elif event.tag == Tag.LEAF:
        wide = event.kind in (Kind.FLOAT, Kind.DOUBLE, Kind.UUID, Kind.TIMEUUID, Kind.INET)
        used = ("row", "column", "level", "kind", "content" if event.kind in CONTENTS else "octets" if wide else "number")
        used += ("extra",) if event.kind == Kind.DECIMAL else ()
    else:
        used = USED[event.tag]
    return Event(tag=event.tag, **{member: getattr(event, member) for member in used})


WIDE = cqlp.Limits(text=4096, cell=4096, entries=128, depth=64)


def read_back(data: bytes) -> List[Event]:
    with cqlp.Decoder(WIDE) as decoder:
        found = decoder.decode(data)
        assert decoder.finish().end == cqlp.End.WHOLE
    return [plain(event) for event in found]


def mutated(rng: random.Random, events: List[Event]) -> List[Event]:
    """Changes one thing of an event, or how many there are."""
    i, j = rng.randrange(len(events)), rng.randrange(len(events))
    event, other, what = events[i], events[j], rng.randrange(17)
    if what == 0:
        event = event._replace(tag=rng.randrange(22))
    elif what == 1:
        event = event._replace(field=rng.randrange(60))
    elif what == 2:
        event = event._replace(field=other.field)
    elif what == 3:
        event = event._replace(mark=rng.randrange(6))
    elif what == 4:
        event = event._replace(number=rng.choice(NUMBERS))
    elif what == 5:
        event = event._replace(number=event.number + rng.randrange(3) - 1)
    elif what == 6:
        event = event._replace(content=event.content[: rng.randrange(4)])
    elif what == 7:
        event = event._replace(opcode=rng.randrange(18))
    elif what == 8:
        event = event._replace(flags=1 << rng.randrange(9))
    elif what == 9:
        event = event._replace(extra=rng.choice(NUMBERS))
    elif what == 10:
        event = event._replace(octets=bytes(rng.randrange(18)))
    elif what == 11:
        event = event._replace(content=event.content + bytes([rng.randrange(256)]))
    elif what == 12:
        event = event._replace(kind=rng.randrange(256), row=rng.choice(NUMBERS))
    elif what == 13:
        events[i], events[j] = other, event
        return events
    elif what == 14:
        return events[:i] + events[i + 1 :] or events
    elif what == 15:
        return events[:i] + [other] + events[i:]
    else:
        event = event._replace(content=bytearray(event.content), octets=memoryview(event.octets))
    return events[:i] + [event] + events[i + 1 :]


def outcome(events: Any, compiled: Any) -> Any:
    """What is written, or what is said."""
    before, _encode._compiled = _encode._compiled, compiled
    try:
        return cqlp.encode(events)
    except BadEvent as bad:
        return bad.code, bad.index, str(bad)
    finally:
        _encode._compiled = before


class Encodes(unittest.TestCase):
    def test_streams_are_written_as_they_came(self) -> None:
        written = left = others = 0
        for frame in frames():
            for compiled in COMPILED:
                found = outcome(frame.events, compiled)
                if isinstance(found, tuple):
                    self.assertEqual(found[0], refusal(frame), (frame.name, found))
                    continue
                self.assertIsNone(refusal(frame), frame.name)
                self.assertEqual(found, spelled(frame), frame.name)
                self.assertEqual(outcome(frame.events[:-1], compiled), found)
                self.assertEqual(list(cqlp.encode_frames(frame.events)), [found])
            written += isinstance(found, bytes)
            others += isinstance(found, bytes) and found != frame.bytes
            left += isinstance(found, tuple)
        self.assertGreaterEqual(written, 82)
        self.assertGreaterEqual(left, 5)
        self.assertGreaterEqual(others, 7)

    def test_streams_whole(self) -> None:
        count = 0
        for stream in streams():
            if not stream.verdict.startswith("whole"):
                continue
            whole = [frame for frame in frames() if frame.name == stream.name]
            if any(refusal(frame) for frame in whole):
                continue
            events = iter(list(cqlp.events(stream.bytes, stream.limits)))
            self.assertEqual(b"".join(cqlp.encode_frames(events)), b"".join(map(spelled, whole)), stream.name)
            count += 1
        self.assertGreaterEqual(count, 60)

    def test_events_changed_at_random(self) -> None:
        """Each is refused, or read back as it was given; each tenth is written by Python alone too, in the same way."""
        rng, found = random.Random(5), [frame for frame in frames()]
        codes = {code: 0 for code in Code}
        for at in range(CHANGES):
            frame = rng.choice(found)
            events = list(frame.events)
            for _ in range(rng.randrange(4)):
                events = mutated(rng, events)
            said = outcome(events, COMPILED[0])
            if at % 10 == 0:
                self.assertEqual(outcome(events, None), said)
            if isinstance(said, tuple):
                codes[said[0]] += 1
                continue
            codes[Code.DONE] += 1
            wanted = [plain(event) for event in events]
            if events[-1].tag != Tag.END:
                wanted.append(Event(tag=Tag.END))
            self.assertEqual(read_back(said), wanted)
        for code in (Code.DONE, Code.NO_EVENT, Code.MISPLACED, Code.NO_SUCH_FRAME):
            self.assertGreater(codes[code], CHANGES // 20, code)
        self.assertEqual(codes[Code.LEFT_OVER], 0)

    def test_what_is_refused(self) -> None:
        cases = (
            (2, Event(tag=0), Code.NO_EVENT, "event 2, 0: NoEvent"),
            (2, Event(tag=20, field=1), Code.NO_EVENT, "event 2, 20 TraceId: NoEvent"),
            (2, Event(tag=Tag.SHORT, field=Field.CONSISTENCY, number=65536), Code.NO_EVENT, "event 2, Short Consistency: NoEvent"),
            (2, Event(tag=Tag.SHORT, field=Field.CONSISTENCY, number=-(2**64)), Code.NO_EVENT, "event 2, Short Consistency: NoEvent"),
            (2, Event(tag=Tag.SHORT, field=Field.CONSISTENCY, row=-1), Code.NO_EVENT, "event 2, Short Consistency: NoEvent"),
            (2, Event(tag=Tag.SHORT), Code.NO_EVENT, "event 2, Short: NoEvent"),
            (2, Event(tag=300, field=Field.CONSISTENCY), Code.NO_EVENT, "event 2, 300 Consistency: NoEvent"),
            (0, Event(tag=Tag.FRAME, opcode=4), Code.NO_EVENT, "event 0, Frame: NoEvent"),
            (0, Event(tag=Tag.FRAME, opcode=Opcode.QUERY, extra=32768), Code.NO_EVENT, "event 0, Frame: NoEvent"),
            (1, Event(tag=Tag.TEXT, field=Field.QUERY, content=b"\xff"), Code.NO_EVENT, "event 1, Text Query: NoEvent"),
            (1, Event(tag=Tag.UUID, field=Field.TRACE_ID, octets=bytes(15)), Code.NO_EVENT, "event 1, Uuid TraceId: NoEvent"),
            (1, Event(tag=Tag.INET, field=Field.ADDRESS, octets=bytes(5)), Code.NO_EVENT, "event 1, Inet Address: NoEvent"),
            (1, Event(tag=Tag.INET, field=Field.ADDRESS, octets=bytes(20)), Code.NO_EVENT, "event 1, Inet Address: NoEvent"),
            (1, Event(tag=Tag.FRAME, opcode=Opcode.OPTIONS), Code.MISPLACED, "event 1, Frame: Misplaced"),
            (3, Event(tag=Tag.END), Code.MISPLACED, "event 4, End: Misplaced"),
            (1, Event(tag=Tag.UUID, field=Field.TRACE_ID, octets=bytes(16)), Code.NO_SUCH_FRAME, "event 1, Uuid TraceId: NoSuchFrame"),
            (3, Event(tag=Tag.BYTE, field=Field.QUERY_FLAGS, number=4), Code.NO_SUCH_FRAME, "event 4, End: NoSuchFrame"),
            (0, QUERY[0]._replace(flags=1), Code.NO_SUCH_FRAME, "event 0, Frame: NoSuchFrame"),
        )
        for compiled in COMPILED:
            for at, event, code, words in cases:
                events = QUERY[:at] + (event,) + QUERY[at + 1 :]
                found = outcome(events, compiled)
                self.assertEqual((found[0], found[2]), (code, words))
                with self.assertRaises(BadEvent) as bad:
                    cqlp.encode(iter(events))
                index = bad.exception.index
                self.assertEqual(bad.exception.event, events[index] if index < len(events) else None)
            self.assertEqual(outcome(QUERY[:3], compiled), (Code.NO_SUCH_FRAME, 3, "the events together: NoSuchFrame"))
            self.assertEqual(outcome((), compiled), (Code.MISPLACED, 0, "the events together: Misplaced"))

    def test_what_is_no_event(self) -> None:
        wrong: Tuple[Any, ...] = (
            3,
            (),
            tuple(QUERY[1]),
            tuple.__new__(Event, QUERY[1][:-1]),
            QUERY[1]._replace(content="text"),
            QUERY[1]._replace(content=3),
            QUERY[1]._replace(content=[1]),
            QUERY[1]._replace(number=1.5),
            QUERY[1]._replace(number=2**70, mark=None),
            QUERY[1]._replace(tag="Text"),
            QUERY[1]._replace(octets=None),
        )
        for compiled in COMPILED:
            for event in wrong:
                with mock.patch.object(_encode, "_compiled", compiled):
                    self.assertRaises(TypeError, cqlp.encode, [QUERY[0], event])
            self.assertRaises(TypeError, cqlp.encode, None)

    def test_members_of_other_types(self) -> None:
        class Three:
            def __index__(self) -> int:
                return 3

        like: Any = QUERY[2]._replace(number=Three(), content=b"not looked at")
        text: Any = QUERY[1]._replace(content=memoryview(b"abc"), octets=bytearray())
        for compiled in COMPILED:
            found = outcome([QUERY[0], text, like, QUERY[3]], compiled)
            self.assertEqual(found.hex(), "04000007070000000a" + "00000003616263" + "0003" + "00")

    def test_a_frame_of_nothing_read(self) -> None:
        self.assertEqual(cqlp.encode(QUERY).hex(), "04000007070000000a" + "00000003c3a421" + "0001" + "00")
        long = QUERY[1]._replace(content=b"x" * 300_000)
        self.assertEqual(len(cqlp.encode([QUERY[0], long, *QUERY[2:]])), 9 + 4 + 300_000 + 3)
        with mock.patch.object(_encode, "_MOST", 0):  # so that there is too little room at first
            self.assertEqual(cqlp.encode(QUERY).hex(), "04000007070000000a" + "00000003c3a421" + "0001" + "00")
        options = [Event(tag=Tag.FRAME, opcode=Opcode.OPTIONS)] * 3
        self.assertEqual(list(cqlp.encode_frames(options)), [bytes.fromhex("040000000500000000")] * 3)
        self.assertEqual(list(cqlp.encode_frames([])), [])
        with self.assertRaises(BadEvent) as bad:
            list(cqlp.encode_frames([*QUERY, QUERY[2]]))
        self.assertEqual((bad.exception.index, bad.exception.code), (0, Code.MISPLACED))

    @unittest.skipUnless(_encode._compiled, "the module in C is not built")
    def test_both_make_the_same_arrays(self) -> None:
        values = [Event(tag=Tag.LEAF, kind=kind, content=b"abc", octets=bytes(count)) for kind in Kind for count in (0, 4, 8, 16)]
        rest = [Event(tag=tag, mark=mark, content=b"abc", octets=bytes(16), row=2**32 - 1, extra=-5) for tag in Tag for mark in Mark]
        events = tuple(values + rest)
        records, contents = _encode._compiled.pack(events, Event)
        self.assertEqual((records, contents), _encode._pack(events))
        self.assertEqual(len(records), len(events) * _encode._compiled.EVENT_SIZE)
        counts = [sys.getrefcount(event) for event in events]
        for _ in range(100):
            _encode._compiled.pack(events, Event)
        self.assertEqual([sys.getrefcount(event) for event in events], counts)


if __name__ == "__main__":
    unittest.main()
