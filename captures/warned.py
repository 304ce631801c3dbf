#!/usr/bin/env python3
"""captures/warned.py COMMAND.. ROOM: prints what is wrong with what `cqlp capture` writes of the warnings of responses.

It makes a capture in ROOM of requests and their responses, with warnings before the message (section 2.2 of native_protocol_v4.spec): none, one, several, long
ones, with what a terminal obeys, with bytes that are no UTF-8, with a number that is not theirs, behind a tracing id, before a custom payload, in a body that
is compressed, or that ends at each byte of them, in a packet or in pieces. What a line, an object (--json) and a record (--csv) have to say of them is read
from the bytes again. Last it makes one where there is no room for what a response says."""
import csv
import itertools
import json
import re
import struct
import subprocess
import sys
import uuid
from pathlib import Path

from errors import front_of, string
from made import frame, in_turn, of_pcap
from objects import HIDDEN, field

KEPT = 256
QUERY, ERROR, RESULT, EVENT = 0x07, 0x00, 0x08, 0x0C
PACKED, TRACED, LADEN, WARNED = 0x01, 0x02, 0x04, 0x08
VOID = struct.pack(">I", 1)
INVALID = struct.pack(">I", 0x2200) + string(b"no such table")
PAYLOAD = struct.pack(">H", 1) + string(b"key") + struct.pack(">i", 300) + b"p" * 300
KEYS = ["warnings", "warning", "warning_is_whole", "warning_texts", "warning_texts_are_whole"]
AGGREGATION = b"Aggregation query used without partition key"

# Warnings of one response each.
LISTS = [
    [], [b""], [b"slow"], [AGGREGATION], [AGGREGATION, b"Read 5000 live rows and 1001 tombstone cells"], [b"w"] * 300, [b"", b"behind"],
    [b"\x1b[31mred\x1b[0m"], [b'a "quoted" \\ word'], [b"two\r\nlines\tand \x00"], ["\u202eleft \u2028 \u0085 é".encode()], [b"\xff"], [b"good \xe2\x82"],
    [b"=1+1"], [b"x" * 300], *([b"m" * length] for length in range(234, 256)), *(["é".encode() * length] for length in range(117, 128)), [b"y" * 65_535],
    [b"first", b"\x1b[2J\n", "\u202eleft".encode(), b'a "quoted" \\ word, and; another', b"last"], [b"\xff", b"behind", b"\xe2\x82", b""],
    *([b"first", b"m" * length, b"last"] for length in range(215, 250)), *([b"first", "é".encode() * length] for length in range(110, 124)),
    [b"first", b"y" * 65_535, b"last"],
]

# Numbers of warnings, and bytes that are other strings than so many, or none.
FALSE_LISTS = [
    (5, string(b"one") + string(b"two")), (0xFFFF, string(b"one")), (0xFFFF, b""), (0xFFFF, string(b"") * 200), (1, string(b"one") + string(b"two")),
    (0, string(b"one")), (3, b"\xff\xffshort"), (3, string(b"one") + b"\xff\xffshort"), (2, string(b"one") + b"\0"), (2, string(b"one") + b"\0\5four"),
]


# ---- what is sent

def announced(flags, warnings):
    """What lies before the message of a response with these flags."""
    listed = struct.pack(">H", len(warnings)) + b"".join(map(string, warnings))
    return (bytes(range(16)) if flags & TRACED else b"") + (listed if flags & WARNED else b"") + (PAYLOAD if flags & LADEN else b"")


def responses():
    """The opcode, flags and body of each response."""
    for warnings, more in itertools.product(LISTS, (0, TRACED, LADEN, TRACED | LADEN)):
        before = announced(WARNED | more, warnings)
        yield from ((RESULT, WARNED | more, before + VOID), (ERROR, WARNED | more, before + INVALID))
    for warnings in LISTS[:6]:
        yield RESULT, WARNED | PACKED, announced(WARNED, warnings) + VOID
        yield RESULT, TRACED | LADEN, announced(TRACED | LADEN, warnings) + VOID
    for more, warnings in itertools.product((0, TRACED, LADEN), ([b"slow", b"very"], [])):
        body = announced(WARNED | more, warnings) + VOID
        yield from ((RESULT, WARNED | more, body[:length]) for length in range(min(len(body), 60)))
    for (count, strings), end in itertools.product(FALSE_LISTS, (b"", VOID)):
        yield RESULT, WARNED, struct.pack(">H", count) + strings + end
        yield RESULT, WARNED | TRACED, bytes(range(16)) + struct.pack(">H", count) + strings + end


def messages(sent, pieces):
    """Requests and these responses, one after the other, the body of each response in packets of so many bytes, the first of which has the header too."""
    asked = struct.pack(">i", 3) + b"SEL" + b"\0\1\0"
    for number, (opcode, flags, body) in enumerate(sent):
        stream = number % 0x7FFF
        yield False, frame(0x04, 0, stream, QUERY, asked)
        answer = frame(0x84, flags, stream, opcode, body)
        yield True, answer[:9 + pieces]
        yield from ((True, answer[at:at + pieces]) for at in range(9 + pieces, len(answer), pieces))


# ---- what has to be said of it

def strings_in(count, behind):
    """The texts of so many strings, each as far as it is there, with whether it is whole."""
    while count and len(behind) >= 2:
        length = int.from_bytes(behind[:2], "big")
        text = front_of(behind[2:2 + length])
        yield text, len(text.encode()) == length
        count, behind = count - 1, behind[2 + length:]


def warnings_of(flags, body):
    """How many warnings a response has, if that is seen, and their texts, as far as they are in the bytes that are kept."""
    begin = 16 if flags & TRACED else 0
    count, behind = body[begin:begin + 2], body[begin + 2:KEPT]
    if flags & PACKED or not flags & WARNED or len(count) < 2:
        return None, []
    return int.from_bytes(count, "big"), list(strings_in(int.from_bytes(count, "big"), behind))


def found_in(flags, body):
    """The keys of an object that the bytes before a message decide, but for the tracing id."""
    count, strings = warnings_of(flags, body)
    if not strings:
        return {"warnings": count, "warning": None, "warning_is_whole": None}
    (first, is_whole), texts = strings[0], [text for text, _ in strings]
    return {"warnings": count, "warning": first, "warning_is_whole": is_whole, "warning_texts": texts, "warning_texts_are_whole": all(of for _, of in strings)}


def words_of(flags, body):
    """The words of a line for them."""
    count, strings = warnings_of(flags, body)
    texts = "".join(' "' + field(text).replace('"', '\\"') + '"' + ".." * (not is_whole) for text, is_whole in strings)
    return "" if count is None else f" warnings {count}{texts}"


def tail_of(flags, body):
    """The end of a line, from the warnings on."""
    traced = f" tracing {uuid.UUID(bytes=body[:16])}" if flags & TRACED and not flags & PACKED and len(body) >= 16 else ""
    return f"{words_of(flags, body)}{traced} {9 + len(body)}" + (" compressed" if flags & PACKED else "") + " 0.000 ms"


# ---- what is said of it

def written(command, file, *options):
    done = subprocess.run([*command, *options, file], stdout=subprocess.PIPE, stderr=subprocess.DEVNULL)
    lines = done.stdout.decode().removesuffix("\n").split("\n")
    obeyed = re.compile("[\0-\x1f\x7f]") if "--json" in options else re.compile(HIDDEN.pattern.removesuffix(r"|\\"))
    for line in filter(obeyed.search, lines):
        if obeyed.search(line.removesuffix("\r")):
            print(f"a terminal obeys {line!r}")
    return lines


def compare(line, of, record, opcode, flags, body):
    due = found_in(flags, body)
    keys = list(of)
    begin, end = keys.index("warnings"), keys.index("tracing_id")
    if [(key, of[key]) for key in keys[begin:end]] != list(due.items()):
        print(f"{of}\n  is not {due}")
    found = {key: value for key, value in record.items() if key.startswith("warning")}
    if found != {**dict.fromkeys(KEYS, ""), **{key: field(value) for key, value in due.items()}}:
        print(f"{record}\n  is not {due}")
    tail = tail_of(flags, body)
    if not line.endswith(tail) or (" warnings " in line) != (" warnings " in tail):
        print(f"{line}\n  does not end with {tail}")


def made(command, room, pieces):
    file = room / f"warned-{pieces}.pcap"
    sent = [of for of in responses() if len(of[2]) < 1_000 * pieces]
    file.write_bytes(b"".join(of_pcap(in_turn(messages(sent, pieces)))))
    lines = written(command, file)
    objects = [json.loads(text) for text in written(command, file, "--json")]
    records = list(csv.DictReader(written(command, file, "--csv"), strict=True))
    if not len(lines) == len(objects) == len(records) == len(sent):
        print(f"{len(lines)} lines, {len(objects)} objects and {len(records)} records of {len(sent)} exchanges")
    for line, of, record, (opcode, flags, body) in zip(lines, objects, records, sent):
        compare(line, of, record, opcode, flags, body)


def given_up(command, room):
    """So many requests wait that there is no room for the text of a response that comes in pieces."""
    file, text = room / "warned-full.pcap", b"S" * 300
    asked = [(False, frame(0x04, 0, stream, QUERY, struct.pack(">i", len(text)) + text + b"\0\1\0")) for stream in range(4_000)]
    answer = frame(0x84, WARNED, 0, RESULT, announced(WARNED, [b"slow"]) + VOID)
    file.write_bytes(b"".join(of_pcap(in_turn([*asked, (True, answer[:12]), (True, answer[12:])]))))
    line, text = (written(command, file, "--text", "1", *options)[0] for options in ((), ("--json",)))
    of = json.loads(text)
    if (of["warnings"], of["warning"], of["warning_is_whole"]) != (None, None, False):
        print(f"given up: {of}")
    if not re.search(rf" -> RESULT \.\. {len(answer)} 0\.000 ms$", line):
        print(f"given up: {line}")


def main(*words):
    *command, room = words
    for pieces in (50_000, 100, 7, 1):
        made(command, Path(room), pieces)
    given_up(command, Path(room))


if __name__ == "__main__":
    main(*sys.argv[1:])
