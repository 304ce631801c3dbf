#!/usr/bin/env python3
"""captures/errors.py COMMAND.. ROOM: prints what is wrong with what `cqlp capture` writes of ERRORs, and of pages after the first.

It makes captures of requests and their responses in ROOM: each ERROR that has contents (section 9 of native_protocol_v4.spec), its message so long that
the 256 bytes that are kept end at each place of the contents, or its body cut there; and QUERYs, EXECUTEs and pages with each of the flags that matter.
What a line and an object (--json) have to say of them is read from the bytes again, field by field."""
import itertools
import json
import re
import struct
import subprocess
import sys
from pathlib import Path

from made import frame, in_turn, of_pcap

KEPT = 256
LEVELS = ["ANY", "ONE", "TWO", "THREE", "QUORUM", "ALL", "LOCAL_QUORUM", "EACH_QUORUM", "SERIAL", "LOCAL_SERIAL", "LOCAL_ONE"]
ANSWERS = "consistency received required"
# The name of each error, and the keys of its contents.
ERRORS = {
    0x0000: ("ServerError", None), 0x1001: ("Overloaded", None), 0x2000: ("SyntaxError", None), 0x2200: ("Invalid", None),
    0x1000: ("Unavailable", "consistency required alive"),
    0x1100: ("WriteTimeout", f"{ANSWERS} write_type"), 0x1200: ("ReadTimeout", f"{ANSWERS} data_present"),
    0x1300: ("ReadFailure", f"{ANSWERS} failures data_present"), 0x1500: ("WriteFailure", f"{ANSWERS} failures write_type"),
    0x1400: ("FunctionFailure", "keyspace function"), 0x2400: ("AlreadyExists", "keyspace table"), 0x2500: ("Unprepared", "id"),
}
SHORT, BYTE, INT = "consistency", "data_present", ("required", "alive", "received", "failures")


def string(text):
    return struct.pack(">H", len(text)) + text


# ---- what is sent

def contents():
    """The codes of errors, each with contents that it may have."""
    nodes, negative = struct.pack(">Hii", 4, 1, 2), struct.pack(">Hii", 0x0A, -1, -(1 << 31))
    yield from ((0x1000, nodes), (0x1000, negative), (0x1000, struct.pack(">Hii", 0x63, 3, 1)))
    for code, more in ((0x1100, b""), (0x1500, struct.pack(">i", 1))):
        for kind in (b"BATCH_LOG", b"", b"a\"\\\x1b\n", "é".encode(), b"\xff\xfe"):
            yield code, nodes + more + string(kind)
    for flag in (b"\0", b"\1", b"\x80"):
        yield from ((0x1200, nodes + flag), (0x1300, nodes + struct.pack(">i", -7) + flag), (0x1300, negative + bytes(4) + flag))
    for names in ((b"ks", b"f"), (b"", b""), (b"\xff", b"behind"), (b"k\xe2\x80\xae", b"t\x07")):
        yield from ((0x1400, b"".join(map(string, names)) + b"\0\1" + string(b"int")), (0x2400, b"".join(map(string, names))))
    yield from ((0x2500, string(bytes(range(16)))), (0x2500, string(b"")))
    yield from ((code, b"\0\1\0\0\0\1\0\0\0\2") for code in (0x0000, 0x1001, 0x2000, 0x2200, 0x7777))


def errors():
    """ERRORs: all of it there, with a warning before it, the 256 bytes ending within the contents, and the body ending there."""
    for code, behind in contents():
        start = struct.pack(">I", code) + string(b"it failed")
        yield 0, start + behind
        yield 0x08, struct.pack(">H", 1) + string(b"slow") + start + behind
        yield 0x01, start + behind
        for length in range(len(behind)):
            yield 0, start + behind[:length]
            yield 0, struct.pack(">I", code) + string(b"m" * (KEPT - 6 - length)) + behind
        yield 0, struct.pack(">I", code) + string(b"m" * 251) + behind
        yield 0, struct.pack(">IH", code, 0xFFFF) + behind


def requests():
    """The opcodes and bodies of requests that ask for pages, or do not."""
    yield 0x0D, b"\0\0\1\0" + struct.pack(">i", 3) + b"DEL" + b"\0\0" + b"\0\1\x08"
    begun = (0x07, struct.pack(">i", 3) + b"SEL"), (0x0A, string(b"\xab"))
    for (opcode, before), values, size, state in itertools.product(begun, (0, 2), (None, 100, -5), (None, b"s")):
        flags = (values and 0x01) | (0x04 if size is not None else 0) | (0x08 if state else 0)
        body = before + struct.pack(">HB", 1, flags)
        body += (struct.pack(">H", values) + struct.pack(">i", 1) + b"v" + struct.pack(">i", -1) if values else b"")
        body += (b"" if size is None else struct.pack(">i", size)) + (struct.pack(">i", 1) + state if state else b"")
        yield opcode, body
    yield 0x07, struct.pack(">i", 3) + b"SEL" + b"\0\1"


def pages():
    """RESULTs: pages with and without more of them, cut after their flags, and other kinds."""
    column = string(b"ks") + string(b"t") + string(b"k") + b"\0\x09"
    for more, bare in itertools.product((False, True), repeat=2):
        state = struct.pack(">i", 2) + b"st" if more else b""
        head = struct.pack(">II", 2, (0x02 if more else 0) | (0x04 if bare else 0x01)) + struct.pack(">i", 1) + state
        body = head + (b"" if bare else column) + struct.pack(">i", 1) + struct.pack(">i", 4) + bytes(4)
        yield from ((0, body), (0, body[:10]), (0, body[:7]), (0x01, body), (0, body[:-8] + struct.pack(">i", -1)))
    yield 0, struct.pack(">I", 1)


def exchanges():
    """The bytes of requests, each with those of its response."""
    ask = 0x07, struct.pack(">i", 3) + b"SEL" + b"\0\1\0"
    yield from ((ask, (0x00, flags, body)) for flags, body in errors())
    yield from ((request, (0x08, 0, struct.pack(">I", 1))) for request in requests())
    yield from ((ask, (0x08, flags, body)) for flags, body in pages())


# ---- what has to be said of it

class Ends(Exception):
    """There are no more bytes."""


class Fields:
    """The fields of a message, from the first on."""

    def __init__(self, body):
        self.body = body

    def take(self, count):
        taken, self.body = self.body[:count], self.body[count:]
        if len(taken) < count:
            raise Ends
        return taken

    def number(self, form):
        return struct.unpack(form, self.take(struct.calcsize(form)))[0]

    def text(self):
        found = self.take(self.number(">H"))
        try:
            return found.decode()
        except UnicodeDecodeError:
            return None

    def of(self, key):
        if key == SHORT:
            level = self.number(">H")
            return LEVELS[level] if level < len(LEVELS) else level
        if key == BYTE:
            return self.number("B") > 0
        if key in INT:
            return self.number(">i")
        return self.take(self.number(">H")).hex() if key == "id" else self.text()


def front_of(text):
    """The longest front of it that is UTF-8."""
    try:
        return text.decode()
    except UnicodeDecodeError as error:
        return text[:error.start].decode()


def details_of(keys, fields):
    found = dict.fromkeys(keys.split())
    try:
        for key in found:
            found[key] = fields.of(key)
    except Ends:
        pass
    return found


def error_of(flags, body):
    """The keys of an object that an ERROR decides, and the words of a line."""
    if flags & 0x01:
        return {"error": None, "message": None, "message_is_whole": None}, "ERROR"
    fields = Fields(body)
    if flags & 0x08:
        fields.number(">H"), fields.text()
    fields.body = fields.body[:KEPT]
    code, length = fields.number(">I"), fields.number(">H")
    text, (name, keys) = front_of(fields.body[:length]), ERRORS.get(code, (code, None))
    found = {"error": name, "message": text, "message_is_whole": len(text.encode()) == length}
    fields.body = fields.body[length:]
    if keys:
        found["details"] = details_of(keys, fields)
    shown = name if isinstance(name, str) else f"0x{name:08x}"
    return found, f"ERROR {shown} MESSAGE" + nodes_of(found.get("details", {}))


def nodes_of(details):
    """How many nodes a line says answered, and failed, where all of that is known."""
    level = details.get("consistency")
    level = f"0x{level:04x}" if isinstance(level, int) else level
    words = {"alive": " {level} alive {alive} of {required}", "failures": " {level} received {received} of {required} failed {failures}",
             "received": " {level} received {received} of {required}"}
    form = next((words[key] for key in words if key in details), "")
    needed = [key for key in ("consistency", "alive", "received", "required", "failures") if key in details]
    return form.format(**{**details, "level": level}) if all(details[key] is not None for key in needed) else ""


def request_of(opcode, body):
    """The keys that the parameters of a request decide, and the words of a line."""
    found = dict.fromkeys(("page_size", "has_paging_state"))
    fields = Fields(body)
    try:
        if opcode != 0x0D:
            fields.take(fields.number(">i" if opcode == 0x07 else ">H"))
            fields.number(">H")
            flags = fields.number("B")
            found["has_paging_state"] = flags & 0x08 > 0
            for _ in range(fields.number(">H") if flags & 0x01 else 0):
                fields.take(max(fields.number(">i"), 0))
            if flags & 0x04:
                found["page_size"] = fields.number(">i")
    except Ends:
        pass
    return found, ("" if found["page_size"] is None else f" page {found['page_size']}") + (" next" if found["has_paging_state"] else "")


def page_of(flags, body):
    found = dict.fromkeys(("rows", "columns", "has_more_pages"))
    fields = Fields(body)
    try:
        if not flags & 0x01 and fields.number(">I") == 2:
            parts = fields.number(">I")
            found["has_more_pages"] = parts & 0x02 > 0
            found["columns"] = fields.number(">i")
            if parts & 0x02:
                fields.take(fields.number(">i"))
            if not parts & 0x04:
                fields.text(), fields.text(), fields.text(), fields.number(">H")
            rows = fields.number(">i")
            found["rows"] = rows if rows >= 0 else None
    except Ends:
        pass
    kind = "RESULT" if flags & 0x01 else {1: "VOID", 2: "ROWS"}[struct.unpack_from(">I", body)[0]]
    return found, kind + ("" if found["rows"] is None else f" {found['rows']}x{found['columns']}") + (" more" if found["has_more_pages"] else "")


def reply_of(opcode, flags, body):
    found, words = (error_of if opcode == 0x00 else page_of)(flags, body)
    warned = ' warnings 1 "slow"' if flags & 0x08 else ""
    return found, f"{words}{warned} {9 + len(body)}" + (" compressed" if flags & 0x01 else "")


# ---- what is said of it

def follows(of, key, other):
    """Whether the key comes right after the other in an object."""
    keys = list(of)
    return key in of and keys[keys.index(key) - 1] == other


def without_message(line):
    """A line with one word in place of an ERROR's message."""
    return re.sub(r'(ERROR \S+) "(?:[^"\\]|\\.)*"(?:\.\.)?', r"\1 MESSAGE", line)


def compare(line, of, asked, answer):
    due, before = request_of(*asked)
    due_reply, behind = reply_of(*answer)
    due.update(due_reply)
    said, reply = without_message(line).split(" -> ")
    found = {key: of.get(key) for key in due}
    if found != due or ("details" in of) != ("details" in due) or list(of.get("details", ())) != list(due.get("details", ())):
        print(f"{found}\n  is not {due}")
    if not said.endswith(f"{before} {9 + len(asked[1])}") or (" next " in said) != (" next" in before) or (" page " in said) != (" page" in before):
        print(f"{line}\n  has not {before}")
    if reply != f"{behind} 0.000 ms":
        print(f"{line}\n  is not {behind}")
    if not follows(of, "has_paging_state", "page_size") or not follows(of, "has_more_pages", "columns"):
        print(f"keys in another order: {list(of)}")
    if "details" in of and not follows(of, "details", "message_is_whole"):
        print(f"keys in another order: {list(of)}")


def written(command, file, *options):
    return subprocess.run([*command, *options, file], stdout=subprocess.PIPE, stderr=subprocess.DEVNULL, text=True).stdout.splitlines()


def main(*words):
    *command, room = words
    sent, file = list(exchanges()), Path(room) / "errors.pcap"
    messages = []
    for number, ((opcode, asked), (answer, flags, body)) in enumerate(sent):
        stream = number % 0x7FFF
        messages += [(False, frame(0x04, 0, stream, opcode, asked)), (True, frame(0x84, flags, stream, answer, body))]
    file.write_bytes(b"".join(of_pcap(in_turn(messages))))
    lines, objects = written(command, file), [json.loads(text) for text in written(command, file, "--json")]
    if not len(lines) == len(objects) == len(sent):
        print(f"{len(lines)} lines and {len(objects)} objects of {len(sent)} exchanges")
    for line, of, (asked, answer) in zip(lines, objects, sent):
        compare(line, of, asked, answer)


if __name__ == "__main__":
    main(*sys.argv[1:])
