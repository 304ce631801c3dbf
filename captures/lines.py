#!/usr/bin/env python3
"""captures/lines.py of NAME <LINES: compares the lines that `cqlp capture` wrote of the capture NAME in captures/data with
those that it has to write. They are made of what said.txt has of the exchanges on its connections, which expected.py writes by a reading of
its own, and of the driver's and the server's own bytes. Of a message that was cut what it says is not compared.

captures/lines.py live NAME COMMAND..: gives the capture to the command through a pipe, its last word (standard input where that is -), packet after
packet, and each only when all lines are there that were due before it.

Both print what is not so."""
import re
import select
import struct
import subprocess
import sys
import time
import uuid
from pathlib import Path

HERE = Path(__file__).resolve().parent
MESSAGE = re.compile(r'(?P<stream>-?\d+) (?P<opcode>[A-Z]\w+) (?P<length>\d+) at (?P<at>\d+)(?P<cut> holed| short)? from (?P<begun>\d+) to (?P<ended>\d+) '
                     r'kept \d+(?: text (?P<text>"(?:[^"\\]|\\.)*")| id (?P<id>\d+)| int (?P<int>\d+))?')
KINDS = {1: "VOID", 2: "ROWS", 3: "SET_KEYSPACE", 4: "PREPARED", 5: "SCHEMA_CHANGE"}
ERRORS = {0x2000: "SyntaxError", 0x2200: "Invalid", 0x2500: "Unprepared"}
# Captures of which said.txt has no exchanges, since they have the same packets as this one.
# And one whose packets are put in order by their times.
SAME = {f"driver{kind}": "driver.pcap" for kind in (".pcapng", "-big-endian.pcap", "-ns.pcap", "-vlan.pcap", "-swapped.pcap")}
# How the connections end: by FIN, and not.
ENDS = {"1": "closed", "2": "closed"}
# How long a line that is due is waited for, in seconds.
PATIENCE = 20


def reports(name):
    """What has to be reported of a capture, in order: of each line its kind, the connection's number, and its messages."""
    said = (HERE / "said.txt").read_text()
    found = re.search(rf"^== exchanges 64 of \d+ {re.escape(SAME.get(name, name))}\n((?:(?!== ).*\n)*)", said, re.M)
    for line in found[1].splitlines():
        number, kind = re.match(r"(\d+)(?::| (\w+))", line).groups()
        if messages := [found.groupdict() for found in MESSAGE.finditer(line)]:
            yield kind or "exchange", number, messages


def ids(name):
    """The ids of statements that the driver sent, each by the number that it has in said.txt."""
    for file in HERE.glob("data/*.requests.bin"):
        rest = file.read_bytes()
        while rest:
            length = struct.unpack_from(">I", rest, 5)[0]
            if rest[4] == 0x0A:
                found = rest[11:11 + struct.unpack_from(">H", rest, 9)[0]]
                total = 0
                for byte in found:
                    total = (total * 31 + byte) & 0xFFFFFFFF
                yield str(total), found.hex()
            rest = rest[9 + length:]


def first_time(name):
    """When the first packet came, in nanoseconds."""
    file = (HERE / "data" / SAME.get(name, name)).read_bytes()
    order = "<" if file[:4] == bytes.fromhex("d4c3b2a1") else ">"
    seconds, microseconds = struct.unpack_from(order + "II", file, 24)
    return seconds * 10**9 + microseconds * 1000


# What is said where the bytes are not there, or not all of them.
ANYTHING = "(?: .*)?"
CONSISTENCIES = ["ANY", "ONE", "TWO", "THREE", "QUORUM", "ALL", "LOCAL_QUORUM", "EACH_QUORUM", "SERIAL", "LOCAL_SERIAL", "LOCAL_ONE"]


class Fields:
    """The fields of a body, from the first on."""

    def __init__(self, body):
        self.body = body

    def take(self, count):
        taken, self.body = self.body[:count], self.body[count:]
        return taken

    def number(self, size=2):
        return int.from_bytes(self.take(size), "big")

    def text(self, size=2):
        return self.take(self.number(size))

    def value(self):
        length = int.from_bytes(self.take(4), "big", signed=True)
        return self.take(max(length, 0))

    def pass_type(self):
        kind = self.number()
        if kind == 0x00:
            self.text()
        elif kind in (0x20, 0x22):
            self.pass_type()
        elif kind == 0x21:
            self.pass_type(), self.pass_type()
        elif kind == 0x30:
            self.text(), self.text()
            for _ in range(self.number()):
                self.text(), self.pass_type()
        elif kind == 0x31:
            for _ in range(self.number()):
                self.pass_type()


def body_of(name, number, is_response, message):
    """The flags and the body of a message, of the bytes that the driver or the server sent. None where the capture does not have their beginning."""
    session = "driver-sll2" if name.startswith("driver-sll2") else "driver"
    file = (HERE / "data" / f"{session}.{int(number) - 1}.{'responses' if is_response else 'requests'}.bin").read_bytes()
    at, length = int(message["at"]), int(message["length"])
    stream, found = struct.unpack_from(">hxI", file, at + 2) if at + 9 <= len(file) else (None, None)
    return (file[at + 1], file[at + 9:at + 9 + length]) if (stream, found) == (int(message["stream"]), length) else None


def pass_payload(fields, flags):
    for _ in range(fields.number() if flags & 0x04 else 0):
        fields.text(), fields.value()


def entries(fields):
    """The statements of a BATCH, each a text or the id of one."""
    fields.number(1)
    for _ in range(fields.number()):
        is_text = fields.number(1) == 0
        yield is_text, fields.text(4 if is_text else 2)
        for _ in range(fields.number()):
            fields.value()


def batch(flags, body, known):
    """Patterns of what follows the opcode of a BATCH: its consistency, how many statements it has, and the first of them."""
    fields = Fields(body)
    pass_payload(fields, flags)
    found = list(entries(fields))
    yield re.escape(f" {CONSISTENCIES[fields.number()]} {len(found)}")
    for is_text, first in found[:1]:
        yield re.escape(f' "{first.decode()}"') if is_text else prepared(first.hex(), known)


def asked(flags, body, message):
    """What comes before the statement of a request, and after it: its consistency, how many rows a page is to have, and whether it is one after the first."""
    fields = Fields(body)
    pass_payload(fields, flags)
    if message["opcode"] not in ("Query", "Execute"):
        return "", ""
    fields.text(4 if message["opcode"] == "Query" else 2)
    consistency, parts = CONSISTENCIES[fields.number()], fields.number(1)
    for _ in range(fields.number() if parts & 0x01 else 0):
        if parts & 0x40:
            fields.text()
        fields.value()
    return f" {consistency}", (f" page {fields.number(4)}" if parts & 0x04 else "") + (" next" if parts & 0x08 else "")


def said_by(fields, message):
    """Rows and columns and whether more pages follow, or the message of an ERROR."""
    if message["opcode"] == "Error":
        fields.number(4)
        return f' "{fields.text().decode()}"'
    if message["opcode"] != "Result" or fields.number(4) != 2:
        return ""
    flags, columns = fields.number(4), fields.number(4)
    if flags & 0x02:
        fields.value()
    if flags & 0x05 == 0x01:
        fields.text(), fields.text()
    for _ in range(0 if flags & 0x04 else columns):
        if not flags & 0x01:
            fields.text(), fields.text()
        fields.text(), fields.pass_type()
    return f" {fields.number(4)}x{columns}" + (" more" if flags & 0x02 else "")


def answered(flags, body, message):
    """What follows the kind of a response."""
    fields = Fields(body)
    tracing = f" tracing {uuid.UUID(bytes=fields.take(16))}" if flags & 0x02 else ""
    warnings = [fields.text().decode() for _ in range(fields.number())] if flags & 0x08 else None
    pass_payload(fields, flags)
    warned = "" if warnings is None else f" warnings {len(warnings)}" + "".join(f' "{text}"' for text in warnings)
    return said_by(fields, message) + warned + tracing


def bytes_of(message):
    return f" {9 + int(message['length'])}{' cut' if message['cut'] else ''}"


def prepared(statement, known):
    """A pattern of the id of a statement, or of a text that was prepared."""
    return " (?:" + "|".join(map(re.escape, [statement, *known["prepared"]])) + ")"


def request(message, known, name, number):
    """A pattern of a request. An EXECUTE, and a BATCH whose first statement was prepared, has the text that was prepared, where that was seen, or its id."""
    statement = re.escape(f" {message['text']}" if message["text"] else "")
    if message["id"]:
        statement = prepared(known[message["id"]], known)
    found, said = body_of(name, number, False, message), ANYTHING
    if found is not None and not message["cut"] and message["opcode"] == "Batch":
        said = "".join(batch(*found, known))
    elif found is not None and not message["cut"]:
        before, behind = map(re.escape, asked(*found, message))
        said = before + statement + behind
    return message["opcode"].upper() + said + re.escape(bytes_of(message))


def response(message, name, number):
    body, what = body_of(name, number, True, message), message["opcode"].upper()
    if what == "RESULT" and message["int"]:
        what = KINDS[int(message["int"])]
    elif what == "ERROR":
        what = f"ERROR {ERRORS[int(message['int'])]}"
    said = ANYTHING if body is None or message["cut"] else re.escape(answered(*body, message))
    return re.escape(what) + said + re.escape(bytes_of(message))


def patterns(name):
    """A pattern of each line, and when the line is due, in nanoseconds, if its messages say that."""
    first, known = first_time(name), dict(ids(name), prepared=[])
    for kind, number, messages in reports(name):
        begun, ended = int(messages[0]["begun"]), int(messages[-1]["ended"])
        start = re.escape(f"{(begun - first) // 10**9}.{(begun - first) % 10**9 // 1000:06} {number}:{messages[0]['stream']} ")
        if kind == "exchange":
            known["prepared"] += [messages[0]["text"]] if messages[0]["opcode"] == "Prepare" and messages[0]["text"] else []
            took = f"{(ended - begun) // 10**6}.{(ended - begun) % 10**6 // 1000:03}" if messages[1]["cut"] != " short" else "-"
            yield start + request(messages[0], known, name, number) + " -> " + response(messages[1], name, number) + re.escape(f" {took} ms"), max(ended, int(messages[0]["ended"]))
        elif kind == "unanswered":
            yield start + request(messages[0], known, name, number) + " -> nothing" + re.escape(f" ({ENDS[number]})"), None
        elif kind == "unasked":
            yield start + "nothing -> " + response(messages[0], name, number), None
        elif kind == "event":
            yield start + response(messages[0], name, number), ended


def compare(name, lines):
    wanted = [pattern for pattern, _ in patterns(name)]
    for line, pattern in zip(lines, wanted):
        if not re.fullmatch(pattern, line):
            print(f"{line}\n  is not {pattern}")
    if len(lines) != len(wanted):
        print(f"{len(lines)} lines, and {len(wanted)} are due")


def records(file):
    """The packets of a pcap file, each with its time in nanoseconds."""
    place = 24
    while place < len(file):
        seconds, microseconds, length = struct.unpack_from("<III", file, place)
        yield seconds * 10**9 + microseconds * 1000, file[place:place + 16 + length]
        place += 16 + length


def live(name, command):
    file = (HERE / "data" / name).read_bytes()
    due = [when for _, when in patterns(name)]
    program = subprocess.Popen(command, stdin=subprocess.PIPE, stdout=subprocess.PIPE, stderr=subprocess.DEVNULL, bufsize=0)
    pipe = program.stdin if command[-1] == "-" else open(command[-1], "wb", buffering=0)
    pipe.write(file[:24])
    written, latest = b"", 0
    for when, packet in records(file):
        pipe.write(packet)
        wanted, end = len([other for other in due if other <= when]), time.monotonic() + PATIENCE
        while written.count(b"\n") < wanted and select.select([program.stdout], [], [], max(end - time.monotonic(), 0))[0]:
            written += program.stdout.read(65536)
        if written.count(b"\n") != wanted:
            print(f"{written.count(bytes([10]))} lines after the packet at {when}, and {wanted} are due")
            break
        latest = max(latest, wanted)
    pipe.close()
    compare(name, (written + program.stdout.read()).decode().splitlines())
    if program.wait() != 0:
        print(f"status {program.returncode}")


if __name__ == "__main__":
    if sys.argv[1] == "live":
        live(sys.argv[2], sys.argv[3:])
    else:
        compare(sys.argv[2], sys.stdin.read().splitlines())
