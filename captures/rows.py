#!/usr/bin/env python3
"""rows.py SEED COUNT PROGRAM: captures of several connections that prepare the same statements, whose pages have the types that this script says.

Each message is cut into segments, those of all connections come in any order, and what a page has is decided by what came before the last byte of its
header. Connection 1 is read."""
import collections
import random
import struct
import subprocess
import sys

from made import ACK, bare_page, execute, frame, of_pcap, page, record, segment

KINDS = {"int": b"\0\x09", "text": b"\0\x0d", "blob": b"\0\x03", "ascii": b"\0\x01", "inet": b"\0\x10"}
MOST = 256


def shown(kind, content):
    if kind == "int":
        return str(struct.unpack(">i", content)[0])
    if kind in ("text", "ascii"):
        return f'"{content.decode()}"'
    if kind == "inet":
        return ".".join(map(str, content))
    return "0x" + content.hex()


class Latest(collections.OrderedDict):
    """The types of at most so many statements, the one last that was prepared or used last."""

    def put(self, name, kinds):
        self[name] = kinds
        self.move_to_end(name)
        if len(self) > MOST:
            self.popitem(last=False)

    def use(self, name):
        if name in self:
            self.move_to_end(name)


class Truth:
    def __init__(self):
        self.own, self.others, self.asked, self.text = Latest(), Latest(), {}, []

    def executes(self, stream, name):
        self.own.use(name)
        self.asked[stream] = name

    def begins(self, stream, offset, row):
        name = self.asked.pop(stream, None)
        self.others.use(name)
        kinds = self.own.get(name) or self.others.get(name) or ()
        if len(kinds) != len(row):
            kinds = ["blob"] * len(row)
        cells = " | ".join(map(shown, kinds, row))
        self.text.append(f"1:{stream} {offset}\npage {len(row)} columns 1 rows\n{cells}\n")


class Flow:
    """One direction of a connection: its messages, what each byte of them says, and the pieces that they come in."""

    def __init__(self, port, is_response):
        self.port, self.is_response, self.bytes, self.said, self.sent, self.lost = port, is_response, b"", {}, 0, set()

    def add(self, message, says=()):
        for at, what in says:
            self.said[len(self.bytes) + at] = what
        self.bytes += message

    def pieces(self, chance, most):
        at = 0
        while at < len(self.bytes):
            end = min(at + chance.randint(1, most), len(self.bytes))
            for lost in self.lost:
                if at < lost[0] < end:
                    end = lost[0]
                elif at == lost[0]:
                    end = lost[1]
            yield at, end
            at = end

    def packets(self, at, end, truth):
        if (at, end) in self.lost:
            return
        yield record(segment(1, self.port, 1 + at, self.bytes[at:end], self.is_response))
        if any(at == lost[1] for lost in self.lost):
            yield record(segment(1, self.port, 1, b"", not self.is_response, 1 + end, ACK))
        for offset in range(at, end):
            if offset in self.said:
                self.said[offset]()


def string(text):
    return struct.pack(">H", len(text)) + text


def prepared(chance, name, kinds, flags=0):
    before = b""
    if flags & 2:
        before += bytes(chance.randrange(256) for _ in range(16))
    if flags & 8:
        before += struct.pack(">H", 2) + string(b"beware") + string(b"!" * chance.randrange(300))
    if flags & 4:
        before += struct.pack(">H", 1) + string(b"key") + struct.pack(">i", 3) + b"abc"
    bound = struct.pack(">iii", 1, 1, 0) + string(b"k" * chance.choice((2, 200))) + string(b"t") + string(b"v") + KINDS["int"]
    columns = struct.pack(">ii", 1, len(kinds)) + string(b"ks") + string(b"t") + b"".join(string(b"c%d" % i) + KINDS[kind] for i, kind in enumerate(kinds))
    return frame(0x84, flags, 99, 0x08, before + struct.pack(">i", 4) + string(name) + bound + columns)


class Case:
    def __init__(self, chance):
        self.stream, self.chance, self.truth, self.long = 0, chance, Truth(), 1 if chance.random() < 0.2 else 0
        self.names = [struct.pack(">H", i) * chance.choice((1, 8, 32)) for i in range(chance.choice((2, 5, 400)))] + [b"n" * 65]
        self.own = Flow(10_001, False), Flow(10_001, True)
        self.others = [Flow(10_002 + i, True) for i in range(chance.randint(1, 6))]
        for _ in range(chance.choice((100, 3_000)) if len(self.names) > 100 else chance.choice((5, 30, 100))):
            chance.choices((self.asks, self.answers, self.prepares, self.overhears, self.passes), (8, 8, self.chance.choice((1, 4)), 8, 2))[0]()

    def kinds(self):
        return self.chance.choices(list(KINDS), k=self.chance.choice((2, 2, 2, 3)))

    def asks(self):
        self.stream += 1
        stream, name = self.stream % 900, self.chance.choice(self.names)
        message = execute(stream, name)
        says = [(8, lambda: self.truth.asked.pop(stream, None))]
        if len(name) <= 64:
            says.append((10 + len(name), lambda: self.truth.executes(stream, name)))
        self.own[0].add(message, says)

    def answers(self):
        stream, row, offset = (self.stream - self.chance.randrange(3)) % 900, self.chance.choices((b"abcd", b"wxyz"), k=2), len(self.own[1].bytes)
        self.own[1].add(bare_page(stream, *row), [(8, lambda: self.truth.begins(stream, offset, row))])

    def prepares(self):
        name, kinds = self.chance.choice(self.names), self.kinds()
        message = prepared(self.chance, name, kinds)
        stream = struct.unpack(">h", message[2:4])[0]
        says = [(8, lambda: self.truth.asked.pop(stream, None))]
        if len(name) <= 64:
            says.append((len(message) - 1, lambda: self.truth.own.put(name, kinds)))
        self.own[1].add(message, says)

    def overhears(self):
        flow, name, kinds = self.chance.choice(self.others), self.chance.choice(self.names), self.kinds()
        fate = self.chance.choices(("comes", "is lost", "is compressed", "is refused", "is long"), (50, 10, 10, 10, self.long))[0]
        message = prepared(self.chance, name, kinds, self.chance.choice((0, 0, 2, 4, 8, 14)))
        says = [(len(message) - 1, lambda: self.truth.others.put(name, kinds))] if fate == "comes" and len(name) <= 64 else []
        if fate == "is compressed":
            message = message[:1] + bytes([message[1] | 1]) + message[2:]
        elif fate == "is refused":
            message = message[:-2] + b"\xff\xff"
        elif fate == "is long":
            message = message[:5] + struct.pack(">I", 65_537) + message[9:] + bytes(65_546 - len(message))
        elif fate == "is lost":
            at = len(flow.bytes)
            begin = self.chance.randrange(10, len(message) - 1)
            flow.lost.add((at + begin, at + self.chance.randrange(begin + 1, len(message))))
        flow.add(message, says)

    def passes(self):
        flow, bare = self.chance.choice(self.others), struct.pack(">ii", 4, 2)
        described = struct.pack(">ii", 1, 2) + b"\0\2ks\0\1t" + b"\0\1a\0\x09" + b"\0\1b\0\x0d"
        flow.add(self.chance.choice((
            frame(0x84, 0, 0, 0x08, b"\0\0\0\1"), frame(0x84, 0, 0, 0x08, b""), frame(0x84, 0, 1, 0x00, b"\0\0\x25\0" + string(b"?")),
            page(1, described, [(b"abcd", b"x")] * self.chance.randrange(40)), page(2, bare, [(b"abcd", b"x")]))))

    def packets(self):
        flows = [*self.own, *self.others]
        self.eager = self.chance.choice((0, 0.9))
        most = self.chance.choice((3, 40, 2_000) if not self.long else (2_000,))
        left = [list(flow.pieces(self.chance, most))[::-1] for flow in flows]
        whole = list(map(len, left))
        yield record(segment(1, 10_001, 0, b"", flags=2))
        for flow in self.others:
            yield record(segment(1, flow.port, 0, b"", flags=2))
            yield record(segment(1, flow.port, 0, b"", True, 1, 2 | ACK))
        yield record(segment(1, 10_001, 0, b"", True, 1, 2 | ACK))
        while any(left):
            at = self.chance.choice([i for i, pieces in enumerate(left) if pieces])
            if at == 1 and left[0] and len(left[0]) * whole[1] > len(left[1]) * whole[0] and self.chance.random() < self.eager:
                at = 0
            for _ in range(self.chance.choice((1, 5))):
                if left[at]:
                    yield from flows[at].packets(*left[at].pop(), self.truth)


def main(seed, count, program):
    for number in range(int(seed), int(seed) + int(count)):
        case = Case(random.Random(number))
        capture = b"".join(of_pcap(case.packets()))
        found = subprocess.run([program, "capture", "--rows", "--connection", "1", "-"], input=capture, stdout=subprocess.PIPE, stderr=subprocess.PIPE)
        if (found.returncode, found.stdout.decode()) != (0, "".join(case.truth.text)):
            print(f"other rows with {number}: {found.stderr.decode()}")


if __name__ == "__main__":
    main(*sys.argv[1:])
