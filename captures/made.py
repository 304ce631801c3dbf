#!/usr/bin/env python3
"""captures/made.py KIND [COUNT]: writes a capture to standard output that asks for as much memory as a capture can.

connections  one segment with a byte for each of COUNT connections, 100,000 where it is not said
lost         256 connections, of both of whose directions each second segment is lost, until no window has room for more
requests     1,024 connections, of each of which 100 requests wait with all that is kept of them, and of both directions as much as there is room for
             comes too early
contents     256 connections, of each of which both directions have a text that is not all there, the responses types of columns too, and then as much as there is
             room for comes too early
packets      packets as long as a record may have, and IP and TCP headers whose lengths are the greatest
headers      a request over IPv6, before whose segments headers come: of fragments that are whole packets, authentication, options; and two of fragments
             that are not
addresses    a request from each of 293 addresses of IPv6: with zeros at all places, of one to four digits, and of hosts of IPv4
record       a record whose length is the greatest that its field can say
batches      BATCHes and what answers them: of no statement, of a text and an id, of a statement that was prepared, of a long text, of a kind of statement
             that there is none of, and one that is compressed
prepared     one connection, on which statements are prepared and executed, and pages come that describe no columns
elsewhere    three connections: on one statements are executed, and pages come that describe no columns, and most were prepared on the others
too-often    one connection, on which statements are executed, of which more were prepared on others than are known, or come at one time
statements   one connection, on which 300 statements are prepared, each with as many columns as are known, and executed
flight       one connection, on which 100 requests are sent before the first of their 100 responses
parted       one connection with an exchange under stream id 0 and one under id COUNT, whose request is in the file before the response to the first, which
             passed earlier
versions     three connections: one begins in version 5 on both sides, one is in version 3 from the middle, and one is from the middle of a body
tls          one connection, which begins with TLS on both sides
pages        one connection, whose responses are five pages in pieces: of the third a cell has no lawful length, within the fourth three bytes are
             lost, and within the fifth the capture ends
wraps        one connection, of which each request and its response is in another wrap: raw, tags, labels of MPLS, sessions of PPPoE, IP in IP,
             GRE, VXLAN, and four tunnels; and of one request in five
passed       a pcapng file with two connections: of one the packets are in packet blocks, and of the other there are an interface of an odd
             resolution, a packet too long, one beyond its block, one of no interface and a block too short
crowd        COUNT connections, 65,536 where it is not said, on each of which four requests are open, a request and a response lack their last byte, and some
             bytes come too early in both directions; and then packets as long as may be, all at one time
laden        256 statements that are answered, and then as crowd, but for the early bytes: as many whole packets of them as there is room for
deep         eight connections, on each of which 32,768 requests are open, and 1,000 others, of each of which a direction has as many bytes that came too
             early as there is room for
scattered    32 connections, of both of whose directions only each second byte comes, in packets of a byte
block        a pcapng file with as many interfaces as there may be, options and a packet of 262,144 bytes, and a block of 4 GiB that never comes

captures/made.py ends FILE COMMAND..: runs it with --json over the capture of addresses, and prints each object that names another client or node,
             and each client by whose address, as others write it, other objects are found

captures/made.py long FILE [MB]: writes a capture of so many MB of zeros, of which the file system keeps next to nothing, 130 where it is not said.

captures/made.py slower FILE TIMES: writes the capture FILE with packets that come so many times as long after the first.

captures/made.py most COMMAND..: runs it, and prints its status and how many KiB of memory it had at most.

captures/made.py terminal COMMAND..: runs it with a terminal as its standard error, and prints its status and what it wrote there.

captures/made.py interrupted CAPTURE COMMAND..: on a terminal, writes the capture into a pipe that the command reads and that stays open, types ^C until it ends, and prints
what is written on the terminal."""
import ipaddress
import json
import os
import pty
import resource
import select
import signal
import struct
import subprocess
import sys
import time

NODE, PORT = 0x0A000001, 9042
SYN, ACK = 0x02, 0x10


def segment(client, port, number, payload, is_response=False, seen=0, flags=0):
    """A packet of IPv4 with a segment of TCP, which acknowledges what was seen if its flags say so."""
    ends = (NODE, client) if is_response else (client, NODE)
    ports = (PORT, port) if is_response else (port, PORT)
    length = min(40 + len(payload), 65_535)
    ip = struct.pack(">BBHHHBBHII", 0x45, 0, length, 0, 0x4000, 64, 6, 0, *ends)
    return ip + struct.pack(">HHIIBBHHH", *ports, number % (1 << 32), seen, 0x50, flags, 65_535, 0, 0) + payload


def record(packet, captured=None, original=None, microseconds=0):
    captured = len(packet) if captured is None else captured
    return struct.pack("<IIII", 0, microseconds, captured, captured if original is None else original) + packet


def connections(count=100_000):
    for i in range(count):
        yield record(segment(0x0A010000 + i // 30_000, 10_000 + i % 30_000, 0, b"%c" % (i % 256)))


def lost():
    for number in range(0, 80_000, 2_896):
        for i in range(256):
            for is_response in (False, True):
                yield record(segment(0x0A010000 + i, 10_000 + i, number, bytes(1_448), is_response))


def query(stream):
    body = struct.pack(">I", 300) + b"?" * 300 + struct.pack(">HB", 1, 0)
    return frame(0x04, 0, stream, 0x07, body)


def requests():
    sent = b"".join(map(query, range(100)))
    for i in range(1_024):
        client, port = 0x0A010000 + i, 10_000 + i
        yield record(segment(client, port, 0, sent))
        yield record(segment(client, port, 0, b"\x84", True))
        for number in range(0, 4_096, 1_024):
            yield record(segment(client, port, len(sent) + 1 + number, bytes(1_024)))
            yield record(segment(client, port, 2 + number, bytes(1_024), True))


def at_end():
    """Packets without IP, of which as many bytes as may be wait for earlier ones: 1,000, then the longest."""
    for length in [8_192] * 1_000 + [262_144] * 40 + [1_048_576] * 9:
        yield record(bytes(length))


def crowd(count=65_536, early=64, holders=65_536):
    types = b"\0\0\0\2\0\0\0\1\0\0\0\1" + b"\0\1k\0\1t\0\1c" + b"\0\x31\0\x96" + b"\0\x09" * 150
    asked, answered = b"".join(map(query, range(5)))[:-1], frame(0x84, 0, 9, 0x08, types)[:-1]
    for i in range(count):
        client, port = 0x0A010000 + i // 30_000, 10_000 + i % 30_000
        for is_response, sent in enumerate((asked, answered)):
            yield record(segment(client, port, 0, sent, is_response))
            if i < holders:
                yield record(segment(client, port, len(sent) + 1, bytes(early), is_response))
    yield from at_end()


def laden():
    for i in range(256):
        text = b"SELECT %c%c" % (97 + i // 16, 97 + i % 16)
        asked = frame(0x04, 0, 0, 0x07, struct.pack(">I", len(text)) + text + b"\0\1\0")
        answered = frame(0x84, 0, 0, 0x08, b"\0\0\0\1")
        yield record(segment(1, 10_000, i * len(asked), asked))
        yield record(segment(1, 10_000, i * len(answered), answered, True))
    yield from crowd(65_535, 1_448, 7_905)


def deep():
    for i in range(8):
        number = 0
        for stream in range(0, 32_768, 128):
            sent = b"".join(map(query, range(stream, stream + 128)))
            yield record(segment(0x0A010000 + i, 10_000, number, sent))
            number += len(sent)
    for i in range(1_000):
        for number in range(1, 1 << 17, 1_449):
            yield record(segment(0x0A020000 + i, 10_000, number, bytes(1_448), i % 2))
            if number == 1:
                yield record(segment(0x0A020000 + i, 10_000, 0, b"\4", i % 2))
    yield from at_end()


def scattered():
    for number in range(0, 16_384, 2):
        for i in range(32):
            for is_response in (False, True):
                yield record(segment(0x0A010000 + i, 10_000, number, b"\0", is_response))
    yield from at_end()


def pieces(payload, most=32_000):
    return [payload[at:at + most] for at in range(0, len(payload), most)]


def contents():
    types = b"\0\0\0\2\0\0\0\1\0\0\0\1" + b"\0\1k\0\1t\0\1c" + b"\0\x31\3\xe8" + b"\0\x09" * 1_000 + bytes(4)
    asked = frame(0x04, 0, 0, 0x07, struct.pack(">I", 65_530) + b"?" * 65_530 + b"\0\1\0")[:65_500]
    answered = frame(0x84, 0, 0, 0x08, types) + frame(0x84, 0, 1, 0x00, bytes(4) + b"\xff\xf0" + b"!" * 65_520)[:65_500]
    for i in range(256):
        for is_response, sent in enumerate((asked, answered)):
            number, early = 1, [bytes(1_448)] * 24
            yield record(segment(0x0A010000 + i, 10_000 + i, 0, b"", is_response, flags=SYN))
            for piece in [*pieces(sent), b"", *early]:
                yield record(segment(0x0A010000 + i, 10_000 + i, number + (piece in early), piece, is_response))
                number += len(piece)


def cell(content):
    return struct.pack(">i", -1) if content is None else struct.pack(">i", len(content)) + content


def page(stream, metadata, rows):
    """A page of two columns (section 4.2.5.2)."""
    body = struct.pack(">i", 2) + metadata + struct.pack(">i", len(rows)) + b"".join(cell(content) for row in rows for content in row)
    return struct.pack(">BBhBI", 0x84, 0, stream, 0x08, len(body)) + body


def pages():
    described = struct.pack(">ii", 1, 2) + b"\0\2ks\0\1t" + b"\0\2a\x1b\0\x09" + b"\0\1b\0\x0d"
    bare = struct.pack(">ii", 4, 2)
    int_of = struct.Struct(">i").pack
    sent = page(1, described, [(int_of(7), b"x"), (None, b"")]) + page(2, bare, [(int_of(7), b"x")])
    sent += page(3, described, [(int_of(1), b"y"), (b"\0\0\1", b"y")])
    sent += page(4, described, [(int_of(5), b"z"), (int_of(6), b"lost!")])
    lost = len(sent) - 3
    sent += page(5, described, [(int_of(8), b"cut off")])
    yield record(segment(0x0A010000, 10_000, 0, b"", flags=SYN))
    yield record(segment(0x0A010000, 10_000, 0xFFFFFFFF, b"", True, 1, SYN | ACK))
    ends = list(range(0, lost, 7)) + [lost] + list(range(lost + 3, len(sent), 7))
    for begin, end in zip(ends, ends[1:]):
        if begin != lost and end < len(sent) - 4:
            yield record(segment(0x0A010000, 10_000, begin, sent[begin:end], True))
            yield record(segment(0x0A010000, 10_000, 1, b"", False, end, ACK))


def prepared(stream, name, types):
    """A PREPARED that gives a statement this id, and columns a, b.. of these types of the table t of the keyspace ks (section 4.2.5.4)."""
    none_bound = struct.pack(">iii", 1, 0, 0) + b"\0\2ks\0\1t"
    columns = struct.pack(">ii", 1, len(types)) + b"\0\2ks\0\1t" + b"".join(b"\0\1" + b"%c" % (97 + i % 26) + t for i, t in enumerate(types))
    return frame(0x84, 0, stream, 0x08, struct.pack(">i", 4) + struct.pack(">H", len(name)) + name + none_bound + columns)


def prepare(stream):
    return frame(0x04, 0, stream, 0x09, struct.pack(">I", 8) + b"SELECT ?")


def execute(stream, name, flags=0, before=b""):
    """An EXECUTE that wants no metadata: consistency ONE, flag 02 (section 4.1.6)."""
    return frame(0x04, flags, stream, 0x0A, before + struct.pack(">H", len(name)) + name + b"\0\1\2")


def in_turn(packets):
    """Each of these messages, or pieces of one, in a packet of its own."""
    sent = [1, 1]
    for is_response, message in packets:
        yield record(segment(0x0A010000, 10_000, sent[is_response], message, is_response))
        sent[is_response] += len(message)


def bare_page(stream, *row):
    return page(stream, struct.pack(">ii", 4, len(row)), [row])


def statements_in_turn():
    seven, name, other, long_name = b"\0\0\0\7", b"\1\2", b"\xab\xcd", b"n" * 65
    int_and_text, blob_and_boolean = [b"\0\x09", b"\0\x0d"], [b"\0\x03", b"\0\x04"]
    payload = struct.pack(">HH", 1, 1) + b"p" + struct.pack(">i", 80) + b"!" * 80
    unprepared = frame(0x84, 0, 11, 0x00, struct.pack(">i", 0x2500) + b"\0\1?" + struct.pack(">H", len(name)) + name)
    in_pieces = execute(14, name)
    return [
        (False, prepare(0)), (True, prepared(0, name, int_and_text)),
        (False, execute(1, name)), (True, bare_page(1, seven, b"x")[:30]), (True, bare_page(1, seven, b"x")[30:]),
        (False, execute(2, name) + execute(3, other)), (False, query(4)),
        (True, bare_page(3, seven, b"x")), (True, bare_page(4, seven, b"x")), (True, bare_page(2, None, b"")),
        (False, execute(5, name)), (False, query(5)), (True, bare_page(5, seven, b"x")),
        (False, prepare(0)), (True, prepared(0, name, blob_and_boolean)),
        (False, execute(6, name)), (True, bare_page(6, seven, b"\1")),
        (False, execute(7, name, 0x04, payload)), (True, bare_page(7, seven, b"\0")),
        (False, execute(8, name, 0x01)), (True, bare_page(8, seven, b"\1")),
        (True, bare_page(9, seven, b"\1")), (False, execute(9, name)),
        (False, execute(11, name)), (True, unprepared), (False, execute(12, name)), (True, bare_page(12, seven, b"\1")),
        (False, execute(13, name)), (True, bare_page(13, seven, b"\1", b"\1")),
        (False, in_pieces[:10]), (False, in_pieces[10:12]), (False, in_pieces[12:]), (True, bare_page(14, seven, b"\1")),
        (False, prepare(0)), (True, prepared(0, long_name, int_and_text)), (False, execute(15, long_name)), (True, bare_page(15, seven, b"x")),
        (False, prepare(0)), (True, prepared(0, other, int_and_text)[:-1]), (True, b"\x0d"), (False, execute(16, other)), (True, bare_page(16, seven, b"x")),
    ]


def many_statements():
    for i in range(300):
        name, types = struct.pack(">I", i), [b"\0\x09"] * 4_096
        answer = prepared(0, name, types)
        yield from [(False, prepare(0)), *((True, piece) for piece in pieces(answer))]
        yield from [(False, execute(1, name)), (True, bare_page(1, b"\0\0\0\7"))]


class Connections:
    """Messages, or pieces of them, each in a packet of its own, of connections by their numbers."""

    def __init__(self):
        self.sent = {}

    def sends(self, number, is_response, message, lost=0):
        """A packet, before which so many bytes are lost, which the other side says it has."""
        at = self.sent.get((number, is_response), 1) + lost
        self.sent[number, is_response] = at + len(message)
        yield record(segment(0x0A010000, 10_000 + number, at, message, is_response))
        if lost:
            yield record(segment(0x0A010000, 10_000 + number, self.sent.get((number, not is_response), 1), b"", not is_response, at + len(message), ACK))

    def answers(self, stream, name, *row):
        """Connection 1 has a page for an EXECUTE."""
        yield from self.sends(1, False, execute(stream, name))
        yield from self.sends(1, True, bare_page(stream, *row))


def prepared_elsewhere():
    """Statements are prepared on connections 2 and 3, and executed on connection 1."""
    seven, int_and_text, blob_and_boolean = b"\0\0\0\7", [b"\0\x09", b"\0\x0d"], [b"\0\x03", b"\0\x04"]
    names, long_name, to = [bytes([i, i]) for i in range(12)], b"n" * 65, Connections()
    message = {name: prepared(0, name, int_and_text) for name in [*names, long_name]}
    other = {name: prepared(0, name, blob_and_boolean) for name in names}
    for number in (1, 2, 3):
        yield from to.sends(number, False, query(9))
    yield from to.answers(1, names[1], seven, b"x")
    yield from to.sends(2, True, message[names[1]])
    yield from to.answers(2, names[1], seven, b"x")
    yield from to.sends(1, False, execute(3, names[2]))
    yield from to.sends(3, True, message[names[2]])
    yield from to.sends(1, True, bare_page(3, seven, b"x"))
    yield from to.sends(1, True, other[names[3]])
    yield from to.sends(2, True, message[names[3]])
    yield from to.answers(4, names[3], seven, b"\1")
    yield from to.sends(2, True, message[names[4]])
    yield from to.sends(3, True, other[names[4]])
    yield from to.answers(5, names[4], seven, b"\0")
    for one, two in zip(message[names[5]], other[names[6]]):
        yield from to.sends(2, True, bytes([one]))
        yield from to.sends(3, True, bytes([two]))
    yield from to.answers(6, names[5], seven, b"x")
    yield from to.answers(7, names[6], seven, b"\1")
    announced = bytes(16) + b"\0\1\0\1!" + b"\0\1\0\1k" + struct.pack(">i", 1) + b"v"
    for one in (page(1, struct.pack(">ii", 4, 1), [(seven,)]), frame(0x84, 0x0E, 0, 0x08, announced + message[names[7]][9:]), frame(0x84, 0, 0, 0x08, b"")):
        yield from to.sends(2, True, one)
    yield from to.answers(8, names[7], seven, b"x")
    yield from to.sends(2, True, b"\x84\1" + message[names[8]][2:])
    yield from to.answers(9, names[8], seven, b"x")
    yield from to.sends(2, True, message[names[9]][:-1] + b"\xff")
    yield from to.answers(10, names[9], seven, b"x")
    yield from to.sends(2, True, message[names[10]][:20])
    yield from to.sends(2, True, message[names[10]][24:], 4)
    yield from to.answers(11, names[10], seven, b"x")
    yield from to.sends(2, True, message[names[10]])
    yield from to.answers(12, names[10], seven, b"x")
    yield from to.sends(2, True, message[long_name])
    yield from to.answers(13, long_name, seven, b"x")
    for stream, length in ((14, 65_537), (15, 65_536)):
        for piece in pieces(frame(0x84, 0, 0, 0x08, message[names[11]][9:].ljust(length, b"\0"))):
            yield from to.sends(2, True, piece)
        yield from to.answers(stream, names[11], seven, b"x")


def prepared_too_often():
    """257 statements are prepared on connection 2, of which a page uses the first one; and then one on each of 65 connections at one time."""
    seven, kinds, name, to = b"\0\0\0\7", [b"\0\x09", b"\0\x0d"], struct.Struct(">H").pack, Connections()
    yield from to.sends(1, False, query(9))
    for i in range(257):
        yield from to.sends(2, True, prepared(0, name(i), kinds))
        if i == 255:
            yield from to.answers(1, name(0), seven, b"x")
    for stream in (2, 3, 4):
        yield from to.answers(stream, name(stream - 2), seven, b"x")
    messages = [prepared(0, name(i), kinds) for i in range(257, 322)]
    for begin, end in ((0, 30), (30, None)):
        for i, message in enumerate(messages):
            yield from to.sends(3 + i, True, message[begin:end])
    for stream in (5, 6):
        yield from to.answers(stream, name(252 + stream), seven, b"x")


def packets():
    for i in range(512):
        longest = b"\x4f" + b"\xff" * 262_143
        yield record(longest, original=0xFFFFFFFF)
        packet = segment(0x0A010000 + i, 10_000, 0xFFFFFFFF, bytes(262_104))
        yield record(packet[:32] + b"\xf0" + packet[33:], original=0xFFFFFFFF)


def frame(first, flags, stream, opcode, body):
    return struct.pack(">BBHBI", first, flags, stream, opcode, len(body)) + body


def of_text(text):
    return b"\0" + struct.pack(">I", len(text)) + text + b"\0\0"


def of_id(name):
    return b"\1" + struct.pack(">H", len(name)) + name + b"\0\0"


def batches():
    """Each has its response in the packet after it. A PREPARE gives the id 0102 to its statement."""
    text = b"INSERT INTO ks.t (k) VALUES (?)"
    requests = [(0x00, 0x09, struct.pack(">I", len(text)) + text)]
    for entries in ([], [of_text(b"DELETE \"k\" FROM ks.t"), of_id(b"\1\2")], [of_id(b"\1\2")] * 3, [of_id(b"\xab\xcd")], [of_text(b"x" * 300)],
                    [b"\2" + of_text(b"SELECT")[1:]]):
        requests.append((0x00, 0x0D, b"\0" + struct.pack(">H", len(entries)) + b"".join(entries) + b"\0\1\0"))
    requests.append((0x01, 0x0D, b"\0\0\1" + of_text(b"packed") + b"\0\1\0"))
    sent = [1, 1]
    for stream, (flags, opcode, body) in enumerate(requests):
        void, prepared = b"\0\0\0\1", b"\0\0\0\4\0\2\1\2" + bytes(12) + b"\0\0\0\4" + bytes(4)
        messages = frame(0x04, flags, stream, opcode, body), frame(0x84, 0x00, stream, 0x08, prepared if opcode == 0x09 else void)
        for is_response, message in enumerate(messages):
            yield record(segment(0x0A010000, 10_000, sent[is_response], message, is_response))
            sent[is_response] += len(message)


def block(kind, body, length=None):
    length = 12 + len(body) if length is None else length
    return struct.pack("<II", kind, length) + body + struct.pack("<I", length)


def blocks():
    yield block(0x0A0D0D0A, struct.pack("<IHHq", 0x1A2B3C4D, 1, 0, -1))
    options = struct.pack("<HH", 1, 65_535) + bytes(65_536) + struct.pack("<HH", 0, 0)
    for _ in range(256):
        yield block(1, struct.pack("<HHI", 101, 0, 0xFFFFFFFF) + options)
    yield block(6, struct.pack("<IIIII", 255, 0, 0, 262_144, 0xFFFFFFFF) + bytes(262_144))
    yield struct.pack("<II", 0x0BAD, 0xFFFFFFFC) + bytes(1_000_000)


def ethernet(kind, content):
    return bytes(12) + struct.pack(">H", kind) + content


def over_ip(protocol, content):
    return struct.pack(">BBHHHBBHII", 0x45, 0, 20 + len(content), 0, 0x4000, 64, protocol, 0, 7, 8) + content


def over_gre(kind, content, fields=0):
    flags = {0: 0, 1: 0x80, 2: 0xA0, 3: 0xB0}[fields]
    return over_ip(47, struct.pack(">BBH", flags, 0, kind) + bytes(4 * fields) + content)


def over_vxlan(packet):
    frame = ethernet(0x0800, packet)
    return over_ip(17, struct.pack(">HHHH", 50_000, 4_789, 16 + len(frame), 0) + struct.pack(">II", 0x08000000, 77 << 8) + frame)


def over_pppoe(packet):
    return ethernet(0x8864, struct.pack(">BBHHH", 0x11, 0, 5, 2 + len(packet), 0x0021) + packet)


def four_times(packet):
    return over_gre(0x0800, over_ip(4, over_vxlan(over_gre(0x6558, ethernet(0x0800, packet), 3))))


# what a packet of IP may be in, on a link of Ethernet
WRAPS = [
    lambda packet: ethernet(0x0800, packet),
    lambda packet: ethernet(0x8100, b"\0\5\x08\0" + packet),
    lambda packet: ethernet(0x8847, struct.pack(">II", 16 << 12, 17 << 12 | 1 << 8) + packet),
    lambda packet: ethernet(0x8848, struct.pack(">I", 16 << 12 | 1 << 8) + packet),
    over_pppoe,
    lambda packet: ethernet(0x0800, over_ip(4, packet)),
    lambda packet: ethernet(0x0800, over_gre(0x0800, packet)),
    lambda packet: ethernet(0x0800, over_gre(0x0800, packet, 2)),
    lambda packet: ethernet(0x0800, over_gre(0x6558, ethernet(0x0800, packet), 1)),
    lambda packet: ethernet(0x0800, over_vxlan(packet)),
    lambda packet: ethernet(0x0800, four_times(packet)),
]


def exchange(port, stream, number):
    """The packets of an OPTIONS and of the READY that answers it, each of nine bytes, the first of which has this number."""
    yield segment(1, port, number, frame(0x04, 0, stream, 0x05, b""))
    yield segment(1, port, number, frame(0x84, 0, stream, 0x02, b""), True)


def parted(second):
    """An exchange under stream id 0 and one under this id, whose request is in the file before the response to the first, which passed earlier."""
    first, then = exchange(10_000, 0, 0), exchange(10_000, second, 9)
    for microseconds, packet in zip((0, 2, 1, 3), (next(first), next(then), next(first), next(then))):
        yield record(packet, microseconds=microseconds)


def wraps():
    for i, wrap in enumerate(WRAPS):
        yield from map(record, map(wrap, exchange(10_000, i, 9 * i)))
    late = next(exchange(10_000, 0, 9 * len(WRAPS)))
    yield record(ethernet(0x0800, over_ip(4, four_times(late))))


def interface(link, *options):
    return block(1, struct.pack("<HHI", link, 0, 0) + b"".join(options))


def packet_block(packet, number, captured=None):
    """The block of a packet as it was before enhanced packets."""
    captured = len(packet) if captured is None else captured
    return block(2, struct.pack("<HHIIII", number, 0, 0, 5, captured, captured) + packet + bytes(-len(packet) % 4))


def enhanced(packet, number):
    return block(6, struct.pack("<IIIII", number, 0, 5, len(packet), len(packet)) + packet + bytes(-len(packet) % 4))


def passed():
    yield block(0x0A0D0D0A, struct.pack("<IHHq", 0x1A2B3C4D, 1, 0, -1))
    odd = struct.pack("<HHB3x", 9, 1, 0x8A)
    yield from [interface(1, odd), interface(101), interface(12)]
    asked, answered = exchange(10_000, 0, 0)
    yield from [packet_block(asked, 1), enhanced(ethernet(0x0800, asked), 0), enhanced(bytes(1_048_577), 1), packet_block(answered, 2)]
    asked, answered = exchange(10_001, 0, 0)
    yield from [enhanced(asked, 2), packet_block(b"", 1, captured=1), block(6, bytes(12)), enhanced(asked, 3), enhanced(answered, 1)]


def over_6(number, payload, *headers, client=1):
    """A record of a packet of IPv6 from this address, with each of these headers: its number, and its bytes after the number of the next."""
    kind, content = 6, segment(0, 10_000, number, payload)[20:]
    for before, rest in reversed(headers):
        kind, content = before, bytes([kind]) + rest + content
    return record(struct.pack(">IHBB", 6 << 28, len(content), kind, 64) + client.to_bytes(16) + (2).to_bytes(16) + content)


def headers():
    options, whole, authentication = (0, bytes(7)), (44, bytes(7)), (51, b"\4" + bytes(22))
    first, last = (44, b"\0\0\1" + bytes(4)), (44, b"\0\0\x08" + bytes(4))
    sent = query(0)
    for i, before in enumerate([(), (whole,), (authentication,), (options, whole, authentication), (first,), (options, last)]):
        yield over_6(i * 90, sent[i * 90:i * 90 + 90], *before)


def addresses():
    """Addresses of IPv6, and how they are written (RFC 5952)."""
    segments = [0x2001, 0xDB8, 0x1, 0xF0, 0xABC, 0x10, 0x1000, 0xFFFF]
    for mask in range(256):
        number = sum((0 if mask >> i & 1 else segment) << 16 * (7 - i) for i, segment in enumerate(segments))
        yield number, ipaddress.IPv6Address(number).compressed
    for number in [0x0A000001, 0, 0xFFFFFFFF, 0xC0A80000, 0x7F000001]:
        yield 0xFFFF << 32 | number, f"::ffff:{ipaddress.IPv4Address(number)}"
    for i in range(32):
        number = 0xFFFF << 32 ^ 1 << 4 * i
        yield number, f"::ffff:{ipaddress.IPv4Address(number & 0xFFFFFFFF)}" if number >> 32 == 0xFFFF else ipaddress.IPv6Address(number).compressed


def from_addresses():
    for client, _ in addresses():
        yield over_6(0, query(0), client=client)


def print_other_ends(file, command):
    lines = subprocess.run([*command, "--json", file], stdout=subprocess.PIPE, stderr=subprocess.DEVNULL, text=True).stdout.splitlines()
    found = sorted((of["client"], of["node"]) for of in map(json.loads, lines))
    due = sorted((f"[{text}]:10000", "[::2]:9042") for _, text in addresses())
    for pair in zip(found, due):
        if pair[0] != pair[1]:
            print(*pair)
    if len(found) != len(due):
        print(len(found), "objects, not", len(due))
    for number, text in addresses():
        address = ipaddress.IPv6Address(number)
        for name in (text, address.exploded.upper(), f"[{text}]:10000", f"[{address.exploded}]:010000"):
            got = subprocess.run([*command, "--json", "--client", name, "--node", "::2", file], stdout=subprocess.PIPE, stderr=subprocess.DEVNULL, text=True)
            if [of["client"] for of in map(json.loads, got.stdout.splitlines())] != [f"[{text}]:10000"] * sum(other == number for other, _ in addresses()):
                print("other objects with --client", name)
        for what, name in (("client", text), ("node", "[::2]:9042")):
            words = ["--summary", "--by", what, "--client", text]
            got = subprocess.run([*command, *words, file], stdout=subprocess.PIPE, stderr=subprocess.DEVNULL, text=True).stdout.splitlines()
            if [row.split()[11:] for row in got] != [[what], [name]]:
                print(f"other names by {what} with --client {text}")


def on(port, *directions, syn=True):
    """A connection from this port, of whose directions, requests first, these are the bytes, each before the others in a segment."""
    for is_response, payloads in enumerate(directions):
        number = 0
        if syn:
            yield record(segment(1, port, number, b"", is_response, flags=SYN))
            number = 1
        for payload in payloads:
            yield record(segment(1, port, number, payload, is_response))
            number += len(payload)


def flight():
    yield from on(10_000, map(query, range(100)), [frame(0x84, 0, i, 0x08, b"\0\0\0\1") for i in range(100)])


def versions():
    yield from on(10_000, [frame(0x05, 0, 0, 0x05, b"")], [frame(0x85, 0, 0, 0x06, b"\0\0")])
    yield from on(10_001, [frame(0x03, 0, 0, 0x05, b"")], [frame(0x83, 0, 0, 0x06, b"\0\0")], syn=False)
    yield from on(10_002, [b"\5\0\0\0c" + bytes(9)], [b"\x81" * 20], syn=False)


def tls():
    yield from on(10_000, [bytes.fromhex("1603010200010001fc")], [bytes.fromhex("160303007a02000076")])


def greatest_record():
    yield record(bytes(1_000), 0xFFFFFFFF, 0xFFFFFFFF)


def of_pcap(records, link=101):
    yield struct.pack("<IHHiIII", 0xA1B2C3D4, 2, 4, 0, 0, 0xFFFFFFFF, link)
    yield from records


def capture(kind, *count):
    if kind in ("block", "passed"):
        return {"block": blocks, "passed": passed}[kind]()
    if kind == "wraps":
        return of_pcap(wraps(), 1)
    made = {"connections": connections, "lost": lost, "requests": requests, "contents": contents, "pages": pages, "packets": packets,
            "prepared": lambda: in_turn(statements_in_turn()), "statements": lambda: in_turn(many_statements()),
            "elsewhere": prepared_elsewhere, "too-often": prepared_too_often,
            "crowd": crowd, "laden": laden, "deep": deep, "scattered": scattered, "headers": headers, "addresses": from_addresses, "record": greatest_record,
            "batches": batches, "flight": flight, "versions": versions, "tls": tls, "parted": parted}[kind]
    return of_pcap(made(*map(int, count)))


def print_most(command):
    status = subprocess.run(command, stdout=subprocess.DEVNULL, stderr=subprocess.DEVNULL).returncode
    print(status, resource.getrusage(resource.RUSAGE_CHILDREN).ru_maxrss)


def write_long(path, size="130"):
    head = b"".join(of_pcap([]))
    with open(path, "wb") as file:
        file.write(head)
        for at in range(len(head), int(size) * 1_000_000, 16 + 262_144):
            file.seek(at)
            file.write(struct.pack("<IIII", 0, 0, 262_144, 262_144))
        file.truncate(at + 16 + 262_144)


def slower(file, times):
    with open(file, "rb") as capture:
        yield capture.read(24)
        first = None
        while head := capture.read(16):
            seconds, micros, captured, original = struct.unpack("<IIII", head)
            time = seconds * 1_000_000 + micros
            first = time if first is None else first
            yield struct.pack("<IIII", *divmod(first + (time - first) * int(times), 1_000_000), captured, original) + capture.read(captured)


def print_terminal(command):
    ours, theirs = pty.openpty()
    program = subprocess.Popen(command, stdout=subprocess.DEVNULL, stderr=theirs)
    os.close(theirs)
    said = b""
    try:
        while some := os.read(ours, 4096):
            said += some
    except OSError:  # Nobody writes to it any more.
        pass
    print(program.wait())
    print(said.decode().replace("\r\n", "\n"), end="")


def print_interrupted(file, *command):
    child, terminal = pty.fork()
    if child == 0:
        signal.signal(signal.SIGINT, signal.SIG_DFL)  # It may be ignored here, as of what a script runs behind its back.
        os.execvp("bash", ["bash", "-c", '(cat "$0"; echo written >/dev/tty; exec sleep 60) | "$@"', file, *command])
    said = b""
    try:
        while b"written" not in said:
            said += os.read(terminal, 4096)
        while True:
            if select.select([terminal], [], [], 0.5)[0]:
                said += os.read(terminal, 4096)
            else:
                os.write(terminal, b"\x03")
    except OSError:  # Nobody has it any more.
        pass
    os.waitpid(child, 0)
    print(said.decode().replace("\r\n", "\n"), end="")


if __name__ == "__main__":
    if sys.argv[1] == "most":
        print_most(sys.argv[2:])
    elif sys.argv[1] == "ends":
        print_other_ends(sys.argv[2], sys.argv[3:])
    elif sys.argv[1] == "long":
        write_long(*sys.argv[2:])
    elif sys.argv[1] == "slower":
        sys.stdout.buffer.writelines(slower(*sys.argv[2:]))
    elif sys.argv[1] == "terminal":
        print_terminal(sys.argv[2:])
    elif sys.argv[1] == "interrupted":
        print_interrupted(*sys.argv[2:])
    else:
        sys.stdout.buffer.writelines(capture(*sys.argv[1:]))
