#!/usr/bin/env python3
"""Writes a capture of requests or of result pages on Ethernet to a file: captures.py mixed|thousand|whole|lost|small|few|many FILE [MB]

mixed  50 connections at a time, each with eight requests in flight: QUERY, EXECUTE and BATCH, and their replies, mostly small (captures/generated.py); of
       300 MB 1.2 million packets
thousand  1,000 connections at a time, each with two requests in flight, of the same kinds
whole  one connection, whose node sends pages of rows (pages.py) in segments of 1,448 bytes, each second of which is acknowledged
lost   the same, where the capture has not each second segment with bytes
small  one connection, whose client asks for one row at a time, and whose node answers each query before the next
few    10,000 connections, 200 of them open at a time, whose nodes send 10,136 bytes each
many   100,000 connections, 1,000 of them open at a time, the same

MB is how long the capture is at least, in millions of bytes: 1,000 where it is not said; of `few` and `many` it says how many connections
there are.
The same words give the same bytes.
"""
import struct
import subprocess
import sys
from pathlib import Path

sys.path.insert(0, str(Path(__file__).resolve().parent.parent / "captures"))
import generated

SEGMENT = 1_448
PACKET = 14 + 20 + 32
NODE = 0x0A000001
SYN, FIN, ACK = 0x02, 0x01, 0x10
SCALE = 1_000_000


class Capture:
    """A pcap file, whose packets come a microsecond after one another."""

    def __init__(self, path):
        self.file = open(path, "wb", buffering=1 << 20)
        self.file.write(struct.pack("<IHHiIII", 0xA1B2C3D4, 2, 4, 0, 0, 262_144, 1))
        self.time = self.size = 0

    def packet(self, source, destination, sequence, acknowledgement, flags, payload=b""):
        """Writes a segment between two ends, each an address and a port, with a header of TCP of 32 bytes."""
        self.time += 1
        length = PACKET + len(payload)
        self.size += 16 + length
        self.file.write(
            struct.pack(
                ">4s4s4s4s" "12sH" "BBHHHBBHII" "HHIIBBHHH12s",
                struct.pack("<I", 1_700_000_000 + self.time // SCALE),
                struct.pack("<I", self.time % SCALE),
                struct.pack("<I", length),
                struct.pack("<I", length),
                b"\2\0\0\0\0\1\2\0\0\0\0\2", 0x0800,
                0x45, 0, length - 14, 0, 0x4000, 64, 6, 0, source[0], destination[0],
                source[1], destination[1], sequence % (1 << 32), acknowledgement % (1 << 32), 0x80, flags, 65_535, 0, 0,
                b"\1\1\x08\x0a\0\0\0\1\0\0\0\2",
            )
            + payload
        )


class Connection:
    """A connection of a client to the node."""

    def __init__(self, capture, number):
        self.capture = capture
        self.client = (0x0A010000 + number // 20_000, 20_000 + number % 20_000)
        self.node = (NODE, 9042)
        self.sent = 1_000 * number
        self.unacknowledged = 0

    def begin(self):
        self.capture.packet(self.client, self.node, 0, 0, SYN)
        self.capture.packet(self.node, self.client, self.sent, 1, SYN | ACK)
        self.sent += 1
        self.acknowledge()

    def acknowledge(self):
        self.capture.packet(self.client, self.node, 1, self.sent, ACK)
        self.unacknowledged = 0

    def send(self, payload, is_lost=False):
        if not is_lost:
            self.capture.packet(self.node, self.client, self.sent, 1, ACK, payload)
        self.sent += len(payload)
        self.unacknowledged += 1
        if self.unacknowledged == 2:
            self.acknowledge()

    def end(self):
        self.capture.packet(self.node, self.client, self.sent, 1, ACK | FIN)
        self.sent += 1
        self.capture.packet(self.client, self.node, 1, self.sent, ACK | FIN)
        self.capture.packet(self.node, self.client, self.sent, 2, ACK)


def segments(page):
    """The page again and again, in segments."""
    twice = page + page[:SEGMENT]
    at = 0
    while True:
        yield twice[at:at + SEGMENT]
        at = (at + SEGMENT) % len(page)


def one(capture, page, size, loses):
    connection = Connection(capture, 0)
    connection.begin()
    for number, payload in enumerate(segments(page)):
        connection.send(payload, loses and number % 2 == 1)
        if capture.size >= size:
            break
    connection.end()


def frame(first, stream, opcode, body):
    return struct.pack(">BBhBi", first, 0, stream, opcode, len(body)) + body


def small(capture, size):
    """Queries, each answered with one row of one int."""
    connection = Connection(capture, 0)
    connection.begin()
    asked = number = 0
    columns = struct.pack(">iii", 2, 1, 1) + b"\0\2ks\0\1t\0\1v\0\x09" + struct.pack(">i", 1)
    while capture.size < size:
        text = b"SELECT v FROM ks.t WHERE k = %d" % (number % 1_000_000)
        request = frame(4, number % 128, 7, struct.pack(">i", len(text)) + text + b"\0\1\0")
        capture.packet(connection.client, connection.node, 1 + asked, connection.sent, ACK, request)
        asked += len(request)
        response = frame(0x84, number % 128, 8, columns + struct.pack(">ii", 4, number))
        capture.packet(connection.node, connection.client, connection.sent, 1 + asked, ACK, response)
        connection.sent += len(response)
        number += 1


def many(capture, page, count, at_a_time):
    payloads = segments(page)
    for first in range(0, count, at_a_time):
        group = [Connection(capture, number) for number in range(first, min(count, first + at_a_time))]
        for connection in group:
            connection.begin()
        for _ in range(7):
            for connection in group:
                connection.send(next(payloads))
        for connection in group:
            connection.end()


def spoken(count, work):
    """The packets of so many connections at one time, each with the offset of its client's address, and how long they take in microseconds."""
    chance = generated.random.Random(count)
    wire, pool, start = generated.Wire(), generated.Pool(chance, work.prepares), generated.START
    ends = [(0x0A010000, 20_000 + i) for i in range(count)]
    made = [generated.Connection(generated.random.Random(i), wire, work, pool, ends[i], start=start + i * 20_000, headers=66) for i in range(count)]
    capture = generated.Capture([connection.run() for connection in made], unit=1_000)
    packets = [(packet.time // 1_000, capture.record(packet)[8:], 34 if packet.way == generated.CLIENT else 38) for packet in capture.packets]
    return packets, packets[-1][0] - packets[0][0] + 1


def again_and_again(path, size, packets, span):
    """The same packets again and again, each time of other clients."""
    written = 0
    with open(path, "wb", buffering=1 << 20) as file:
        file.write(struct.pack("<IHHiIII", 0xA1B2C3D4, 2, 4, 0, 0, 262_144, 1))
        while file.tell() < size:
            client = struct.pack(">I", 0x0A010000 + written)
            for time, packet, at in packets:
                time += written * span
                file.write(struct.pack("<II", time // SCALE, time % SCALE) + packet[:at] + client + packet[at + 4:])
            written += 1


def main(kind, path, size="1000"):
    if kind in ("mixed", "thousand"):
        mixed = 50, generated.Work(250, 8, large=0.002, acks=0.7, events=0.001)
        thousand = 1_000, generated.Work(60, 2, large=0, took=50 * generated.MS)
        again_and_again(path, int(size) * 1_000_000, *spoken(*(mixed if kind == "mixed" else thousand)))
        return
    if kind == "small":
        capture = Capture(path)
        small(capture, int(size) * 1_000_000)
        capture.file.close()
        return
    rows = subprocess.run([sys.executable, Path(__file__).parent / "pages.py", "rows", "100000"], stdout=subprocess.PIPE, check=True).stdout
    capture = Capture(path)
    if kind == "many":
        many(capture, rows, int(size) * 100, 1_000)
    elif kind == "few":
        many(capture, rows, int(size) * 10, 200)
    else:
        one(capture, rows, int(size) * 1_000_000, kind == "lost")
    capture.file.close()


if __name__ == "__main__":
    main(*sys.argv[1:])
