#!/usr/bin/env python3
"""Writes a stream of frames, requests and responses mixed, to standard output: mixed_frames.py [FRAMES]

Each message of the protocol that has no rows comes in turn, in the shares of a busy connection: most frames are QUERY,
EXECUTE and BATCH with values, and RESULT without rows. The same count gives the same bytes.
"""
import struct
import sys

TEXT = "SELECT id, name, created FROM shop.orders WHERE customer = ? AND day = ? LIMIT 100".encode()


def short(n):
    return struct.pack(">H", n)


def int_(n):
    return struct.pack(">i", n)


def text16(b):
    return short(len(b)) + b


def text32(b):
    return int_(len(b)) + b


def frame(response, flags, stream, opcode, body):
    return struct.pack(">BBhBi", 0x84 if response else 0x04, flags, stream, opcode, len(body)) + body


VALUES = [int_(4) + b"\0\0\1\2", int_(16) + bytes(range(16)), int_(24) + b"d" * 24, int_(-1), int_(-2), int_(64) + b"x" * 64]


def values(count):
    return short(count) + b"".join(VALUES[i % len(VALUES)] for i in range(count))


def parameters(count):
    return short(6) + bytes([0x01 | 0x04 | 0x20]) + values(count) + int_(5000) + struct.pack(">q", 1_700_000_000_000_000)


def statement(kind, count):
    return bytes([kind]) + (text32(TEXT) if kind == 0 else text16(bytes(16))) + values(count)


OPTIONS = short(2) + text16(b"CQL_VERSION") + text16(b"3.0.0") + text16(b"DRIVER_NAME") + text16(b"driver")
CHANGE = text16(b"UPDATED") + text16(b"TABLE") + text16(b"shop") + text16(b"orders")
INET = bytes([4, 10, 0, 0, 7]) + int_(9042)
WARNINGS = short(1) + text16(b"Aggregation query used without partition key")
PAYLOAD = short(1) + text16(b"trace") + int_(8) + bytes(8)

# (how many in a turn of 40, whether a response, flags, opcode, body)
MESSAGES = [
    (6, False, 0, 0x07, text32(TEXT) + parameters(2)),
    (10, False, 0, 0x0A, text16(bytes(16)) + parameters(6)),
    (2, False, 0, 0x0D, bytes([0]) + short(4) + statement(0, 3) + b"".join(statement(1, 4) for _ in range(3)) + short(6) + b"\0"),
    (1, False, 0, 0x09, text32(TEXT)),
    (1, False, 0, 0x01, OPTIONS),
    (1, False, 0, 0x0B, short(1) + text16(b"SCHEMA_CHANGE")),
    (1, False, 4, 0x05, PAYLOAD),
    (9, True, 0, 0x08, int_(1)),
    (2, True, 0x08, 0x08, WARNINGS + int_(1)),
    (1, True, 0x02, 0x08, bytes(range(16)) + int_(3) + text16(b"shop")),
    (2, True, 0, 0x08, int_(5) + CHANGE),
    (1, True, 0, 0x00, int_(0x1100) + text16(b"Operation timed out") + short(6) + int_(1) + int_(2) + text16(b"SIMPLE")),
    (1, True, 0, 0x02, b""),
    (1, True, 0, 0x0C, text16(b"STATUS_CHANGE") + text16(b"UP") + INET),
    (1, True, 0, 0x06, short(1) + text16(b"CQL_VERSION") + short(2) + text16(b"3.4.5") + text16(b"3.0.0")),
]


def main():
    count = int(sys.argv[1]) if len(sys.argv) > 1 else 200_000
    turn = [it for it in MESSAGES for _ in range(it[0])]
    out = sys.stdout.buffer
    left, at = count, 0
    while left:
        some = [turn[(at + i) * 7 % len(turn)] for i in range(min(left, 4096))]
        out.write(b"".join(frame(response, flags, (at + i) % 32768, opcode, body) for i, (_, response, flags, opcode, body) in enumerate(some)))
        left -= len(some)
        at += len(some)


main()
