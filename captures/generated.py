#!/usr/bin/env python3
"""Captures of conversations that this makes up, with the exchanges that really were, and which of them a capture still shows: by nothing of
this repository. `captures/generated` has `cqlp capture` read them.

A `Connection` is a client and a node that speak CQL over TCP, in simulated time: segments are lost, sent again (cut in other places) and
overtaken on both sides of the capture point; each end hands on bytes in order, and acknowledges them. A `Capture` has the packets that passed
the capture point: all of them, or not those that it dropped, cut by a snap length, from some time on, or out of order in the file.

What a capture shows of a direction (`shown`): a byte was captured if the first packet that carried it has it. A message is *seen* if its header
was captured, and it is known that it begins there: the message before it was seen, or the direction begins there, or its header begins a
packet. It is *whole* if all its bytes were captured. Its times are those of the packets that carried first its first byte, and the last of its bytes that
any packet carried; of one whose direction ended in it the last is not known.

captures/generated.py CASE FILE: writes the capture of a case of captures/generated, for other programs.
"""
import bisect
import collections
import datetime
import heapq
import ipaddress
import itertools
import random
import struct

CLIENT, NODE = 0, 1
FIN, SYN, RST, PUSH, ACK = 0x01, 0x02, 0x04, 0x08, 0x10
US, MS = 1_000, 1_000_000
START = 1_700_000_000 * 1_000 * MS
# How long an end waits before it sends a segment again, in nanoseconds.
RETRY = 2 * MS
HEADER = 9
REQUESTS = {"STARTUP": 0x01, "OPTIONS": 0x05, "QUERY": 0x07, "PREPARE": 0x09, "EXECUTE": 0x0A, "BATCH": 0x0D}
OPCODES = {"ERROR": 0x00, "READY": 0x02, "SUPPORTED": 0x06, "RESULT": 0x08, "EVENT": 0x0C, **REQUESTS}
CONSISTENCIES = {0x0001: "ONE", 0x0004: "QUORUM", 0x0006: "LOCAL_QUORUM", 0x000A: "LOCAL_ONE"}
ERRORS = {0x1000: "Unavailable", 0x1001: "Overloaded", 0x1200: "ReadTimeout", 0x2200: "Invalid"}
# What those say that have contents, as an object has it.
DETAILS = {0x1000: '{"consistency": "ONE", "required": 2, "alive": 1}',
           0x1200: '{"consistency": "LOCAL_QUORUM", "received": 1, "required": 2, "data_present": true}'}


# ---- messages: the bytes of a frame with stream id 0, and what is to be said of it

def short(number):
    return struct.pack(">H", number)


def whole(number):
    return struct.pack(">i", number)


def string(text):
    return short(len(text)) + text.encode()


def long_string(text):
    return whole(len(text)) + text.encode()


def value(content):
    return whole(len(content)) + content


class Template:
    """A message but for its stream id. Its facts are those of an object of --json, where all its bytes were captured."""

    def __init__(self, opcode, body, flags=0, **facts):
        first = 0x04 if opcode in REQUESTS else 0x84
        self.opcode, self.facts = opcode, facts
        self.before = struct.pack(">BB", first, flags)
        self.behind = struct.pack(">BI", OPCODES[opcode], len(body)) + body

    def frame(self, stream):
        return self.before + struct.pack(">h", stream) + self.behind


def letters(chance, count):
    return "".join(chance.choices("abcdefghijklmnopqrstuvwxyz", k=count)).encode()


def parameters(chance, consistency, page, state=b""):
    """The parameters of a QUERY or EXECUTE (section 4.1.4): values are letters, so that no bytes within a body look like a header."""
    values = [value(letters(chance, 8)) for _ in range(chance.randrange(4))]
    flags = (0x01 if values else 0) | (0x04 if page else 0) | (0x08 if state else 0)
    paging = (whole(page) if page else b"") + (value(state) if state else b"")
    return short(consistency) + bytes([flags]) + (short(len(values)) if values else b"") + b"".join(values) + paging


def query(chance, padding=0):
    text = f"SELECT v FROM ks.t WHERE k = {chance.randrange(1_000)}" + " " * padding
    consistency, page = chance.choice(list(CONSISTENCIES)), chance.choice([None, 100, 5_000])
    state = b"next" if page == 100 else b""
    body = long_string(text) + parameters(chance, consistency, page, state)
    return Template("QUERY", body, statement=text, consistency=CONSISTENCIES[consistency], page_size=page, has_paging_state=page == 100)


def statement_of(number):
    return f"INSERT INTO ks.t{number} (k, v) VALUES (?, ?)"


def name_of(number):
    return letters(random.Random(number), 16)


def prepare(number):
    return Template("PREPARE", long_string(statement_of(number)), statement=statement_of(number))


def execute(chance, number):
    consistency, name = chance.choice(list(CONSISTENCIES)), name_of(number)
    body = short(len(name)) + name + parameters(chance, consistency, None)
    return Template("EXECUTE", body, statement=statement_of(number), consistency=CONSISTENCIES[consistency], has_paging_state=False)


def batch(chance, number):
    count, text = chance.randrange(1, 5), statement_of(number)
    entry = b"\0" + long_string(text) + short(1) + value(letters(chance, 8))
    return Template("BATCH", b"\0" + short(count) + entry * count + short(1) + b"\0", statement=text, statements=count, consistency="ONE")


def startup():
    return Template("STARTUP", short(1) + string("CQL_VERSION") + string("3.0.0"))


def supported():
    return Template("SUPPORTED", short(1) + string("CQL_VERSION") + short(1) + string("3.0.0"))


def prepared(number):
    metadata = whole(1) + whole(0) + whole(0) + string("ks") + string("t") + whole(4) + whole(0)
    return Template("RESULT", whole(4) + short(16) + name_of(number) + metadata, result="PREPARED")


def warned(chance):
    """The flags, the first bytes of a body and the facts of a response with a tracing id or warnings, or of one without."""
    kind = chance.random()
    if kind < 0.1:
        return 0x08, short(1) + string("Read 5000 tombstones"), {"warnings": 1, "warning": "Read 5000 tombstones"}
    if kind < 0.2:
        return 0x02, bytes(range(0x61, 0x71)), {"tracing_id": "61626364-6566-6768-696a-6b6c6d6e6f70"}
    return 0, b"", {}


def rows(chance, count):
    flags, before, facts = warned(chance)
    has_more = count % 3 == 1
    state = value(b"more") if has_more else b""
    metadata = whole(3 if has_more else 1) + whole(2) + state + string("ks") + string("t") + string("k") + short(0x0D) + string("v") + short(0x0D)
    cells = value(letters(chance, 11)) * (2 * count)
    body = before + whole(2) + metadata + whole(count) + cells
    return Template("RESULT", body, flags, result="ROWS", rows=count, columns=2, has_more_pages=has_more, **facts)


def void(chance):
    flags, before, facts = warned(chance)
    return Template("RESULT", before + whole(1), flags, result="VOID", **facts)


def error(chance):
    code = chance.choice(list(ERRORS))
    text, behind = f"refused {code:x}", {0x1000: short(1) + whole(2) + whole(1), 0x1200: short(6) + whole(1) + whole(2) + b"\1"}.get(code, b"")
    details = {"details": DETAILS[code]} if code in DETAILS else {}
    return Template("ERROR", whole(code) + string(text) + behind, error=ERRORS[code], message=text, **details)


def event():
    return Template("EVENT", string("STATUS_CHANGE") + string("UP") + bytes([4, 127, 0, 0, 1]) + whole(9042))


# ---- where and when

def end_text(end):
    address, port = end
    return f"{ipaddress.IPv4Address(address)}:{port}"


def utc(time):
    """Nanoseconds since 1970-01-01 00:00:00 UTC as a date and a time of day (ISO 8601)."""
    seconds, rest = divmod(time, 1_000 * MS)
    moment = datetime.datetime.fromtimestamp(seconds, datetime.timezone.utc)
    return f"{moment:%Y-%m-%dT%H:%M:%S}.{rest:09}Z"


# ---- a conversation over TCP, in simulated time

class Wire:
    """What happens to segments. Chances: `lost_before` and `lost_after` the capture point, `overtaken` before it, sent `again` in vain, `dropped` by the
    capture. Times in nanoseconds from an end to the capture point, of the client and the node; how much later an overtaken segment comes at most."""

    def __init__(self, lost_before=0, lost_after=0, overtaken=0, again=0, dropped=0, delays=(10 * US, 150 * US), spread=500 * US):
        self.lost_before, self.lost_after, self.overtaken, self.again, self.dropped = lost_before, lost_after, overtaken, again, dropped
        self.delays, self.spread = delays, spread


class Work:
    """What a client asks for: how many requests, how many in flight; which stream id is next, the least that is free or the one after the last (`after`);
    the chance of a page of up to 3,000 rows; how long the node takes at most, in steps of how much, and the chance that it never answers; how many statements
    are prepared first, behind OPTIONS and STARTUP (0: none of these); the most bytes of a segment; the chances of an acknowledgement of its own, and of
    an event behind a reply; and how long a client waits at most before it asks again."""

    def __init__(self, count, in_flight=1, ids="least", large=0.02, took=3 * MS, tick=50 * US, silent=0, prepares=2, mss=1_460, acks=0.5, events=0.01,
                 think=100 * US):
        self.count, self.in_flight, self.ids, self.large, self.took, self.tick, self.silent = count, in_flight, ids, large, took, tick, silent
        self.prepares, self.mss, self.acks, self.events, self.think = prepares, mss, acks, events, think


class Pool:
    """Templates, so that a message costs little."""

    def __init__(self, chance, prepares):
        self.requests = [query(chance, chance.choice([0, 0, 0, 150])) for _ in range(30)] + [batch(chance, i) for i in range(5)]
        self.requests += [execute(chance, i % prepares) for i in range(25)] if prepares else []
        self.replies = [rows(chance, chance.randrange(30)) for _ in range(20)] + [void(chance) for _ in range(8)] + [error(chance) for _ in range(2)]
        self.large = [rows(chance, chance.randrange(200, 3_000)) for _ in range(3)]


class Message:
    """A message on a stream: its direction's bytes, where its own lie in them, and its partner."""
    __slots__ = ("template", "stream", "data", "begin", "end", "partner")

    def __init__(self, template, stream, data, begin, length):
        self.template, self.stream, self.data, self.begin, self.end, self.partner = template, stream, data, begin, begin + length, None


class Packet:
    """A segment as it passed the capture point: its bytes of the direction, how many bytes of the other it acknowledges, and its flags. A SYN is at -1."""
    __slots__ = ("time", "connection", "way", "begin", "end", "seen", "flags")

    def __init__(self, time, connection, way, begin, end, seen, flags):
        self.time, self.connection, self.way, self.begin, self.end, self.seen, self.flags = time, connection, way, begin, end, seen, flags


class Connection:
    """A client and a node: their packets, the bytes of both directions, and their messages in order."""

    def __init__(self, chance, wire, work, pool, client, node=(0x0A000001, 9042), start=START, headers=54):
        self.chance, self.wire, self.work, self.pool, self.ends, self.headers = chance, wire, work, pool, (client, node), headers
        self.isn = chance.randrange(1 << 32), chance.randrange(1 << 32)
        self.packets, self.data, self.messages = [], (bytearray(), bytearray()), ([], [])
        self.got, self.early, self.heard, self.ready, self.due = [0, 0], ([], []), [0, 0], [0, 0], {}
        self.open, self.free, self.next_id, self.asked, self.answered, self.ignored, self.is_over = {}, list(range(64)), 0, 0, 0, 0, False
        self.events, self.turn = [], itertools.count()
        self.first = [(Template("OPTIONS", b""), supported()), (startup(), Template("READY", b""))] if work.prepares else []
        self.first += [(prepare(i), prepared(i)) for i in range(work.prepares)]
        self.begin(start)

    def at(self, time, call, *arguments):
        heapq.heappush(self.events, (time, next(self.turn), call, arguments))

    def run(self):
        while self.events:
            time, _, call, arguments = heapq.heappop(self.events)
            call(time, *arguments)
        return self

    def begin(self, time):
        client, node = self.wire.delays
        self.pass_by(time + client, CLIENT, -1, -1, -1, SYN)
        self.pass_by(time + client + 2 * node, NODE, -1, -1, 0, SYN | ACK)
        self.pass_by(time + 3 * client + 2 * node, CLIENT, 0, 0, 0, ACK)
        self.at(time + 3 * client + 2 * node, self.ask)

    def pass_by(self, time, way, begin, end, seen, flags):
        if not self.wire.dropped or self.chance.random() >= self.wire.dropped:
            self.packets.append(Packet(time, self, way, begin, end, seen, flags))

    # -- transport

    def write(self, time, way, data):
        begin, time = len(self.data[way]), max(time, self.ready[way])
        self.data[way].extend(data)
        for place in range(begin, begin + len(data), self.work.mss):
            self.send(time, way, place, min(place + self.work.mss, begin + len(data)))
            time += 200 + 7 * min(self.work.mss, len(data))
        self.ready[way] = time

    def send(self, time, way, begin, end):
        wire, random_number = self.wire, self.chance.random
        here = time + wire.delays[way]
        if wire.overtaken and random_number() < wire.overtaken:
            here += self.chance.randrange(wire.spread)
        is_lost = wire.lost_before and random_number() < wire.lost_before
        if not is_lost:
            kept = len(self.packets)
            self.pass_by(here, way, begin, end, self.got[1 - way], ACK | PUSH)
            is_lost = wire.lost_after and random_number() < wire.lost_after
            if not is_lost:
                self.at(here + wire.delays[1 - way], self.receive, way, begin, end)
            # What the capture dropped and the other end has would be late if it came again.
            if not is_lost and wire.again and len(self.packets) > kept and random_number() < wire.again:
                self.at(time + RETRY, self.resend, way, begin, end, True)
        if is_lost:
            self.at(time + RETRY, self.resend, way, begin, end)

    def resend(self, time, way, begin, end, is_vain=False):
        """Sends a segment again: the same, or, if it is not in vain, with more behind it, or in two."""
        if self.is_over or not is_vain and self.got[way] >= end:
            return
        if is_vain:
            self.send(time, way, begin, end)
            return
        begin = max(begin, self.got[way])
        kind, more = self.chance.random(), 1 + self.chance.randrange(self.work.mss)
        if kind < 0.2:
            self.send(time, way, begin, min(end + more, len(self.data[way])))
        elif kind < 0.4 and begin + more < end:
            self.send(time, way, begin, begin + more)
            self.send(time + 200, way, begin + more, end)
        else:
            self.send(time, way, begin, end)

    def receive(self, time, way, begin, end):
        early = self.early[way]
        heapq.heappush(early, (begin, end))
        while early and early[0][0] <= self.got[way]:
            self.got[way] = max(self.got[way], heapq.heappop(early)[1])
        if early or self.chance.random() < self.work.acks:
            self.acknowledge(time, 1 - way)
        messages, first = self.messages[way], self.heard[way]
        while self.heard[way] < len(messages) and messages[self.heard[way]].end <= self.got[way]:
            self.heard[way] += 1
        if self.heard[way] > first:
            (self.hear_requests, self.hear_replies)[way](time, messages[first:self.heard[way]])

    def acknowledge(self, time, way):
        if not self.wire.lost_before or self.chance.random() >= self.wire.lost_before:
            place = len(self.data[way])
            self.pass_by(max(time, self.ready[way]) + self.wire.delays[way], way, place, place, self.got[1 - way], ACK)

    # -- the client and the node

    def put(self, way, template, stream):
        message, frame = None, template.frame(stream)
        begin = self.messages[way][-1].end if self.messages[way] else 0
        message = Message(template, stream, self.data[way], begin, len(frame))
        self.messages[way].append(message)
        return message, frame

    def take_id(self):
        if self.work.ids == "least":
            if not self.free:
                self.free = list(range(len(self.open), len(self.open) + 64))
            return heapq.heappop(self.free)
        while self.next_id in self.open:
            self.next_id = (self.next_id + 1) % 32_768
        self.next_id = (self.next_id + 1) % 32_768
        return (self.next_id - 1) % 32_768

    def ask(self, time):
        """Asks until enough is in flight, in one write."""
        frames = []
        count, first = self.work.count + len(self.first), len(self.first)
        while self.asked < count and len(self.open) - self.ignored < (1 if self.asked <= first else self.work.in_flight):
            template = self.first[self.asked][0] if self.asked < len(self.first) else self.chance.choice(self.pool.requests)
            message, frame = self.put(CLIENT, template, self.take_id())
            self.open[message.stream] = message
            self.asked += 1
            frames.append(frame)
            if self.asked <= len(self.first):
                break
        if frames:
            self.write(time, CLIENT, b"".join(frames))

    def hear_requests(self, time, requests):
        tick = self.work.tick
        for request in requests:
            number = self.messages[CLIENT].index(request) if request.template.opcode in ("OPTIONS", "STARTUP", "PREPARE") else len(self.first)
            is_first = number < len(self.first)
            if not is_first and self.work.silent and self.chance.random() < self.work.silent:
                self.answered, self.ignored = self.answered + 1, self.ignored + 1
                if not self.end_if_done(time):
                    self.at(time + self.wire.delays[CLIENT], self.ask)
                continue
            due = (time + self.chance.randrange(self.work.took)) // tick * tick + tick
            if due not in self.due:
                self.due[due] = []
                self.at(due, self.answer)
            self.due[due].append((request, self.first[number][1] if is_first else self.reply()))

    def reply(self):
        return self.chance.choice(self.pool.large if self.chance.random() < self.work.large else self.pool.replies)

    def answer(self, time):
        if self.is_over:
            return
        frames = []
        for request, template in self.due.pop(time):
            request.partner, frame = self.put(NODE, template, request.stream)
            request.partner.partner = request
            frames.append(frame)
        if self.chance.random() < self.work.events:
            frames.append(self.put(NODE, event(), -1)[1])
        self.write(time, NODE, b"".join(frames))

    def hear_replies(self, time, replies):
        for reply in replies:
            if reply.stream >= 0:
                del self.open[reply.stream]
                self.answered += 1
                if self.work.ids == "least":
                    heapq.heappush(self.free, reply.stream)
        if not self.end_if_done(time) and self.asked < self.work.count + len(self.first):
            self.at(time + 1 + self.chance.randrange(self.work.think), self.ask)

    def end_if_done(self, time):
        if self.answered == self.work.count + len(self.first):
            self.at(time + 4 * RETRY, self.close)
        return self.answered == self.work.count + len(self.first)

    def last(self):
        return max(packet.time for packet in self.packets)

    def close(self, time):
        """Ends with a FIN of both, if all that was sent is there."""
        if self.got != [len(self.data[CLIENT]), len(self.data[NODE])]:
            self.at(time + RETRY, self.close)
            return
        here = max(time, self.last())
        asked, answered = map(len, self.data)
        self.packets.append(Packet(here + 10 * US, self, CLIENT, asked, asked, answered, FIN | ACK))
        self.packets.append(Packet(here + 20 * US, self, NODE, answered, answered, asked + 1, FIN | ACK))
        self.packets.append(Packet(here + 30 * US, self, CLIENT, asked + 1, asked + 1, answered + 1, ACK))

    def reset(self, time, way):
        """Ends with an RST of one end, in a reply that was begun."""
        self.is_over = True
        self.events.clear()
        message, frame = self.put(NODE, self.pool.large[0], next(iter(self.open), 0))
        message.partner = self.open.get(message.stream)
        if message.partner:
            message.partner.partner = message
        begin, here = len(self.data[NODE]), max(time, self.last())
        self.data[NODE].extend(frame[:self.work.mss])
        self.packets.append(Packet(here + 10 * US, self, NODE, begin, len(self.data[NODE]), self.got[CLIENT], ACK))
        place = len(self.data[way])
        self.packets.append(Packet(here + 20 * US, self, way, place, place, self.got[1 - way], RST))


# ---- what a capture shows

class Runs:
    """Which packet first carried each byte of a direction: parts that do not overlap, in order."""

    def __init__(self):
        self.begins, self.ends, self.packets = [], [], []

    def add(self, packet):
        begin, end = packet.begin, packet.end
        while begin < end:
            at = bisect.bisect_right(self.begins, begin)
            if at and self.ends[at - 1] > begin:
                begin = self.ends[at - 1]
                continue
            until = min(end, self.begins[at]) if at < len(self.begins) else end
            self.begins.insert(at, begin)
            self.ends.insert(at, until)
            self.packets.insert(at, packet)
            begin = until

    def of(self, begin, end):
        """The packets that carried these bytes, with the bytes that each carried; None for bytes that none did."""
        while begin < end:
            at = bisect.bisect_right(self.begins, begin)
            if at and self.ends[at - 1] > begin:
                until = min(end, self.ends[at - 1])
                yield begin, until, self.packets[at - 1]
            else:
                until = min(end, self.begins[at]) if at < len(self.begins) else end
                yield begin, until, None
            begin = until


class Shown:
    """What a capture shows of a message: is it seen, is it whole, and when its first and last byte came, where that is known."""
    __slots__ = ("is_seen", "is_whole", "begun", "ended")

    def __init__(self, is_seen, is_whole, begun, ended):
        self.is_seen, self.is_whole, self.begun, self.ended = is_seen, is_whole, begun, ended


class Capture:
    """The packets of some connections, sorted by their times, no two of which are equal; from a time on; and of each at most `snap` bytes."""

    def __init__(self, connections, snap=262_144, since=0, unit=1):
        self.connections, self.snap, self.unit = connections, snap, unit
        packets = sorted((packet for connection in connections for packet in connection.packets), key=lambda packet: packet.time)
        self.packets = [packet for packet in packets if packet.time >= START + since]
        latest = 0
        for packet in self.packets:
            packet.time = max(packet.time // unit * unit, latest + unit)
            latest = packet.time
        self.segments = [packet for packet in self.packets if packet.connection.headers <= snap]
        self.numbers, self.by_way, self.known = {}, collections.defaultdict(list), {}
        for packet in self.segments:
            self.numbers.setdefault(packet.connection, len(self.numbers) + 1)
            self.by_way[packet.connection, packet.way].append(packet)

    def captured(self, packet):
        """Where the captured bytes of a packet end in its direction."""
        return min(packet.end, packet.begin + self.snap - packet.connection.headers)

    def direction(self, connection, way):
        """The first byte that belongs to a direction in this capture, whether its SYN was seen, and its runs."""
        packets = [packet for packet in self.by_way[connection, way] if packet.begin < packet.end or packet.flags & (SYN | FIN)]
        if not packets:
            return None, False, Runs()
        has_syn, runs = bool(packets[0].flags & SYN), Runs()
        for packet in packets:
            runs.add(packet)
        return max(packets[0].begin, 0), has_syn, runs

    def shown(self, connection, way):
        """What is shown of each message of a direction, in order."""
        if (connection, way) not in self.known:
            first, is_known, runs = self.direction(connection, way)
            found = self.known[connection, way] = []
            for message in connection.messages[way]:
                found.append(self.show(message, first, is_known, runs))
                is_known = found[-1].is_seen
        return self.known[connection, way]

    def show(self, message, first, is_known, runs):
        """What is shown of a message, where the direction's first byte is this one, and it is known that a message begins there or not."""
        if first is None or message.begin < first:
            return Shown(False, False, None, None)
        parts = list(runs.of(message.begin, message.end))
        packet, last = parts[0][2], next((packet for _, _, packet in reversed(parts) if packet), None)
        begins = packet is not None and packet.begin == message.begin and self.captured(packet) >= message.begin + HEADER
        is_seen = (is_known or begins) and self.has(parts, message.begin + HEADER)
        is_short = message.end > len(message.data)
        return Shown(is_seen, self.has(parts, message.end), packet and packet.time, last and not is_short and last.time or None)

    def has(self, parts, end):
        """Whether all bytes of these parts before this one were captured."""
        return all(packet is not None and self.captured(packet) >= min(until, end) for begin, until, packet in parts if begin < end)

    # -- what has to be reported

    def objects(self):
        """The objects that --json is to write, and those that it may write in place of two of them: a request whose response was not captured with the response
        to a later request under its stream id that was not captured either, which nothing in the capture distinguishes."""
        due, doubtful = [], []
        for connection in self.numbers:
            seen = {}
            for way in (CLIENT, NODE):
                seen.update(zip(map(id, connection.messages[way]), self.shown(connection, way)))
            for request in connection.messages[CLIENT]:
                response = request.partner
                if seen[id(request)].is_seen:
                    due.append(self.object(connection, seen, request, response if response and seen[id(response)].is_seen else None))
            for response in connection.messages[NODE]:
                if seen[id(response)].is_seen and not (response.partner and seen[id(response.partner)].is_seen):
                    due.append(self.object(connection, seen, None, response))
            doubtful += self.doubts(connection, seen)
        return due, doubtful

    def doubts(self, connection, seen):
        waiting = {}
        for request in connection.messages[CLIENT]:
            response = request.partner
            if seen[id(request)].is_seen:
                waiting.pop(request.stream, None)
            if response and seen[id(response)].is_seen:
                earlier = waiting.pop(request.stream, None)
                if earlier:
                    alone = self.object(connection, seen, earlier, None), self.object(connection, seen, None, response)
                    yield self.object(connection, seen, earlier, response), alone
            elif seen[id(request)].is_seen:
                waiting[request.stream] = request

    def object(self, connection, seen, request, response):
        kind = "event" if response and response.stream < 0 else "exchange" if request and response else "unanswered" if request else "unasked"
        found = {"told": kind, "connection": self.numbers[connection], "stream": (request or response).stream}
        found["client"], found["node"] = map(end_text, connection.ends)
        for side, message in (("request", request), ("response", response)):
            if message:
                is_whole = seen[id(message)].is_whole
                found.update({side: message.template.opcode, f"{side}_bytes": message.end - message.begin, f"{side}_is_whole": is_whole})
                found.update({key: value for key, value in message.template.facts.items() if is_whole})
        begun = seen[id(request or response)].begun
        found["time"], found["utc"] = begun - self.segments[0].time, utc(begun)
        if kind == "exchange" and seen[id(response)].ended is not None:
            found["took"] = seen[id(response)].ended - begun
        return found

    def is_whole(self):
        """Whether nothing of these connections is missing."""
        return all(shown.is_seen and shown.is_whole for connection in self.connections for way in (CLIENT, NODE) for shown in self.shown(connection, way))

    def bytes_of(self, connection, way):
        """The captured bytes of a direction, and its gaps: where they begin, from its first byte on, and how long they are."""
        first, _, runs = self.direction(connection, way)
        found, gaps = bytearray(), []
        fin = [packet.begin for packet in self.by_way[connection, way] if packet.flags & FIN]
        for begin, until, packet in runs.of(first or 0, max([first or 0, *fin, *runs.ends[-1:]])):
            kept = begin if packet is None else max(begin, min(until, self.captured(packet)))
            found += connection.data[way][begin:kept]
            if kept < until and gaps and sum(gaps[-1]) == kept - first:
                gaps[-1][1] += until - kept
            elif kept < until:
                gaps.append([kept - first, until - kept])
        return bytes(found), gaps

    # -- the file

    def write(self, path, places=0, chance=None, shift=0):
        """Writes a pcap file, in which each packet is less than so many places from where it belongs."""
        packets = self.packets
        if places:
            order = sorted(range(len(packets)), key=lambda i: i + chance.uniform(0, places))
            packets = [packets[i] for i in order]
        with open(path, "wb", buffering=1 << 20) as file:
            file.write(struct.pack("<IHHiIII", 0xA1B23C4D if self.unit == 1 else 0xA1B2C3D4, 2, 4, 0, 0, self.snap, 1))
            file.writelines(self.record(packet) for packet in packets)

    def record(self, packet):
        time, connection = packet.time, packet.connection
        source, target = connection.ends if packet.way == CLIENT else connection.ends[::-1]
        payload = connection.data[packet.way][packet.begin:packet.end] if packet.begin < packet.end else b""
        length = connection.headers + len(payload)
        kept, own, other = min(length, self.snap), connection.isn[packet.way], connection.isn[1 - packet.way]
        acknowledged = (other + 1 + packet.seen) & 0xFFFFFFFF if packet.flags & ACK else 0
        head = struct.pack(
            ">12sHBBHHHBBHIIHHIIBBHHH", b"\2\0\0\0\0\1\2\0\0\0\0\2", 0x0800, 0x45, 0, length - 14, 0, 0x4000, 64, 6, 0, source[0], target[0],
            source[1], target[1], (own + 1 + packet.begin) & 0xFFFFFFFF, acknowledged, (connection.headers - 34) // 4 << 4, packet.flags, 65_535, 0, 0)
        head += b"\1\1\x08\x0a\0\0\0\1\0\0\0\2"[:connection.headers - 54]
        return struct.pack("<IIII", time // (1_000 * MS), time % (1_000 * MS) // self.unit, kept, length) + (head + payload)[:kept]
