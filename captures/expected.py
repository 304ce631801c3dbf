#!/usr/bin/env python3
"""expected.py <lines.txt >said.txt, in this folder: what is to be said of captures and frames, by Python's struct and by nothing of this
repository; and so said.txt of lines.txt in dist/package/tests/packets. To add a capture, add its line, and what this, or you by hand, say of it.

data has a capture that tcpdump took on a loopback interface while a released driver spoke to a small server; the same with its numbers the other
way round, with times in nanoseconds, with packets cut at 96 bytes, with a tag of a virtual network, with segments that come twice, in another
order, with bytes of the one before, or not at all, and with its beginning or its end missing; and one that was taken on all interfaces. One is
the same in pcapng, and has to give the same packets. The files of requests and responses are the bytes of each connection as the sockets saw
them, with which this compares."""
import itertools
import re
import struct
import sys

LIMIT = 1048576
INTERFACES = 256
FORMS = {
    bytes.fromhex('a1b2c3d4'): ('>', 'BigEndian', 'Microseconds', 1000),
    bytes.fromhex('d4c3b2a1'): ('<', 'LittleEndian', 'Microseconds', 1000),
    bytes.fromhex('a1b23c4d'): ('>', 'BigEndian', 'Nanoseconds', 1),
    bytes.fromhex('4d3cb2a1'): ('<', 'LittleEndian', 'Nanoseconds', 1),
}


def sum_of(data):
    total = 0
    for byte in data:
        total = (total * 31 + byte) & 0xffffffff
    return total


class No(Exception):
    """Why a packet has no segment."""


def want(condition, why):
    if not condition:
        raise No(why)


def ip_of(link, packet):
    """The version of IP, and the packet from its header on."""
    if link in (0, 108):
        want(len(packet) >= 4, 'CutInLink')
        families = {2: 4, 24: 6, 28: 6, 30: 6}
        found = families.get(struct.unpack_from('>I', packet)[0])
        if link == 0:
            found = found or families.get(struct.unpack_from('<I', packet)[0])
        want(found, 'NotIp')
        return found, packet[4:]
    if link in (228, 229):
        return 4 if link == 228 else 6, packet
    if link in (12, 14, 101):
        return with_version(packet)
    type_at, length = {1: (12, 14), 113: (14, 16), 276: (0, 20)}.get(link, (0, 0))
    want(length, 'UnknownLink')
    return after_header(packet, type_at, length)


def with_version(packet):
    want(packet, 'CutInIp')
    want(packet[0] >> 4 in (4, 6), 'NotIp')
    return packet[0] >> 4, packet


def after_header(packet, type_at, length):
    want(len(packet) >= length, 'CutInLink')
    return after_type(struct.unpack_from('>H', packet, type_at)[0], packet[length:])


def after_type(kind, rest):
    """Tags, labels (RFC 3032), a session (RFC 2516)."""
    while kind in (0x8100, 0x88a8, 0x9100):
        want(len(rest) >= 4, 'CutInLink')
        kind, rest = struct.unpack_from('>H', rest, 2)[0], rest[4:]
    if kind in (0x8847, 0x8848):
        is_last = False
        while not is_last:
            want(len(rest) >= 4, 'CutInLink')
            is_last, rest = rest[2] & 1, rest[4:]
        return with_version(rest)
    if kind == 0x8864:
        want(len(rest) >= 8, 'CutInLink')
        form, code, _, _, protocol = struct.unpack_from('>BBHHH', rest)
        kind = {0x21: 0x800, 0x57: 0x86dd}.get(protocol, 0) if (form, code) == (0x11, 0) else 0
        rest = rest[8:]
    want(kind in (0x800, 0x86dd), 'NotIp')
    return 4 if kind == 0x800 else 6, rest


def inside(protocol, size, data):
    """The packet of IP in a tunnel: IP, GRE (RFC 2784 and 2890), VXLAN (RFC 7348)."""
    carried = min(size, len(data))
    if protocol in (4, 41):
        return 4 if protocol == 4 else 6, data
    if protocol == 17 and carried >= 4 and struct.unpack_from('>H', data, 2)[0] == 4789:
        want(carried >= 16, 'CutInTunnel')
        want(data[8] & 8, 'NotTcp')
        return after_header(data[16:], 12, 14)
    want(protocol == 47, 'NotTcp')
    want(carried >= 4, 'CutInTunnel')
    flags, version, kind = struct.unpack_from('>BBH', data)
    want(not flags & 0x40 and version & 7 == 0, 'NotTcp')
    header = 4 + sum(4 for flag in (0x80, 0x20, 0x10) if flags & flag)
    want(carried >= header, 'CutInTunnel')
    return after_header(data[header:], 12, 14) if kind == 0x6558 else after_type(kind, data[header:])


def content_4(ip, beyond):
    want(len(ip) >= 20, 'CutInIp')
    want(ip[0] >> 4 == 4, 'NotIp')
    header = (ip[0] & 15) * 4
    total, _, fragment = struct.unpack_from('>HHH', ip, 2)
    total = total or len(ip) + beyond
    want(header >= 20 and total >= header, 'BadIpLength')
    want(fragment & 0x3fff == 0, 'Fragment')
    want(len(ip) >= header, 'CutInIp')
    return ip[12:16], ip[16:20], ip[9], total - header, ip[header:]


def content_6(ip, beyond):
    want(len(ip) >= 40, 'CutInIp')
    want(ip[0] >> 4 == 6, 'NotIp')
    size, kind = struct.unpack_from('>HB', ip, 4)
    rest = ip[40:]
    size = size or len(rest) + beyond
    while kind in (0, 43, 44, 51, 60):
        want(len(rest) >= 2, 'CutInIp')
        length = {44: 8, 51: (rest[1] + 2) * 4}.get(kind, (rest[1] + 1) * 8)
        want(length <= size, 'BadIpLength')
        want(length <= len(rest), 'CutInIp')
        want(kind != 44 or struct.unpack_from('>H', rest, 2)[0] & 0xfff9 == 0, 'Fragment')
        kind, size, rest = rest[0], size - length, rest[length:]
    return ip[8:24], ip[24:40], kind, size, rest


def segment(link, packet, original):
    beyond = max(original - len(packet), 0)
    try:
        version, ip = ip_of(link, packet)
        for _ in range(5):
            source, target, protocol, size, tcp = (content_4 if version == 4 else content_6)(ip, beyond)
            if protocol == 6:
                break
            version, ip = inside(protocol, size, tcp)
        want(protocol == 6, 'TooManyTunnels')
        want(size >= 20, 'BadTcpLength')
        want(len(tcp) >= 20, 'CutInTcp')
        header = (tcp[12] >> 4) * 4
        want(20 <= header <= size, 'BadTcpLength')
        want(len(tcp) >= header, 'CutInTcp')
    except No as why:
        return f'no segment {why}'
    ports = struct.unpack_from('>HH', tcp)
    numbers = struct.unpack_from('>II', tcp, 4)
    flags = ''.join(letter if tcp[13] & bit else '-' for letter, bit in (('S', 2), ('F', 1), ('R', 4), ('A', 16)))
    payload = tcp[header:size]
    return (f'segment V{version}({list(source)}) {ports[0]} V{version}({list(target)}) {ports[1]} {numbers[0]} {numbers[1]} {flags}'
            f' payload {len(payload)} at {len(packet) - len(tcp) + header} sum {sum_of(payload)} missing {size - header - len(payload)}')


def padded(size):
    return (size + 3) // 4 * 4


def interface(order, body, room):
    """The link type, the snap length, how many units a second has and how many seconds are added; and why its times cannot be read, if so.
    None where the file ends before that is known."""
    if len(body) < 8:
        return None
    link, _, snap = struct.unpack_from(order + 'HHI', body)
    units, seconds, at = 10**6, 0, 8
    while at + 4 <= room:
        if len(body) < at + 4:
            return None
        code, size = struct.unpack_from(order + 'HH', body, at)
        if code == 0:
            break
        if at + 4 + padded(size) > room or size != {9: 1, 14: 8}.get(code, size):
            return link, snap, None, 0, 'BadOptionLength'
        if len(body) < at + 4 + padded(size):
            return None
        value = body[at + 4:at + 4 + size]
        if code == 9:
            if value[0] > 9:
                return link, snap, None, 0, 'UnknownTimeUnit'
            units = 10**value[0]
        if code == 14:
            seconds, = struct.unpack(order + 'q', value)
            if seconds < 0:
                return link, snap, None, 0, 'NegativeTimeOffset'
        at += 4 + padded(size)
    return link, snap, units, seconds, None


def said_of_blocks(file, limit, most):
    lines, at, order, known = [], 0, None, []
    while at < len(file):
        left = len(file) - at
        cut = lines + [f'cut at {at} after {len(file)}']
        kind = file[at:at + 4]
        is_section = kind == bytes.fromhex('0a0d0d0a')
        if left < (24 if is_section else 8):
            return cut
        if is_section:
            order = {'1a2b3c4d': '>', '4d3c2b1a': '<'}.get(file[at + 8:at + 12].hex())
            if not order:
                return lines + [f'{at + 8} UnknownByteOrder']
        kind, length = struct.unpack_from(order + 'II', file, at)
        least = 28 if is_section else {1: 20, 2: 32, 3: 16, 6: 32}.get(kind, 12)
        if length % 4 or length < (least if is_section or kind == 1 else 12):
            return lines + [f'{at + 4} BadBlockLength']
        body, end = file[at + 8:min(at + length - 4, len(file))], at + length - 4
        room = end - at - 8
        if is_section:
            if struct.unpack_from(order + 'HH', file, at + 12) not in ((1, 0), (1, 2)):
                return lines + [f'{at + 12} UnknownVersion']
            lines.append(f"{at} section {'BigEndian' if order == '>' else 'LittleEndian'} pcapng")
            known = []
        elif kind == 1:
            found = interface(order, body, room)
            if found and found[4]:
                lines.append(f'{at} skipped {found[4]}')
        elif length < least:
            lines.append(f'{at} skipped ShortBlock')
        elif kind in (2, 3, 6):
            start = 12 if kind == 3 else 28
            if left < start:
                return cut
            form = {2: 'HHIIII', 3: 'I', 6: 'IIIII'}[kind]
            *numbers, original = struct.unpack_from(order + form, body)
            number = numbers[0] if numbers else 0
            link, snap, units, seconds, _ = known[number] if number < len(known) else (0, 0, 0, 0, None)
            when, why = 'no time', None if number < len(known) else 'UnknownInterface'
            if kind == 3:
                captured = min(room - 4, original, snap or original)
            else:
                high, low, captured = numbers[-3:]
                time = (high * 2**32 + low) * (10**9 // (units or 1)) + seconds * 10**9
                when = f'{time} ns'
                why = why or (units is None and 'UnreadInterface') or (time >= 2**64 and 'TimeTooLarge')
                why = why or (captured > room - 20 and 'PacketBeyondBlock')
            why = why or (captured > limit and 'PacketTooLong')
            if why:
                lines.append(f'{at} skipped {why}')
            else:
                lines.append(f'{at} packet of {number} at {when} captured {captured} of {original}')
                data = file[at + start:at + start + captured]
                if len(data) < captured:
                    return lines + [f'cut at {at} after {len(file)}']
                lines.append(f'{at + start} data {captured} sum {sum_of(data)}')
                lines.append(segment(link, data, original))
        if left < length:
            return lines + [f'cut at {at} after {len(file)}']
        if struct.unpack_from(order + 'I', file, end)[0] != length:
            return lines + [f'{end} UnequalBlockLengths']
        if kind == 1 and not is_section:
            if len(known) == most:
                lines.append(f'{at} skipped TooManyInterfaces')
            else:
                lines.append(f'{at} interface {len(known)} link {found[0]} snap {found[1]}')
                known.append(found)
        at += length
    return lines + [f'whole {len(file)}']


def said(file, limit=LIMIT, most=INTERFACES):
    if file[:4] == bytes.fromhex('0a0d0d0a'):
        return said_of_blocks(file, limit, most)
    if len(file) < 4:
        return [f'cut at 0 after {len(file)}']
    if file[:2] == bytes.fromhex('1f8b'):
        return ['0 Gzip']
    if file[:4] not in FORMS:
        return ['0 UnknownMagic']
    order, name, fraction, unit = FORMS[file[:4]]
    lines = [f'0 section {name} {fraction}']
    if len(file) < 24:
        return lines + [f'cut at 0 after {len(file)}']
    major, minor, _, _, snap, link = struct.unpack_from(order + 'HHIIII', file, 4)
    if (major, minor) != (2, 4):
        return lines + ['4 UnknownVersion']
    lines.append(f'4 interface 0 link {link & 0xffff} snap {snap}')
    at = 24
    while at < len(file):
        if len(file) < at + 16:
            return lines + [f'cut at {at} after {len(file)}']
        seconds, part, captured, original = struct.unpack_from(order + 'IIII', file, at)
        if captured > limit:
            lines.append(f'{at} skipped PacketTooLong')
            if len(file) < at + 16 + captured:
                return lines + [f'cut at {at} after {len(file)}']
            at += 16 + captured
            continue
        time = seconds * 10**9 + part * unit
        lines.append(f'{at} packet of 0 at {time} ns captured {captured} of {original}')
        data = file[at + 16:at + 16 + captured]
        if len(data) < captured:
            return lines + [f'cut at {at} after {len(file)}']
        lines.append(f'{at + 16} data {captured} sum {sum_of(data)}')
        lines.append(segment(link & 0xffff, data, original))
        at += 16 + captured
    return lines + [f'whole {len(file)}']


def segments_of(file):
    """Of each segment of TCP in a capture its ends, numbers, flags and payload, by the lines that are said of it."""
    for line in said(file):
        words = line.split()
        if words[1:2] == ['data']:
            at, captured = int(words[0]), int(words[2])
            packet = file[at:at + captured]
        elif words[0] == 'segment':
            tail = line[line.rindex(')') + 2:].split()
            _, sequence, _, flags, _, length, _, offset, _, _, _, missing = tail
            ends = re.match(r'segment (\S+\(.*?\)) (\d+) (\S+\(.*?\)) (\d+) ', line).groups()
            offset, length = int(offset), int(length)
            yield (ends[:2], ends[2:], int(sequence), flags, packet[offset:offset + length], int(missing))


def directions_of(file):
    """Of each direction what its stream has to report: from the first byte on the bytes that the first segment carried, and between them
    what was lost, and what that segment's packet was cut before."""
    directions = {}
    for at, (source, target, sequence, flags, payload, missing) in enumerate(segments_of(file)):
        d = directions.setdefault((source, target), {'ports': f'{source[1]} {target[1]}', 'first': None, 'bytes': {}, 'fin': None, 'segments': 0})
        d['segments'] += 1
        d['last'] = at
        if 'S' in flags:
            sequence += 1
        if d['first'] is None and ('S' in flags or 'F' in flags or payload or missing):
            d['first'], d['syn'] = sequence, 'S' in flags
        if d['first'] is None:
            continue
        place = (sequence - d['first'] + 2**31) % 2**32 - 2**31
        for i in range(len(payload) + missing):
            d['bytes'].setdefault(place + i, payload[i] if i < len(payload) else None)
        if 'F' in flags and d['fin'] is None:
            d['fin'] = place + len(payload) + missing
    for d in directions.values():
        if d['first'] is None:
            d['report'], d['data'] = 'bytes 0 sum 0', b''
            continue
        end = max(d['bytes'], default=-1) + 1 if d['fin'] is None else d['fin']
        holds = [d['bytes'].get(place, 'lost') for place in range(end)]
        data = bytes(byte for byte in holds if isinstance(byte, int))
        after = (['ended'] if d['fin'] is not None else []) + [f'bytes {len(data)} sum {sum_of(data)}']
        before = [f"began {str(d['syn']).lower()}"]
        d['report'] = ' '.join(before + gaps_in(['gap' if byte == 'lost' else 'cut' if byte is None else None for byte in holds]) + after)
        d['data'] = data
    return directions


def gaps_in(places):
    """For each run of a word its length and where it begins."""
    words = []
    for word, run in itertools.groupby(range(len(places)), places.__getitem__):
        run = list(run)
        if word:
            words.append(f'{word} {len(run)} at {run[0]}')
    return words


def streams(name, file):
    """A line for each direction."""
    directions = directions_of(file)
    if name in WHOLE:
        for i, d in enumerate(directions.values()):
            side = 'responses' if i % 2 else 'requests'
            stem = name.split('.')[0] if 'sll2' in name else 'driver'
            assert d['data'] == open(f'data/{stem}.{i // 2}.{side}.bin', 'rb').read(), (name, i)
    return [f"{d['ports']} {d['report']}" for d in directions.values()]


def connections(port, file):
    """Two lines for each connection with a node that listens on this port, that one first which was silent longest at the end."""
    directions, pairs, foreign = directions_of(file), [], 0
    for (source, target), d in directions.items():
        own, other = d['ports'].split()
        if port not in (own, other):
            foreign += d['segments']
        elif not any((target, source) in pair for pair in pairs):
            pairs.append([(source, target), (target, source)] if other == port else [(target, source), (source, target)])
    nothing = {'report': 'bytes 0 sum 0', 'segments': 0, 'last': -1}
    lines = []
    for number, pair in sorted(enumerate(pairs, 1), key=lambda one: max(directions.get(ends, nothing)['last'] for ends in one[1])):
        for way, ends in zip(('requests', 'responses'), pair):
            d = directions.get(ends, nothing)
            lines.append(f"{number} {way} {d['report']} segments {d['segments']}")
    return lines + [f'connections {len(pairs)} crowded 0 foreign {foreign}']


OPCODES = {0: 'Error', 1: 'Startup', 2: 'Ready', 3: 'Authenticate', 5: 'Options', 6: 'Supported', 7: 'Query', 8: 'Result', 9: 'Prepare',
           10: 'Execute', 11: 'Register', 12: 'Event', 13: 'Batch', 14: 'AuthChallenge', 15: 'AuthResponse', 16: 'AuthSuccess'}
REQUESTS = {1, 5, 7, 9, 10, 11, 13, 15}


def timed_segments_of(file):
    """The segments of a capture, each with the time of its packet and its number of acknowledgement."""
    times, numbers = [], []
    for line in said(file):
        words = line.split()
        if words[1:2] == ['packet']:
            time = int(words[5])
        elif words[0] == 'segment':
            times.append(time)
            numbers.append(int(line[line.rindex(')') + 2:].split()[2]))
    return zip(times, numbers, segments_of(file))


def header_of(data, responses):
    """The opcode, stream id, length and flags of nine bytes that are a header of this direction, compressed or not."""
    if len(data) < 9:
        return None
    version, flags, stream, opcode, length = struct.unpack('>BBhBI', data[:9])
    lawful = version == (0x84 if responses else 0x04) and opcode in OPCODES and (opcode not in REQUESTS) == responses
    return (opcode, stream, length, flags) if lawful and length <= 2**28 else None


class Side:
    """One direction of a connection: its bytes in order, its gaps, and its frames."""

    def __init__(self, responses):
        self.responses, self.first, self.next, self.early, self.fin = responses, None, 0, {}, None
        self.lost, self.head, self.frame = True, b'', None

    def place(self, number):
        return (number - self.first + 2**31) % 2**32 - 2**31

    def hear(self, data, time, begins):
        """The frames that end in these bytes."""
        while True:
            if self.frame and not self.frame['left']:
                yield self.over()
            if not data:
                return
            if self.frame:
                part, data = data[:self.frame['left']], data[self.frame['left']:]
                self.frame['left'] -= len(part)
                self.frame['ended'] = time
                if self.frame['whole']:
                    self.frame['body'] += part
                self.next += len(part)
            elif self.lost:
                if begins and header_of(data, self.responses):
                    self.lost = False
                    continue
                self.next += len(data)
                return
            else:
                if not self.head:
                    self.at, self.begun = self.next, time
                part = data[:9 - len(self.head)]
                self.head, data, self.next = self.head + part, data[len(part):], self.next + len(part)
                if len(self.head) == 9:
                    found, self.head = header_of(self.head, self.responses), b''
                    self.lost = not found
                    if found:
                        opcode, stream, length, flags = found
                        self.frame = {'opcode': opcode, 'flags': flags, 'stream': stream, 'length': length, 'at': self.at, 'begun': self.begun, 'ended': time, 'whole': True, 'extent': '', 'left': length, 'body': b''}
            begins = False

    def over(self):
        frame, self.frame = self.frame, None
        return frame

    def gap(self, length, time):
        """Bytes that were not captured; those that a packet was cut before passed at this time."""
        frame, self.head = self.frame, b''
        self.next += length
        if frame:
            is_over = length >= frame['left']
            frame['extent'], frame['whole'] = 'holed', False
            frame['ended'] = time if is_over and time is not None else frame['ended']
            self.lost, frame['left'] = length > frame['left'], max(frame['left'] - length, 0)
            return [self.over()] if is_over else []
        self.lost = True
        return []


class Short(Exception):
    """The body ends early, or the reading gives up."""


class Body:
    """Bytes of a body, read from left to right."""

    def __init__(self, data):
        self.data, self.at = data, 0

    def take(self, size):
        if len(self.data) < self.at + size:
            self.at = len(self.data)
            raise Short
        self.at += size
        return self.data[self.at - size:self.at]

    def number(self, size, signed=False):
        return int.from_bytes(self.take(size), 'big', signed=signed)

    def string(self):
        return self.take(self.number(2))

    def content(self, least):
        """A content after its length, which may be negative down to some number."""
        size = self.number(4, True)
        if size < least:
            raise Short
        self.take(max(size, 0))

    def type(self, depth, more):
        """A type, after which more is to come, or not, of what lies within so many UDTs of which more is to come. There may be three of these."""
        kind = self.number(2)
        if kind == 0:
            self.string()
        elif kind in (0x20, 0x22):
            self.type(depth, more)
        elif kind == 0x21:
            self.type(depth, True), self.type(depth, more)
        elif kind == 0x30:
            self.string(), self.string()
            count = self.number(2)
            if more and depth == 3:
                raise Short
            for i in range(count):
                self.string(), self.type(depth + more, i < count - 1)
        elif kind == 0x31:
            count = self.number(2)
            for i in range(count):
                self.type(depth, more or i < count - 1)
        elif kind > 0x14 or kind == 0x0A:
            raise Short


def read_request(body, kind, said):
    """Sections 4.1.4 to 4.1.7."""
    if kind == 'Batch':
        body.take(1)
        for _ in range(body.number(2)):
            entry = body.number(1)
            if entry > 1:
                raise Short
            body.string() if entry else body.content(0)
            for _ in range(body.number(2)):
                body.content(-2)
        said['consistency'] = body.number(2)
        return
    body.string() if kind == 'Execute' else body.content(0)
    said['consistency'] = body.number(2)
    flags = body.number(1)
    said['next'] = 'true' if flags & 8 else 'false'
    if flags & 1:
        for _ in range(body.number(2)):
            if flags & 0x40:
                body.string()
            body.content(-2)
    if flags & 4:
        said['page'] = body.number(4, True)


def read_result(body, said):
    """Sections 4.2.5 and 4.2.5.2."""
    said['result'] = body.number(4)
    if said['result'] != 2:
        return
    flags = body.number(4)
    said['more'] = 'true' if flags & 2 else 'false'
    columns = body.number(4, True)
    if columns < 0:
        raise Short
    said['columns'] = columns
    if flags & 2:
        body.content(-2**31)
    if not flags & 4:
        if flags & 1:
            body.string(), body.string()
        for i in range(columns):
            for _ in range(1 if flags & 1 else 3):
                body.string()
            body.type(0, i < columns - 1)
    rows = body.number(4, True)
    if rows >= 0:
        said['rows'] = rows


def facts(frame):
    """How many bytes of a body come before the message proper (section 2.2), and what the body says beside its first field."""
    kind, flags, said = OPCODES[frame['opcode']], frame['flags'], {}
    body, is_response, before = Body(frame['body']), frame['opcode'] not in REQUESTS, None
    try:
        if not flags & 1:
            if is_response and flags & 2:
                said['trace'] = sum_of(body.take(16))
            if is_response and flags & 8:
                said['warnings'] = body.number(2)
                for _ in range(said['warnings']):
                    body.string()
            if flags & 4:
                for _ in range(body.number(2)):
                    body.string(), body.content(-2**31)
            before = body.at
            if kind in ('Query', 'Execute', 'Batch'):
                read_request(body, kind, said)
            elif kind == 'Error':
                said['error'] = body.number(4)
            elif kind == 'Result':
                read_result(body, said)
        else:
            before = 0
    except Short:
        before = len(frame['body']) if before is None else before
    names = ('consistency', 'page', 'next', 'trace', 'warnings', 'result', 'error', 'more', 'columns', 'rows')
    return before, ''.join(f' {name} {said[name]}' for name in names if name in said)


def front(frame):
    """The first bytes of the message proper."""
    return frame['body'][facts(frame)[0]:][:256]


def growing(file):
    """What is said of a frame's body as it grows, where that is something new, and of all of it."""
    opcode, stream, length, flags = header_of(file, file[0] == 0x84)
    last = ''
    for size in range(length + 1):
        before, said = facts({'opcode': opcode, 'flags': flags, 'body': file[9:9 + size]})
        if said != last or size == length:
            yield f'{size}: before {before}{said}'
        last = said


def subject(frame):
    """The text of a QUERY or PREPARE, the id of an EXECUTE, the code of an ERROR or the kind of a RESULT."""
    kind, body = OPCODES[frame['opcode']], front(frame)
    if frame['flags'] & 1:
        return ''
    if kind in ('Query', 'Prepare') and len(body) >= 4:
        size = struct.unpack_from('>i', body)[0]
        if 0 <= size <= len(body) - 4:
            return ' text "' + body[4:4 + size].decode().replace('\\', '\\\\').replace('"', '\\"') + '"'
    if kind == 'Execute' and len(body) >= 2:
        size = struct.unpack_from('>H', body)[0]
        if size <= len(body) - 2:
            return f' id {sum_of(body[2:2 + size])}'
    if kind in ('Error', 'Result') and len(body) >= 4:
        return f" int {struct.unpack_from('>i', body)[0]}"
    return ''


def names_of(number, frame):
    """A message of an exchange."""
    cut = f" {frame['extent']}" if frame['extent'] else ''
    return (f"{frame['stream']} {OPCODES[frame['opcode']]} {frame['length']} at {frame['at']}{cut} from {frame['begun']} to {frame['ended']}"
            f" kept {sum_of(front(frame))}{subject(frame)}{facts(frame)[1]}")


class Watched:
    """A connection: its two sides, and the messages that wait, at most so many, by stream id."""

    def __init__(self, number, limit, lines):
        self.number, self.limit, self.lines, self.sides, self.waiting = number, limit, lines, (Side(False), Side(True)), {}

    def alone(self, frame):
        what = 'unanswered' if frame['opcode'] in REQUESTS else 'unasked'
        self.lines.append(f'{self.number} {what} {names_of(self.number, frame)}')

    def pair(self, side, frames):
        """A response is that to the request under its id, also where that comes after it in the capture but was sent before it."""
        for frame in frames:
            if side.responses and OPCODES[frame['opcode']] == 'Event' and frame['stream'] < 0:
                self.lines.append(f'{self.number} event {names_of(self.number, frame)}')
                continue
            before = self.waiting.pop(frame['stream'], None)
            if before:
                request, response = (before, frame) if side.responses else (frame, before)
                is_reply = request['opcode'] in REQUESTS and response['opcode'] not in REQUESTS
                if is_reply and (side.responses or request['begun'] <= response['begun']):
                    self.lines.append(f'{self.number}:{names_of(self.number, request)} -> {names_of(self.number, response)}')
                    continue
                self.alone(before)
            elif len(self.waiting) == self.limit:
                self.alone(frame)
                continue
            self.waiting[frame['stream']] = frame

    def settle(self, side, acknowledged):
        """Hands on what came, byte by byte those that one packet carried, and the gaps: what a packet was cut before, and what no segment carried before
        this number, which the other side acknowledged."""
        way = 'responses' if side.responses else 'requests'
        while side.early or side.fin is not None and side.next < side.fin:
            if side.next not in side.early:
                later = min(side.early, default=side.fin)
                if acknowledged is not None and acknowledged < later:
                    return
                self.lines.append(f'{self.number} {way} gap {later - side.next} at {side.next}')
                self.pair(side, side.gap(later - side.next, None))
                continue
            _, time, place = side.early[side.next]
            begins, run = place == side.next, []
            while side.next + len(run) in side.early and side.early[side.next + len(run)][1:] == (time, place):
                run.append(side.early.pop(side.next + len(run))[0])
            data = bytes(byte for byte in run if byte is not None)
            if data:
                self.pair(side, side.hear(data, time, begins))
            if len(data) < len(run):
                self.lines.append(f'{self.number} {way} cut {len(run) - len(data)} at {side.next}')
                self.pair(side, side.gap(len(run) - len(data), time))

    def take(self, own, time, sequence, flags, payload, missing):
        """A segment of a side."""
        if 'S' in flags:
            sequence += 1
        if own.first is None:
            if not ('S' in flags or 'F' in flags or payload or missing):
                return
            own.first, own.lost = sequence, 'S' not in flags
        place = own.place(sequence)
        for i in range(len(payload) + missing):
            if place + i >= own.next:
                own.early.setdefault(place + i, (payload[i] if i < len(payload) else None, time, place))
        if 'F' in flags and own.fin is None:
            own.fin = place + len(payload) + missing
        self.settle(own, -1)

    def finish(self):
        for side in self.sides:
            self.settle(side, None)
        for side in self.sides:
            if side.frame:
                side.frame['extent'] = 'short' if side.frame['left'] else side.frame['extent']
                self.pair(side, [side.over()])
        for stream in sorted(self.waiting):
            self.alone(self.waiting[stream])


def exchanges(port, limit, file):
    """A line for each exchange, and for each message that is in none. A byte has the time of the packet that carried it first."""
    pairs, lines = {}, []
    for time, number, (source, target, sequence, flags, payload, missing) in timed_segments_of(file):
        if port not in (source[1], target[1]):
            continue
        ends = (target, source) if source[1] == port else (source, target)
        watched = pairs.pop(ends, None) or Watched(len(pairs) + 1, limit, lines)
        pairs[ends] = watched
        own, other = watched.sides if source[1] != port else watched.sides[::-1]
        if 'A' in flags and other.first is not None:
            watched.settle(other, other.place(number))
        watched.take(own, time, sequence, flags, payload, missing)
    for watched in pairs.values():
        watched.finish()
    return lines


# the same packets in both formats
def packets(name):
    return [line.split(' ', 1)[1] for line in said(open(f'data/{name}', 'rb').read()) if line.split()[1:2] in (['packet'], ['data'])]


assert packets('driver.pcapng') == packets('driver.pcap') and len(packets('driver.pcap')) == 110

# captures in which no byte is missing: the streams' bytes are what the sockets saw
WHOLE = {f'driver{kind}' for kind in ('.pcap', '.pcapng', '-big-endian.pcap', '-ns.pcap', '-vlan.pcap', '-sll2.pcap', '-twice.pcap', '-swapped.pcap', '-overlap.pcap', '-cut.pcap')}

# what has to be reported of these, in which it matters when a segment comes
BY_HAND = {
    'numbers that wrap': [
        f"40000 9042 began true gap 3 at 10 ended bytes 12 sum {sum_of(b'abcdefghijno')}",
        f"9042 40000 began true reset bytes 3 sum {sum_of(b'but')}",
    ],
    'segments without room': [
        f"40000 9042 began true gap 100 at 0 gap 65595 at 105 bytes 11 sum {sum_of(b'earlybeyond')}",
    ],
}

# and of these, in which connections leave
CONNECTIONS_BY_HAND = {
    'a SYN again, and another': [
        '1 leaves, full false',
        f"1 requests began true bytes 5 sum {sum_of(b'first')} segments 3",
        f"1 responses began true bytes 6 sum {sum_of(b'answer')} segments 3",
        f"2 requests began true gap 3 at 6 bytes 10 sum {sum_of(b'secondlate')} segments 3",
        f"2 responses began true reset bytes 2 sum {sum_of(b'ok')} segments 4",
        'connections 2 crowded 0 foreign 0',
    ],
    'a node that asks another': [
        f"2 requests began false bytes 4 sum {sum_of(b'then')} segments 1",
        f"2 responses began false bytes 15 sum {sum_of(b'from the middle')} segments 1",
        f"1 requests began true bytes 3 sum {sum_of(b'ask')} segments 2",
        f"1 responses began true ended bytes 5 sum {sum_of(b'reply')} segments 3",
        'connections 2 crowded 0 foreign 1',
    ],
    'a full table': [
        '1 leaves, full true',
        f"1 requests began true gap 2 at 3 bytes 8 sum {sum_of(b'oneearly')} segments 3",
        '1 responses bytes 0 sum 0 segments 0',
        f"3 requests began true bytes 5 sum {sum_of(b'three')} segments 2",
        '3 responses bytes 0 sum 0 segments 0',
        f"2 requests began true bytes 4 sum {sum_of(b'two!')} segments 3",
        '2 responses bytes 0 sum 0 segments 0',
        'connections 3 crowded 1 foreign 0',
    ],
}

for line in sys.stdin:
    of_streams, small = line.startswith('streams '), line.startswith('small ')
    of_connections = line.startswith('connections ')
    of_exchanges = line.startswith('exchanges ')
    of_facts = line.startswith('facts ')
    name, digits = line.rstrip('\n').removeprefix('streams ').removeprefix('small ').removeprefix('facts '), None
    if of_exchanges:
        _, limit, port, connections_limit, early, name = name.split(' ', 5)
    if of_connections:
        _, port, limit, _, name = name.split(' ', 4)
    if '|' in name:
        name, digits = name.split('|')
    file = bytes.fromhex(digits) if digits is not None else open(f'data/{name}', 'rb').read()
    if of_facts:
        print('== facts', name.rstrip())
        print('\n'.join(growing(file)))
    elif of_exchanges:
        print('== exchanges', limit, 'of', port, name.rstrip())
        print('\n'.join(exchanges(port, int(limit), file)))
    elif of_connections:
        print('== connections', limit, 'of', port, name.rstrip())
        print('\n'.join(CONNECTIONS_BY_HAND.get(name.rstrip()) or connections(port, file)))
    elif of_streams and name.rstrip() in BY_HAND:
        print('== streams', name.rstrip())
        print('\n'.join(BY_HAND[name.rstrip()]))
    elif of_streams:
        print('== streams', name.rstrip())
        print('\n'.join(streams(name, file)))
    else:
        print('==', name.rstrip())
        print('\n'.join(said(file, 64, 2) if small else said(file)))
