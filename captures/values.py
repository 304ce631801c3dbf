#!/usr/bin/env python3
"""captures/values.py PROGRAM ROOM DRIVER: prints what is wrong with the values that `cqlp capture --values` writes of requests, in lines and with --json: of a
capture that this makes up, and of DRIVER, a capture of a driver. What is to be written is worked out here, by struct, decimal, uuid and ipaddress.

Without the values, a line and an object have to be those without --values."""
import datetime
import ipaddress
import json
import random
import struct
import subprocess
import sys
import uuid
from pathlib import Path

NODE, PORT = 0x0A000001, 9042
QUERY, PREPARE, EXECUTE, BATCH, RESULT = 0x07, 0x09, 0x0A, 0x0D, 0x08
INT, BIGINT, VARCHAR, BLOB = b'\0\x09', b'\0\x02', b'\0\x0D', b'\0\x03'
NULL, UNSET = struct.pack('>i', -1), struct.pack('>i', -2)
# What a front has of a message, at most.
FRONT = 256


# ---- frames, and a capture of them

def string(text):
    return struct.pack('>H', len(text)) + text


def long_string(text):
    return struct.pack('>i', len(text)) + text


def value(content):
    return struct.pack('>i', len(content)) + content


def frame(opcode, stream, body, flags=0):
    first = 0x84 if opcode == RESULT else 0x04
    return struct.pack('>BBhBI', first, flags, stream, opcode, len(body)) + body


def prepared(name, columns, has_tables=False):
    """A PREPARED response with these type options of columns, the first of which is a partition key's."""
    table = string(b'ks') + string(b't')
    specs = b''.join((table if has_tables else b'') + string(b'c%d' % number) + option for number, option in enumerate(columns))
    metadata = struct.pack('>iiiH', 0 if has_tables else 1, len(columns), 1, 0) + (b'' if has_tables else table) + specs
    return struct.pack('>i', 4) + string(name) + metadata + struct.pack('>ii', 4, 0)


def parameters(values, names=None, count=None):
    """Of a request whose consistency level is ONE."""
    flags = 0x01 if names is None else 0x41
    number = struct.pack('>H', len(values) if count is None else count)
    return struct.pack('>HB', 1, flags) + number + b''.join((b'' if names is None else string(names[at])) + one for at, one in enumerate(values))


def capture(path, talks):
    """Of each connection its requests and replies, in turn."""
    records = []
    for client, talk in enumerate(talks):
        seen = [1, 1]
        for request, reply in talk:
            for side, payload in enumerate((request, reply)):
                ends, ports = ((0x0A000064 + client, NODE), (40_000, PORT)) if side == 0 else ((NODE, 0x0A000064 + client), (PORT, 40_000))
                ip = struct.pack('>BBHHHBBHII', 0x45, 0, 40 + len(payload), 0, 0x4000, 64, 6, 0, *ends)
                packet = ip + struct.pack('>HHIIBBHHH', *ports, seen[side], seen[1 - side], 0x50, 0x10, 65_535, 0, 0) + payload
                seen[side] += len(payload)
                records.append(struct.pack('<IIII', 0, len(records), len(packet), len(packet)) + packet)
    path.write_bytes(struct.pack('<IHHiIII', 0xA1B2C3D4, 2, 4, 0, 0, 262_144, 101) + b''.join(records))


# ---- what is to be written of a content, as a cell of `rows` and of `rows --json`

def of_time(nanoseconds):
    seconds, rest = divmod(nanoseconds, 10 ** 9)
    text = f'{seconds // 3600:02}:{seconds // 60 % 60:02}:{seconds % 60:02}.{rest:09}'
    return text, text


def both(text):
    return str(text), str(text)


def raw(content):
    return '0x' + content.hex(), content.hex()


ID = uuid.UUID('01234567-89ab-1def-8123-456789abcdef')
V6 = ipaddress.ip_address('2001:db8::1')
DAY = datetime.date(2026, 11, 29)
SCALARS = [
    (b'\0\x01', b'abc', '"abc"', 'abc'),
    (BIGINT, struct.pack('>q', -5), '-5', '-5'),
    (BLOB, b'\0\xFF', *raw(b'\0\xFF')),
    (b'\0\x04', b'\1', 'true', True),
    (b'\0\x04', b'\0', 'false', False),
    (b'\0\x05', struct.pack('>q', 1 << 40), *both(1 << 40)),
    (b'\0\x06', struct.pack('>i', 2) + b'\x04\xD2', *both('1234e-2')),
    (b'\0\x07', struct.pack('>d', 1.5), *raw(struct.pack('>d', 1.5))),
    (b'\0\x08', struct.pack('>f', 1.5), *raw(struct.pack('>f', 1.5))),
    (INT, struct.pack('>i', 7), '7', 7),
    (INT, struct.pack('>i', -10), '-10', -10),
    (b'\0\x0B', struct.pack('>q', 1_500_000_000_000), *both(1_500_000_000_000)),
    (b'\0\x0C', ID.bytes, *both(ID)),
    (VARCHAR, b'row 10', '"row 10"', 'row 10'),
    (VARCHAR, b'a"\\\x1B\n', '"a\\"\\\\\\x1b\\x0a"', 'a"\\\x1B\n'),
    (VARCHAR, 'é\x80\u202E'.encode(), '"é\\xc2\\x80\\xe2\\x80\\xae"', 'é\x80\u202E'),
    (b'\0\x0E', b'\xFF\x7F', *both(-129)),
    (b'\0\x0F', ID.bytes, *both(ID)),
    (b'\0\x10', bytes([10, 0, 0, 1]), *both('10.0.0.1')),
    (b'\0\x10', V6.packed, *both(V6.exploded)),
    (b'\0\x11', struct.pack('>I', (1 << 31) + (DAY - datetime.date(1970, 1, 1)).days), *both(DAY)),
    (b'\0\x12', struct.pack('>q', 3_723_000_000_004), *of_time(3_723_000_000_004)),
    (b'\0\x13', struct.pack('>h', -300), '-300', -300),
    (b'\0\x14', struct.pack('>b', -3), '-3', -3),
    (b'\0\0' + string(b'x.Y'), b'\1\2', *raw(b'\1\2')),
    # What its type does not have is raw: a wrong length, no UTF-8, a byte above 7F, a time past the day, a uuid of version 4.
    (INT, b'\0\0\7', *raw(b'\0\0\7')),
    (VARCHAR, b'a\xFFb', *raw(b'a\xFFb')),
    (b'\0\x01', b'\x80', *raw(b'\x80')),
    (b'\0\x12', struct.pack('>q', 86_400_000_000_000), *raw(struct.pack('>q', 86_400_000_000_000))),
    (b'\0\x0F', uuid.UUID(int=ID.int, version=4).bytes, *raw(uuid.UUID(int=ID.int, version=4).bytes)),
    (INT, b'', 'empty', ''),
    (VARCHAR, b'', 'empty', ''),
]
SEVEN = value(struct.pack('>i', 7))
# A type option that there is not in version 4, and how deep types are nested at most.
UNKNOWN, DEEPEST = b'\0\x15', 16
# Type options behind which the next column's is known, and those behind which it is not.
PASSED = [b'\0\0' + string(b'x.Y'), b'\0\x20' + INT, b'\0\x22' + VARCHAR, b'\0\x21' + VARCHAR + INT, b'\0\x20\0\0' + string(b'x.Y'),
          b'\0\x31\0\1' + INT, b'\0\x31\0\0', b'\0\x31\0\2\0\x20' + INT + VARCHAR, b'\0\x20\0\x20' + INT, b'\0\x20' * (DEEPEST - 1) + INT,
          b'\0\x21\0\x21' + INT + INT + b'\0\x31\0\1' + INT,
          b'\0\x30' + string(b'ks') + string(b'u') + b'\0\2' + string(b'f') + INT + string(b'g') + b'\0\x22' + INT]
STOPPING = [UNKNOWN, b'\x7F\xFF', b'\0\x20' + UNKNOWN, b'\0\x31\0\2' + UNKNOWN + INT, b'\0\x21' + INT + UNKNOWN, b'\0\x20' * DEEPEST + INT,
            b'\0\x30' + string(b'ks') + string(b'u') + b'\0\2' + string(b'f') + INT]


# ---- Types with items: of each its option, and of a value of it the content, its text in a line and what JSON has.

EMPTY = object()


class Scalar:
    """With its reader, which raises ValueError where a content is none of the type, and what makes a random one."""

    def __init__(self, option, content, line, json_of, read, made):
        self.option, self.content, self.line, self.json, self.read, self.made = option, content, line, json_of, read, made


def number_of(size):
    """A number of so many bytes: what writes one, and what reads it."""
    def read(content):
        if len(content) != size:
            raise ValueError
        return int.from_bytes(content, 'big', signed=True)
    return lambda number: number.to_bytes(size, 'big', signed=True), read


def flag_in(content):
    return number_of(1)[1](content) != 0


def is_hidden(letter):
    """Whether a terminal may obey it, or shows a line in another order for it."""
    return letter < ' ' or '\x7F' <= letter <= '\x9F' or letter in '\u061C\u200E\u200F' or '\u2028' <= letter <= '\u202E' or '\u2066' <= letter <= '\u2069'


def line_of_text(text):
    return '"' + ''.join('\\' + one if one in '"\\' else ''.join(f'\\x{byte:02x}' for byte in one.encode()) if is_hidden(one) else one for one in text) + '"'


def bytes_made(numbers):
    return bytes(numbers.randrange(256) for _ in range(numbers.randrange(1, 4)))


OF_INT = Scalar(INT, number_of(4)[0], str, int, number_of(4)[1], lambda numbers: numbers.randrange(-9, 9))
OF_TEXT = Scalar(VARCHAR, str.encode, line_of_text, str, bytes.decode, lambda numbers: ''.join(numbers.choices('aé"\\\n\x85\u200F', k=numbers.randrange(1, 4))))
OF_BIGINT = Scalar(BIGINT, number_of(8)[0], str, str, number_of(8)[1], lambda numbers: numbers.randrange(-1 << 63, 1 << 63))
OF_BLOB = Scalar(BLOB, bytes, lambda content: '0x' + content.hex(), bytes.hex, bytes, bytes_made)
OF_BOOLEAN = Scalar(b'\0\x04', lambda flag: bytes([flag]), lambda flag: str(flag).lower(), bool, flag_in, lambda numbers: numbers.random() < 0.5)
OF_UUID = Scalar(b'\0\x0C', lambda one: one.bytes, str, str, lambda content: uuid.UUID(bytes=content), lambda numbers: uuid.UUID(int=numbers.getrandbits(128)))
OF_INET = Scalar(b'\0\x10', lambda one: one.packed, lambda one: one.exploded, lambda one: one.exploded, ipaddress.ip_address,
                 lambda numbers: ipaddress.ip_address(numbers.randbytes(numbers.choice((4, 16)))))
OF_CUSTOM = Scalar(b'\0\0' + string(b'x.Y'), bytes, OF_BLOB.line, OF_BLOB.json, bytes, bytes_made)
SCALAR_TYPES = [OF_INT, OF_TEXT, OF_BIGINT, OF_BLOB, OF_BOOLEAN, OF_UUID, OF_INET, OF_CUSTOM]


class Items:
    """A list, a set, a map, a tuple or a user-defined type, each of which has values of other types."""
    id, opening, closing = None, '(', ')'

    def __init__(self, *types):
        self.types = types
        self.option = struct.pack('>H', self.id) + self.inner()

    def inner(self):
        return b''.join(of.option for of in self.types)

    def flat(self, items):
        """Each item with its type."""
        return [(self.types[0], item) for item in items]

    def count(self, items):
        return struct.pack('>i', len(items))

    def content(self, items):
        return self.count(items) + b''.join(value_of(of, item) for of, item in self.flat(items))

    def line(self, items):
        return self.opening + ', '.join(line_of(of, item) for of, item in self.flat(items)) + self.closing

    def json(self, items):
        return [json_of(of, item) for of, item in self.flat(items)]

    def read(self, content):
        """The items that are the whole content."""
        count, rest = count_in(content)
        return read_all([self.types[0]] * min(count, len(content)), rest)

    def made(self, numbers):
        return [item_made(self.types[0], numbers) for _ in range(numbers.randrange(4))]


class List(Items):
    id, opening, closing = 0x20, '[', ']'


class Set(Items):
    id, opening, closing = 0x22, '{', '}'


class Map(Items):
    """Its items are pairs."""
    id, opening, closing = 0x21, '{', '}'

    def flat(self, items):
        return [pair for key, one in items for pair in ((self.types[0], key), (self.types[1], one))]

    def line(self, items):
        return '{' + ', '.join(f'{line_of(self.types[0], key)}: {line_of(self.types[1], one)}' for key, one in items) + '}'

    def json(self, items):
        return [[json_of(self.types[0], key), json_of(self.types[1], one)] for key, one in items]

    def read(self, content):
        count, rest = count_in(content)
        items = read_all(list(self.types) * min(count, len(content)), rest)
        return list(zip(items[::2], items[1::2]))

    def made(self, numbers):
        return [tuple(item_made(of, numbers) for of in self.types) for _ in range(numbers.randrange(3))]


class Tuple(Items):
    """Of which the last ones may not be there."""
    id = 0x31

    def inner(self):
        return struct.pack('>H', len(self.types)) + super().inner()

    def flat(self, items):
        return list(zip(self.types, items))

    def count(self, items):
        return b''

    def read(self, content):
        return read_all(self.types, content, may_end=True)

    def made(self, numbers):
        return [item_made(of, numbers) for of in self.types[:numbers.randrange(len(self.types)) + 1]]


class Udt(Tuple):
    id = 0x30

    def inner(self):
        fields = b''.join(string(b'f%d' % number) + of.option for number, of in enumerate(self.types))
        return string(b'ks') + string(b'udt') + struct.pack('>H', len(self.types)) + fields


def value_of(of, one):
    return NULL if one is None else value(b'' if one is EMPTY else of.content(one))


def line_of(of, one):
    return 'null' if one is None else 'empty' if one is EMPTY else of.line(one)


def json_of(of, one):
    return None if one is None else '' if one is EMPTY else of.json(one)


def count_in(content):
    count = int.from_bytes(content[:4], 'big', signed=True)
    if len(content) < 4 or count < 0:
        raise ValueError
    return count, content[4:]


def read_all(types, content, may_end=False):
    """Values of these types up to the end of the content, where those of a tuple may end before."""
    items = []
    for of in types:
        if may_end and not content:
            break
        if len(content) < 4:
            raise ValueError
        length, content = int.from_bytes(content[:4], 'big', signed=True), content[4:]
        if length > len(content):
            raise ValueError
        items.append(None if length < 0 else EMPTY if length == 0 else of.read(content[:length]))
        content = content[max(length, 0):]
    if content:
        raise ValueError
    return items


def item_made(of, numbers):
    return numbers.choices((None, EMPTY, of.made(numbers)), (1, 1, 12))[0]


def type_made(numbers, depth):
    """A random type."""
    if depth == 0 or numbers.random() < 0.2:
        return numbers.choice(SCALAR_TYPES)
    kind = numbers.choice((List, Set, Map, Tuple, Udt))
    return kind(*(type_made(numbers, depth - 1) for _ in range({List: 1, Set: 1, Map: 2}.get(kind, numbers.randrange(1, 4)))))


def changed(content, numbers):
    """A content of which bytes may be other ones, more or fewer."""
    content = bytearray(content)
    for _ in range(numbers.choice((0, 1, 1, 2))):
        at = numbers.randrange(len(content) + 1)
        content[at:at + numbers.choice((0, 1, 1, 1, 4))] = bytes(numbers.choice((0, 0, 1, 2, 4, 255)) for _ in range(numbers.choice((0, 1, 1, 1, 4))))
    return bytes(content)


def random_cases(count):
    """Values of random types, of which bytes are changed: those that a reader here takes are written by their types, and others raw."""
    numbers, taken = random.Random(1), 0
    while count > 0:
        of = type_made(numbers, 3)
        content = changed(of.content(of.made(numbers)), numbers)
        if isinstance(of, Scalar) or not content or len(content) > FRONT - 13 or len(of.option) > 200:
            continue
        try:
            one = of.read(content)
            line, objects, taken = of.line(one), of.json(one), taken + 1
        except ValueError:
            line, objects = raw(content)
        count -= 1
        yield Case(f'{of.option.hex()} {content.hex()}', [value(content)], line, [objects], columns=[of.option])
    if not 100 < taken < 900:
        print(f'random values: {taken} of 1000 are taken')


def lists(depth):
    """A list of lists of so many levels, and a value of it with one item in each."""
    of, one = OF_INT, 7
    for _ in range(depth - 1):
        of, one = List(of), [one]
    return of, one


NESTED = [
    (List(OF_INT), [1, -2]), (List(OF_INT), []), (List(OF_INT), [None]), (List(OF_INT), [EMPTY, 5, None]), (List(OF_INT), EMPTY), (List(OF_INT), None),
    (Set(OF_TEXT), ['a', 'é']), (Set(OF_TEXT), []), (Set(OF_UUID), [ID]), (List(OF_INET), [ipaddress.ip_address('10.0.0.1'), V6]),
    (List(OF_BIGINT), [1 << 40]), (List(OF_BLOB), [b'\0\xFF', b'\1']), (List(OF_CUSTOM), [b'\1', EMPTY]), (Set(OF_BOOLEAN), [False, True]),
    (Map(OF_TEXT, OF_INT), [('a', 1), ('b', 2)]), (Map(OF_TEXT, OF_INT), []), (Map(OF_TEXT, OF_INT), [('a', None), (EMPTY, EMPTY), (None, 3)]),
    (Tuple(OF_INT, OF_TEXT), [1, 'x']), (Tuple(OF_INT, OF_TEXT), [1]), (Tuple(OF_INT, OF_TEXT), [None, None]), (Tuple(OF_INT, OF_TEXT), [EMPTY]),
    (Tuple(), EMPTY), (Tuple(OF_INT, OF_TEXT), EMPTY),
    (Udt(OF_INT, OF_TEXT, OF_BOOLEAN), [1, 'x', True]), (Udt(OF_INT, OF_TEXT, OF_BOOLEAN), [1, 'x']), (Udt(OF_INT, OF_TEXT), [None, EMPTY]),
    (List(List(OF_INT)), [[1, 2], [], None, EMPTY, [3]]), (List(Map(OF_INT, Set(OF_TEXT))), [[(1, ['a', 'b']), (2, [])], []]),
    (Map(List(OF_INT), Map(OF_INT, OF_INT)), [([1, 2], [(3, 4), (5, 6)]), ([], [])]), (Map(Tuple(OF_INT, OF_INT), Udt(OF_TEXT)), [([1, 2], ['a'])]),
    (Tuple(List(OF_INT), Map(OF_INT, OF_TEXT), OF_INT), [[1], [(2, 'b')], 3]), (Udt(Udt(OF_INT, OF_INT), Tuple(OF_TEXT), OF_INT), [[1, 2], ['a'], 3]),
    (List(Udt(OF_INT, List(OF_TEXT))), [[1, ['a', 'b']], [2], [None, []]]), (Set(Tuple(OF_INT, OF_INT)), [[1, 2], [3]]),
    lists(DEEPEST),
]
LENGTH_3 = value(b'\0\0\1')
# Contents that their types do not have: counts that lie, or are negative; bytes behind the last item, or fewer than a length; lengths that lie; items that
# are none of their types, the last ones too; and types that are not known, or nested too deep.
LYING = [
    (List(OF_INT).option, struct.pack('>i', 2) + SEVEN), (List(OF_INT).option, struct.pack('>i', 1) + SEVEN * 2), (List(OF_INT).option, struct.pack('>i', -1)),
    (List(OF_INT).option, struct.pack('>i', (1 << 31) - 1) + SEVEN), (List(OF_INT).option, struct.pack('>i', -1) + NULL * 9), (List(OF_INT).option, b'\0\0\0'),
    (List(OF_INT).option, struct.pack('>i', 0) + b'\0'), (List(OF_INT).option, struct.pack('>i', 1) + b'\0\0\0'),
    (List(OF_INT).option, struct.pack('>ii', 1, 5) + b'\0' * 4), (List(OF_INT).option, struct.pack('>i', 2) + SEVEN + LENGTH_3),
    (Set(OF_TEXT).option, struct.pack('>i', 1) + value(b'\xFF')), (Map(OF_INT, OF_INT).option, struct.pack('>i', 1) + SEVEN),
    (Map(OF_INT, OF_INT).option, struct.pack('>i', 1) + SEVEN * 3), (Map(OF_INT, OF_INT).option, struct.pack('>i', 1 << 30) + SEVEN * 2),
    (Map(OF_INT, OF_INT).option, struct.pack('>i', -(1 << 31))), (Map(OF_INT, OF_TEXT).option, struct.pack('>i', 1) + SEVEN + value(b'\xC3')),
    (Tuple(OF_INT).option, SEVEN * 2), (Tuple(OF_INT, OF_INT).option, SEVEN + b'\0'), (Tuple(OF_INT).option, LENGTH_3), (Tuple().option, NULL),
    (Udt(OF_INT).option, SEVEN + NULL), (Udt(OF_INT, OF_INT).option, struct.pack('>i', 9) + SEVEN),
    (List(List(OF_INT)).option, struct.pack('>i', 1) + value(struct.pack('>i', 2) + SEVEN)),
    (List(Tuple(OF_INT)).option, struct.pack('>i', 1) + value(SEVEN + NULL)),
    (b'\0\x20' + UNKNOWN, struct.pack('>i', 1) + SEVEN), (b'\0\x31\0\2' + INT + UNKNOWN, SEVEN * 2),
    (lists(DEEPEST + 1)[0].option, lists(DEEPEST + 1)[0].content(lists(DEEPEST + 1)[1])),
]


class Case:
    """A request, and what is written of it; the columns of its statement, if that is prepared before."""

    def __init__(self, name, values, line, objects, are_whole=True, columns=None, opcode=EXECUTE, body=None, has_tables=False, names=None, count=None,
                 flags=0):
        self.flags = flags
        self.name, self.columns, self.has_tables, self.opcode, self.body = name, columns, has_tables, opcode, body
        self.parameters = parameters(values, names, count)
        self.line, self.objects, self.are_whole = line, objects, are_whole

    def request(self, stream, statement):
        if self.body is not None:
            return frame(self.opcode, stream, self.body(statement) if callable(self.body) else self.body, self.flags)
        return frame(self.opcode, stream, (long_string(b'SELECT') if self.opcode == QUERY else string(statement)) + self.parameters)


def cases():
    for option, content, line, written in SCALARS:
        yield Case(f'{option.hex()} {content.hex()}', [value(content)], line, [written], columns=[option])
    for has_tables in (False, True):
        yield Case('two columns', [SEVEN, value(b'x')], '7, "x"', [7, 'x'], columns=[INT, VARCHAR], has_tables=has_tables)
    for option in PASSED:
        yield Case(f'behind {option.hex()}', [value(b'\1'), SEVEN], '0x01, 7', ['01', 7], columns=[option, INT])
    for option in STOPPING:
        yield Case(f'not behind {option.hex()}', [value(b'\1'), SEVEN], '0x01, 0x00000007', ['01', '00000007'], columns=[option, INT])
    yield Case('null and unset', [NULL, UNSET, SEVEN], 'null, unset, 7', [None, {}, 7], columns=[INT] * 3)
    yield Case('names', [SEVEN, NULL], 'k: 7, \\x1b\\": null', [{'k': 7}, {'\x1B"': None}], columns=[INT] * 2,
               names=[b'k', b'\x1B"'])
    yield Case('another number of columns', [SEVEN, SEVEN], '0x00000007, 0x00000007', ['00000007'] * 2, columns=[INT] * 3)
    yield Case('not prepared', [SEVEN, value(b'x')], '0x00000007, 0x78', ['00000007', '78'])
    yield Case('of a query', [SEVEN, NULL], '0x00000007, null', ['00000007', None], opcode=QUERY)
    yield Case('a length that is none', [SEVEN, struct.pack('>i', -3), SEVEN], '7, ..', [7], False, columns=[INT] * 3)
    yield Case('more than there are', [SEVEN], '7, ..', [7], False, columns=[INT] * 9, count=9)
    yield Case('none of those', [], '..', [], False, columns=[INT], count=1)
    yield Case('a compressed body', [], None, None, False, opcode=QUERY, body=b'\1\2\3', flags=0x01)
    for of, one in NESTED:
        name = f'{of.option.hex()} {value_of(of, one).hex()}'
        yield Case(name, [value_of(of, one), SEVEN], line_of(of, one) + ', 7', [json_of(of, one), 7], columns=[of.option, INT])
    for option, content in LYING:
        yield Case(f'{option.hex()} {content.hex()}', [value(content)], raw(content)[0], [raw(content)[1]], columns=[option])
    yield from nested_cases()
    yield from cut_cases()
    yield from batch_cases()
    yield Case('no values', [], None, None, None, columns=[INT], count=0)


def nested_cases():
    """Values with items in other places: with names, of a type that is not known, of a BATCH, and where a front ends in a value or in a type."""
    of, one = Map(OF_TEXT, List(OF_INT)), [('a', [1, 2])]
    content = of.content(one)
    yield Case('an item that has a name', [value(content), UNSET], f'k: {of.line(one)}, l: unset', [{'k': of.json(one)}, {'l': {}}], columns=[of.option] * 2,
               names=[b'k', b'l'])
    for inner in (UNKNOWN, lists(DEEPEST)[0].option, lists(90)[0].option):
        yield Case(f'a null of {inner.hex()}', [value(struct.pack('>i', 1) + NULL)], '[null]', [[None]], columns=[b'\0\x20' + inner])
    yield Case('each negative length', [value(struct.pack('>iii', 2, -2, -7))], '[null, null]', [[None, None]], columns=[List(OF_INT).option])
    yield Case('items of a query', [value(content)], raw(content)[0], [raw(content)[1]], opcode=QUERY)
    yield Case('items that are not prepared', [value(content)], raw(content)[0], [raw(content)[1]])
    of_id = lambda statement: b'\0\0\1\1' + string(statement) + struct.pack('>H', 1) + value(content) + b'\0\1\0'
    yield Case('items of a batch', [], of.line(one), [of.json(one)], opcode=BATCH, body=of_id, columns=[of.option])
    room = FRONT - 2 - 2 - 5 - 4
    fits = List(OF_BLOB).content([b'\7' * (room - 8)])
    yield Case('items that just fit', [value(fits)], '[0x' + '07' * (room - 8) + ']', [['07' * (room - 8)]], columns=[List(OF_BLOB).option])
    many = List(OF_INT).content([7] * 40)
    yield Case('items that are cut', [value(many)], '0x' + many[:room].hex() + '..', [many[:room].hex()], False, columns=[List(OF_INT).option])
    # The front of the PREPARED ends behind the type of the list, in it, and before that of its items, behind 4 + 4 + 14 + 7 bytes and a name of 4.
    left = FRONT - 4 - 4 - 14 - 7 - 4
    short = List(OF_INT).content([7])
    for bytes_left in range(-1, 5):
        # A user-defined type of this many bytes; then the list, behind a name of 4 bytes.
        size = left - 4 - bytes_left
        filling = b'\0\x30' + string(b'ks') + string(b'u' * (size - 2 - 4 - 2 - 2)) + b'\0\0'
        assert len(filling) == size
        line, objects = ('[7]', [7]) if bytes_left >= 4 else raw(short)
        columns = [filling, List(OF_INT).option]
        yield Case(f'a type of which {bytes_left} bytes are there', [NULL, value(short)], f'null, {line}', [None, objects], columns=columns)


def cut_cases():
    """Behind the statement's id, of two bytes, are 5 bytes and the length; so the front has 256 - 13 of the first value."""
    room = FRONT - 2 - 2 - 5 - 4
    text = 'é' * 200
    front = text.encode()[:room].decode(errors='ignore')
    yield Case('a text that is cut', [value(text.encode()), SEVEN], f'"{front}".., ..', [front], False, columns=[VARCHAR, INT])
    yield Case('a blob that is cut', [value(b'\7' * 300)], '0x' + '07' * room + '..', ['07' * room], False, columns=[BLOB])
    yield Case('a text that just fits', [value(b'x' * room)], f'"{"x" * room}"', ['x' * room], columns=[VARCHAR])
    text = 'x' * (room - 4)
    yield Case('a value that is not there', [value(text.encode()), SEVEN], f'"{text}", 0x..', [text, ''], False, columns=[VARCHAR, INT])
    # The types of so many columns, each of 2 bytes behind a name of 2 to 3, fit into the front behind 4 + 4 + 12 + 2 + 7 bytes.
    known, at = 0, 4 + 4 + 14 + 7
    while at + 2 + len(b'c%d' % known) + 2 <= FRONT:
        at += 2 + len(b'c%d' % known) + 2
        known += 1
    # Values of 8 bytes, of which the last has 3 of 4.
    seen, left = divmod(FRONT - 9, 8)
    assert left == 7 and seen < known < 49
    yield Case('as many as there is room for', [SEVEN] * 60, ', '.join(['7'] * seen) + ', 0x000000.., ..', [7] * seen + ['000000'], False, columns=[INT] * 60)
    ones = [value(b'\1')] * 49
    yield Case('types that are cut', ones, ', '.join(['1'] * known + ['0x01'] * (49 - known)), [1] * known + ['01'] * (49 - known), columns=[b'\0\x14'] * 49)


def batch_cases():
    kind_of_text = b'\0' + long_string(b'INSERT') + struct.pack('>H', 1) + SEVEN
    yield Case('a batch', [], '0x00000007', ['00000007'], opcode=BATCH, body=b'\0\0\2' + kind_of_text * 2 + b'\0\1\0')
    of_id = lambda statement: b'\0\0\2\1' + string(statement) + struct.pack('>H', 2) + SEVEN + NULL
    yield Case('a batch of an id', [], '7, null', [7, None], opcode=BATCH, body=of_id, columns=[INT] * 2)
    yield Case('a batch of an unknown id', [], '0x00000007, null', ['00000007', None], opcode=BATCH, body=of_id)
    yield Case('a batch of nothing', [], None, None, None, opcode=BATCH, body=b'\0\0\0\0\1\0')
    yield Case('a batch of an unknown kind', [], None, None, False, opcode=BATCH, body=b'\0\0\1\2' + SEVEN)
    yield Case('a statement that fills the front', [], None, None, False, opcode=QUERY, body=long_string(b'x' * 300) + parameters([SEVEN]))


# ---- what the program writes

def written(program, file, *options):
    done = subprocess.run([program, 'capture', *options, file], stdin=subprocess.DEVNULL, capture_output=True, timeout=120)
    if done.returncode not in (0, 1):
        print(f'{options}: status {done.returncode}: {done.stderr.decode()}')
    return done.stdout.decode().splitlines()


def check(name, plain, with_values, plain_object, values_object, wanted):
    """One request: its line and its object with and without values."""
    line, objects, are_whole = wanted
    part = '' if line is None else f' values [{line}]'
    if part not in with_values or with_values.replace(part, '', 1) != plain or (line is None and ' values [' in with_values):
        print(f'{name}: {with_values!r}, wanted {part!r} in {plain!r}')
    found = json.loads(values_object)
    keys = list(found)
    at = keys.index('statement_is_whole')
    if keys[at + 1:at + 3] != ['values', 'values_are_whole'] or (found.pop('values'), found.pop('values_are_whole')) != (objects, are_whole):
        print(f'{name}: {values_object}, wanted {json.dumps(objects)} and {are_whole}')
    if found != json.loads(plain_object):
        print(f'{name}: {values_object}, and not otherwise {plain_object}')


def made(program, room, all_cases):
    file = room / 'values.pcap'
    executes, prepares = [], []
    for number, case in enumerate(all_cases):
        statement, stream = struct.pack('>H', number), number % 100
        if case.columns is not None:
            request = frame(PREPARE, stream, long_string(b'SELECT %d' % number))
            # The first statement is prepared on the same connection, and each other one on another.
            (prepares if number else executes).append((request, frame(RESULT, stream, prepared(statement, case.columns, case.has_tables))))
        executes.append((case.request(stream, statement), frame(RESULT, stream, struct.pack('>i', 1))))
    capture(file, [prepares, executes])
    of_requests = [[line for line in written(program, file, *options) if any(word in line for word in words)]
                   for options, words in (((), (' EXECUTE ', ' QUERY ', ' BATCH ')), (('--values',), (' EXECUTE ', ' QUERY ', ' BATCH ')))]
    names = [f'"request":"{word}"' for word in ('EXECUTE', 'QUERY', 'BATCH')]
    of_objects = [[line for line in written(program, file, '--json', *options) if any(name in line for name in names)] for options in ((), ('--values',))]
    if {len(some) for some in [*of_requests, *of_objects]} != {len(all_cases)}:
        print('other requests:', [len(some) for some in [*of_requests, *of_objects]], len(all_cases))
    for case, *texts in zip(all_cases, *of_requests, *of_objects):
        check(case.name, *texts, (case.line, case.objects, case.are_whole))


def page(option, one):
    """A page of one row with one cell."""
    return frame(RESULT, 0, struct.pack('>iii', 2, 1, 1) + string(b'ks') + string(b't') + string(b'c') + option + struct.pack('>i', 1) + one)


def as_rows(program, room):
    """`rows` and `rows --json` have to write a cell as a request's value is to be written."""
    for of, one in NESTED:
        file = room / 'page.bin'
        file.write_bytes(page(of.option, value_of(of, one)))
        line, cells = (subprocess.run([program, 'rows', *options, file], capture_output=True, timeout=120).stdout.decode().splitlines()[-1]
                       for options in ((), ('--json',)))
        if (line, json.loads(cells)) != (line_of(of, one), [json_of(of, one)]):
            print(f'{of.option.hex()}: rows {line!r} {cells}, and not {line_of(of, one)!r}')


def frames(path):
    """The opcode and the message of each frame."""
    data = path.read_bytes()
    at = 0
    while at + 9 <= len(data):
        length = int.from_bytes(data[at + 5:at + 9], 'big')
        yield data[at + 4], data[at + 9:at + 9 + length]
        at += 9 + length


class Reader:
    def __init__(self, data):
        self.data, self.at = data, 0

    def take(self, count):
        self.at += count
        return self.data[self.at - count:self.at]

    def number(self, size):
        return int.from_bytes(self.take(size), 'big', signed=size == 4)

    def text(self):
        return self.take(self.number(2))


def columns_of(message):
    """The id of a PREPARED response, and the ids of the types of its columns, all of which are scalar here."""
    of = Reader(message)
    if of.number(4) != 4:
        return None
    statement, flags, count = of.text(), of.number(4), of.number(4)
    of.take(2 * of.number(4))
    if flags & 1:
        of.text(), of.text()
    columns = []
    for _ in range(count):
        if not flags & 1:
            of.text(), of.text()
        of.text()
        columns.append(of.number(2))
    return statement, columns


def bound_in(message, types):
    """What an EXECUTE of a driver binds, as objects have it."""
    of = Reader(message)
    statement, _, flags = of.text(), of.number(2), of.number(1)
    if not flags & 1 or flags & 0x40:
        return None
    contents = [None if length < 0 else of.take(length) for length in (of.number(4) for _ in range(of.number(2)))]
    kinds = types.get(statement, [])
    return [None if one is None else int.from_bytes(one, 'big', signed=True) if kind == 9 else one.decode() if kind == 13 else one.hex()
            for one, kind in zip(contents, kinds if len(kinds) == len(contents) else [0] * len(contents))] or None


def of_driver(program, driver):
    """What the sockets of a driver saw (driver.N.requests.bin, driver.N.responses.bin) says what its requests bind."""
    wanted = []
    for number in (0, 1):
        requests, responses = (driver.with_name(f'{driver.stem}.{number}.{side}.bin') for side in ('requests', 'responses'))
        types = dict(filter(None, (columns_of(message) for opcode, message in frames(responses) if opcode == RESULT)))
        wanted += [bound_in(message, types) for opcode, message in frames(requests) if opcode == EXECUTE]
    ports = ('--port', '36401', '--port', '40971')
    objects = [json.loads(line) for line in written(program, driver, *ports, '--json', '--values')]
    found = [of['values'] for of in objects if of.get('request') == 'EXECUTE']
    if sorted(map(repr, found)) != sorted(map(repr, wanted)) or not any(wanted):
        print(f'{driver}: values {found}, and not {wanted}')


if __name__ == '__main__':
    # The types of a limited number of statements are kept.
    at_random = list(random_cases(1_000))
    for some in (list(cases()), *(at_random[begin:begin + 200] for begin in range(0, 1_000, 200))):
        made(sys.argv[1], Path(sys.argv[2]), some)
    as_rows(sys.argv[1], Path(sys.argv[2]))
    of_driver(sys.argv[1], Path(sys.argv[3]))
