#!/usr/bin/env python3
"""statement_types.py CASE PROGRAM ROOM: prints what is wrong with the rows that `cqlp capture --rows --statements FILE` writes, where FILE has the
statements, columns and user-defined types of a cluster that this script makes up.

Of each statement it is known how it was made, and so which types its columns have, without a reader of statements: a second capture has PREPAREDs with
these types on another connection, and the rows of both have to be the same."""
import json
import random
import struct
import subprocess
import sys
import uuid
from pathlib import Path

sys.path.insert(0, str(Path(__file__).resolve().parent))
import made
from statements import as_cqlsh, file_of, object_of


def ran(program, *words):
    done = subprocess.run([program, 'capture', '--rows', '--connection', '1', *words], stdin=subprocess.DEVNULL, capture_output=True, timeout=120)
    return done.returncode, done.stdout.decode(), done.stderr.decode()


# ---- types: the text of system_schema, the option of the protocol, and a maker of values

def of_bytes(content):
    return b'\xff\xff\xff\xff' if content is None else struct.pack('>i', len(content)) + content


def string(text):
    return struct.pack('>H', len(text.encode())) + text.encode()


def short(*parts):
    return struct.pack('>H', len(parts)) + b''.join(parts)


WORDS = ['', 'x', 'naïve', '😀', 'a "b"', 'FROM t', 'line\nline']
SCALARS = {
    'ascii': (1, lambda c: c.choice(['', 'plain', '"']).encode()), 'bigint': (2, lambda c: c.randbytes(8)), 'blob': (3, lambda c: c.randbytes(c.randrange(9))),
    'boolean': (4, lambda c: c.choice((b'\0', b'\1'))), 'counter': (5, lambda c: c.randbytes(8)),
    'decimal': (6, lambda c: b'\0\0\0\2' + c.randbytes(c.randint(1, 9))),
    'double': (7, lambda c: struct.pack('>d', c.uniform(-9, 9))), 'float': (8, lambda c: struct.pack('>f', c.randrange(99))),
    'int': (9, lambda c: c.randbytes(4)),
    'timestamp': (11, lambda c: struct.pack('>q', c.randrange(2 ** 41))), 'uuid': (12, lambda c: c.randbytes(16)),
    'text': (13, lambda c: c.choice(WORDS).encode()),
    'varchar': (13, lambda c: c.choice(WORDS).encode()), 'varint': (14, lambda c: c.randbytes(c.randint(1, 9))),
    'timeuuid': (15, lambda c: uuid.uuid1(c.randrange(2 ** 40)).bytes),
    'inet': (16, lambda c: c.randbytes(c.choice((4, 16)))), 'date': (17, lambda c: struct.pack('>I', 2 ** 31 + c.randrange(40_000))),
    'time': (18, lambda c: struct.pack('>q', c.randrange(86_400_000_000_000))), 'smallint': (19, lambda c: c.randbytes(2)),
    'tinyint': (20, lambda c: c.randbytes(1)),
}
UNKNOWN = ['duration', 'vector<float, 3>', "'org.apache.cassandra.db.marshal.DynamicCompositeType(b=>org.apache.cassandra.db.marshal.BytesType)'", 'nowhere',
    '"Int"', 'empty']


class Type:
    def __init__(self, text, option, value, one_cell):
        self.text, self.option, self.value, self.one_cell = text, option, value, one_cell


def scalar(name):
    number, value = SCALARS[name]
    return Type(name, struct.pack('>H', number), value, True)


def unknown(text):
    return Type(text, b'\0\3', SCALARS['blob'][1], False)


def frozen(of):
    return Type(f'frozen<{of.text}>', of.option, of.value, True)


def repeated(name, number, item):
    value = lambda c: (lambda items: struct.pack('>i', len(items)) + b''.join(items))([of_bytes(item.value(c)) for _ in range(c.randrange(4))])
    return Type(f'{name}<{item.text}>', struct.pack('>H', number) + item.option, value, False)


def mapped(key, of):
    value = lambda c: (lambda items: struct.pack('>i', len(items)) + b''.join(items))([of_bytes(key.value(c))
        + of_bytes(of.value(c)) for _ in range(c.randrange(3))])
    return Type(f'map<{key.text}, {of.text}>', b'\0\x21' + key.option + of.option, value, False)


def fields_of(items):
    return lambda c: b''.join(of_bytes(c.choice((None, item.value(c), item.value(c)))) for item in items[:c.randint(1, len(items))])


def tupled(items):
    return Type(f'tuple<{", ".join(item.text for item in items)}>', b'\0\x31' + short(*(item.option for item in items)), fields_of(items), True)


def quoted(name):
    return name if name.isascii() and name.islower() and name.isidentifier() else '"' + name.replace('"', '""') + '"'


class Keyspace:
    """A keyspace with user-defined types and tables."""

    def __init__(self, chance, name):
        self.chance, self.name, self.types, self.tables, self.rows = chance, name, [], {}, []
        for number, type_name in enumerate(chance.sample(['address', 'Address', 'point', 'int', 'a_1'], chance.randrange(4))):
            if type_name == 'int':
                type_name = 'Int'
            names, items = [f'f{at}' for at in range(chance.randint(1, 3))], []
            for _ in names:
                items.append(self.type(2))
            self.rows.append({'keyspace_name': name, 'type_name': type_name, 'field_names': names, 'field_types': [item.text for item in items]})
            option = b'\0\x30' + string(name) + string(type_name) + short(*(string(field) + item.option for field, item in zip(names, items)))
            self.types.append(Type(quoted(type_name), option, fields_of(items), False))
        if any(of.text == '"Int"' for of in self.types):
            self.has_int = True
        for table in chance.sample(['t', 'users', 'T', 'from_table', 'table "1"'], chance.randint(1, 3)):
            self.tables[table] = self.columns(table)

    has_int = False

    def type(self, depth=3):
        kind = self.chance.randrange(12) if depth else 0
        inner = lambda: self.type(depth - 1)
        if kind == 11:
            text = self.chance.choice(UNKNOWN)
            return unknown('duration') if text == '"Int"' and self.has_int or any(of.text == text for of in self.types) else unknown(text)
        if kind == 10 and self.types:
            return self.chance.choice(self.types)
        return {5: lambda: repeated('list', 0x20, inner()), 6: lambda: repeated('set', 0x22, inner()), 7: lambda: mapped(inner(), inner()),
                8: lambda: tupled([inner() for _ in range(self.chance.randint(1, 3))]), 9: lambda: frozen(inner())}.get(kind,
                lambda: scalar(self.chance.choice(list(SCALARS))))()

    def columns(self, table):
        """The columns in the order of `*`."""
        chance = self.chance
        names = chance.sample(['k', 'a', 'b', 'c', 'json', 'distinct', 'count', 'ttl', 'key', 'Name', 'NAME', 'été', 'x "y", (z', 'as', 'zz', '_z', 'value',
            'a_b', 'from'], chance.randint(1, 12))
        cuts = sorted(chance.randint(1, len(names)) for _ in range(3))
        kinds = {'partition_key': names[:cuts[0]], 'clustering': names[cuts[0]:cuts[1]], 'static': names[cuts[1]:cuts[2]], 'regular': names[cuts[2]:]}
        found = []
        for kind, some in kinds.items():
            is_key = kind in ('partition_key', 'clustering')
            for position, name in enumerate(some if is_key else sorted(some, key=str.encode)):
                of = self.type()
                found.append((name, of))
                self.rows.append({'keyspace_name': self.name, 'table_name': table, 'column_name': name, 'clustering_order': 'none', 'column_name_bytes': '0x'
                    + name.encode().hex(),
                                  'kind': kind, 'position': position if is_key else -1, 'type': of.text})
        return found


class Statement:
    """A SELECT, and the types of its columns."""

    def __init__(self, chance, keyspace, others):
        self.chance, table = chance, chance.choice(list(keyspace.tables))
        self.columns, self.types, items = keyspace.tables[table], [], []
        form = chance.randrange(8)
        front = self.word('SELECT')
        if form == 0:
            front += self.space() + self.word('JSON')
            items = [self.item() for _ in range(chance.randint(1, 3))]
            if items[0][0] in '([{-?:$\'':
                items[0] = self.name('k')
            self.types = [scalar('text')]
        elif form <= 2:
            items = ['*']
            self.types = [of for _, of in self.columns]
        else:
            items = [self.item() for _ in range(chance.randint(1, 6))]
        if form in (1, 3) and items[0][0] not in '([{-?:$\'':
            front += self.space() + self.word('DISTINCT')
        qualified = chance.random() < 0.5
        self.logged = chance.choice([None, keyspace.name, *others]) if qualified else keyspace.name
        of = f'{self.name(keyspace.name)}{self.gap()}.{self.gap()}' if qualified else ''
        behind = chance.choice(['', ' ', ';', ' WHERE k = ?', " WHERE a = 'x, FROM other.t' ALLOW FILTERING", ' LIMIT 3', '/* WHERE */', ' GROUP BY k'])
        items = f'{self.gap()},{self.gap()}'.join(items)
        self.text = self.gap() + front + self.space() + items + self.space() + self.word('FROM') + self.space() + of + self.name(table) + behind

    def word(self, word):
        return self.chance.choice((word, word.lower(), ''.join(self.chance.choice((c.lower(), c.upper())) for c in word)))

    def space(self):
        return self.chance.choice((' ', ' ', '\n', '\t ', ' /* a, "b" FROM c */ ', ' -- it\'s FROM\n', '\r\n//*\n'))

    def gap(self):
        return self.chance.choice(('', '', self.space()))

    def name(self, name):
        if name in ('from',) or quoted(name) != name or self.chance.random() < 0.2:
            return '"' + name.replace('"', '""') + '"'
        return self.word(name)

    def column(self):
        name, of = self.chance.choice(self.columns)
        if name in ('as', 'json', 'distinct', 'count', 'ttl'):
            return '"' + name + '"', of
        return self.name(name), of

    def item(self):
        text, of = self.chance.choice((self.plain, self.plain, self.plain, self.call, self.other))()
        self.types.append(of)
        if self.chance.random() < 0.3:
            text += self.space() + self.word('AS') + self.space() + self.name(self.chance.choice(('b', 'count', 'as', 'x "', 'int')))
        return text

    def plain(self):
        if self.chance.random() < 0.1:
            return self.name('missing'), unknown('')
        return self.column()

    def call(self):
        (name, of), gap = self.column(), self.gap
        one = lambda known: scalar(known) if of.one_cell else unknown('')
        kind = self.chance.choice(list(SCALARS))
        function, inner, answers = self.chance.choice((
            ('count', '*', scalar('bigint')), ('COUNT', '1', scalar('bigint')), ('count', name, scalar('bigint')), ('writetime', name, one('bigint')),
            ('WriteTime', name, one('bigint')),
            ('ttl', name, one('int')), ('toJson', name, scalar('text')), ('to_json', name, scalar('text')), ('token', name, unknown('')),
            ('token', f'{name}, {name}', unknown('')),
            ('cast', f'{name}{self.space()}{self.word("AS")}{self.space()}{self.word(kind)}', scalar(kind)), ('cast', f'{name} as duration', unknown('')),
            ('min', name, unknown('')), ('writetime', f'{name}[0]', unknown('')), ('ks.count', '*', unknown('')), ('blobasint', name, unknown(''))))
        return self.word(function) + gap() + '(' + gap() + inner + gap() + ')', answers

    def other(self):
        (a, _), (b, _) = self.column(), self.column()
        return self.chance.choice((f'{a}.f0', f"{a}['k, FROM']", f'{a} + {b}', f'{a}[1..{b}]', 'now()', '(int)1', f'count({a}) + count({b})', f'-{a}',
            f'[{a}, {b}]',
                                   f'{{{a}: {b}, {b}: {a}}}', '?', ':name', "'FROM, x'", '$$ , FROM " $$', f'f({a}, g({b}), (\'it\'\'s\', 1))', '1.5e-3',
                                   f'({a}, {b})',
                                   f'count({a})({b})')), unknown('')

    def rows(self):
        return [[self.chance.choice((None, of.value(self.chance), of.value(self.chance),
            of.value(self.chance))) for of in self.types] for _ in range(self.chance.randint(1, 3))]


def bare(stream, rows):
    return made.page(stream, struct.pack('>ii', 4, len(rows[0])), rows)


def prepared(name, options):
    columns = struct.pack('>ii', 1, len(options)) + string('ks') + string('t') + b''.join(string(f'c{at}') + option for at, option in enumerate(options))
    return made.frame(0x84, 0, 0, 0x08, struct.pack('>i', 4) + struct.pack('>H', len(name)) + name + struct.pack('>iii', 1, 0, 0) + string('ks') + string('t')
        + columns)


def messages_of(found):
    """An EXECUTE of each of these ids, and a page with these rows."""
    for stream, (name, rows) in enumerate(found):
        yield False, made.execute(stream % 32_768, name)
        yield True, bare(stream % 32_768, rows)


def capture_of(found, path, known=()):
    """A capture of a connection that executes these; on another one these are PREPAREDs."""
    packets, sent = [], 1
    packets.append(made.record(made.segment(0x0A010000, 10_000, 1, made.query(9))))
    for message in known:
        packets.append(made.record(made.segment(0x0A010000, 20_000, sent, message, True)))
        sent += len(message)
    ends = [1 + len(made.query(9)), 1]
    for is_response, message in messages_of(found):
        packets.append(made.record(made.segment(0x0A010000, 10_000, ends[is_response], message, is_response)))
        ends[is_response] += len(message)
    path.write_bytes(b''.join(made.of_pcap(packets)))
    return path


def same(program, room, found, lines, what):
    """Executed statements, each an id, the options of its columns and rows, have the types that a file says, or none."""
    for begin in range(0, len(found), 250):
        some = found[begin:begin + 250]
        executed = [(name, rows) for name, _, rows in some]
        bare_one = capture_of(executed, room / 'bare.pcap')
        file = file_of(lines, room / 'statements.json')
        due = ran(program, capture_of(executed, room / 'known.pcap', [prepared(name, options) for name, options, _ in some if options]))
        given = ran(program, '--statements', file, bare_one)
        if given[0] or given[1] != due[1]:
            for one, other in zip(given[1].split('\n1:'), due[1].split('\n1:')):
                if one != other:
                    print(f'{what}: {one!r}, and not {other!r}: {given[2]}')
                    return one
            print(f'{what}: {given}')


def shuffled(chance, objects):
    """What cqlsh wrote of them, in any order."""
    chance.shuffle(objects)
    lines = [json.dumps(of, ensure_ascii=chance.random() < 0.5) for of in objects]
    if chance.random() < 0.5:
        return as_cqlsh(lines)
    return '\n'.join(lines)


def of_any(program, room):
    """Random clusters and statements."""
    for seed in range(1, 41):
        chance = random.Random(seed)
        keyspaces = [Keyspace(chance, name) for name in chance.sample(['ks', 'Shop', 'other', 'k_2'], chance.randint(1, 3))]
        objects, found, texts = [row for keyspace in keyspaces for row in keyspace.rows], [], {}
        for number in range(40):
            keyspace = chance.choice(keyspaces)
            statement = Statement(chance, keyspace, [other.name for other in keyspaces])
            name = struct.pack('>QQ', seed, number)
            texts[number] = statement.text
            found.append((name, [of.option for of in statement.types], statement.rows()))
            objects.append({'prepared_id': '0x' + name.hex(), 'logged_keyspace': statement.logged, 'query_string': statement.text})
        objects += chance.sample(objects, chance.randrange(3))
        if one := same(program, room, found, shuffled(chance, objects), f'seed {seed}'):
            print(texts[int(one.split(' ')[0].split(':')[-1])], [row for row in objects if 'table_name' in row])


def column(name, text, kind='regular', position=-1, table='t', keyspace='ks'):
    return json.dumps({'keyspace_name': keyspace, 'table_name': table, 'column_name': name, 'kind': kind, 'position': position, 'type': text})


def user_type(name, *texts, keyspace='ks'):
    return json.dumps({'keyspace_name': keyspace, 'type_name': name, 'field_names': [f'f{at}' for at in range(len(texts))], 'field_types': texts})


INT, BLOB, TEXT = b'\0\x09', b'\0\3', b'\0\x0d'


def of_bounds(program, room):
    """What is too deep, too long or too much is raw, and what is not is not."""
    nested = lambda depth: 'list<' * depth + 'int' + '>' * depth
    value = lambda depth: b'\0\0\0\7' if depth == 0 else struct.pack('>i', 1) + of_bytes(value(depth - 1))
    option = lambda depth: b'\0\x20' * depth
    many = [(f'c{at:04}', 'int') for at in range(4_096)]
    cases = [
        ('SELECT a FROM ks.t', [column('a', nested(15))], option(15) + INT, value(15)),
        ('SELECT a FROM ks.t', [column('a', nested(16))], option(15) + BLOB, value(16)),
        ('SELECT a FROM ks.t', [column('a', 'frozen<' * 40 + 'int' + '>' * 40)], INT, value(0)),
        ('SELECT a FROM ks.t' + ' ' * 65_518, [column('a', 'int')], INT, value(0)),
        ('SELECT a FROM ks.t' + ' ' * 65_519, [column('a', 'int')], None, value(0)), ('SELECT a FROM t', [column('a', 'int')], None, value(0)),
        ('SELECT a FROM ks.other', [column('a', 'int')], None, value(0)), ('SELECT a FROM other.t', [column('a', 'int')], None, value(0)),
        ('SELECT a FROM ks.t.u', [column('a', 'int')], None, value(0)), ('SELECT a', [column('a', 'int')], None, value(0)),
        ('SELECT (a FROM ks.t', [column('a', 'int')], None, value(0)),
        ('SELECT a) FROM ks.t', [column('a', 'int')], None, value(0)), ('SELECT "a FROM ks.t', [column('a', 'int')], None, value(0)),
        ("SELECT 'a FROM ks.t", [column('a', 'int')], None, value(0)),
        ('SELECT a FROM ks.t /*', [column('a', 'int')], None, value(0)), ('SELECT a FROM ks.t --', [column('a', 'int')], INT, value(0)),
        ('INSERT a FROM ks.t', [column('a', 'int')], None, value(0)),
        ('SELECT a FROM ks.t', [column('a', 'int'), column('a', 'text')], INT, value(0)),
        ('SELECT a FROM ks.t', [column('a', 'list<int, int>')], BLOB, value(0)),
        ('SELECT a FROM ks.t', [column('a', 'int>')], BLOB, value(0)), ('SELECT a FROM ks.t', [column('a', 'u'), user_type('u', 'u', 'int')], None, None),
        ('SELECT a FROM ks.t', [column('a', 'u'), user_type('u', 'int', keyspace='other')], BLOB, value(0)),
        ('SELECT a FROM ks.t', [column('a', '')], BLOB, value(0)),
    ]
    for number, (text, schema, due, content) in enumerate(cases):
        name, lines = struct.pack('>Q', number), [*schema, object_of(struct.pack('>Q', number), text)]
        same(program, room, [(name, due and [due], [[content]])], '\n'.join(lines), text[:40])
    # As many columns as a decoder takes, and one more; a type of which each field has two of the one below, 2 ** 15 in all.
    for columns, cell in ((many, '7'), (many + [('d', 'int')], '0x00000007')):
        lines = '\n'.join([*(column(*one) for one in many), object_of(b'\1', 'SELECT *' + ', a' * (len(columns) - len(many)) + ' FROM ks.t')])
        capture = capture_of([(b'\1', [[value(0)] * len(columns)])], room / 'one.pcap')
        found = ran(program, '--statements', file_of(lines, room / 'statements.json'), capture)
        if found[1].split('\n')[2] != ' | '.join([cell] * len(columns)):
            print(f'{len(columns)} columns: {found[2]}')
    doubling = [user_type(f'u{at}', *[f'frozen<u{at + 1}>'] * 2) for at in range(15)] + [user_type('u15', 'int')]
    same(program, room, [(b'\1', None, [[value(0)]])], '\n'.join([*doubling, column('a', 'frozen<u0>'), object_of(b'\1', 'SELECT a FROM ks.t')]), 'doubling')
    # A page of another number of columns is raw.
    same(program, room, [(b'\1', None, [[value(0), value(0)]])], '\n'.join([column('a', 'int'), object_of(b'\1', 'SELECT a FROM ks.t')]), 'two columns')


def of_order(program, room):
    """What PREPAREDs say comes first, on any connection."""
    name, seven = b'\1' * 16, b'\0\0\0\7'
    file = file_of('\n'.join([column('a', 'int'), object_of(name, 'SELECT a FROM ks.t')]), room / 'statements.json')
    for known, due in (([], '7'), ([prepared(name, [TEXT])], '"\\x00\\x00\\x00\\x07"'), ([prepared(name, [BLOB])], '0x00000007'),
        ([prepared(b'\2', [TEXT])], '7'),
                       ([prepared(name, [TEXT, TEXT])], '0x00000007')):
        found = ran(program, '--statements', file, capture_of([(name, [[seven]])], room / 'one.pcap', known))
        if found[1].split('\n')[2] != due:
            print(f'{known}: {found}')


ROW = 'no row of system.prepared_statements, system_schema.columns or system_schema.types'
REFUSED = [
    ('{}', f':1: {ROW}'), (column('a', 'int') + '\n{"keyspace_name": "ks"}', f':2: {ROW}'), (column('a', 'int', kind='compact'), f':1: {ROW}'),
    ('{"keyspace_name": "ks", "type_name": "u"}', f':1: {ROW}'), ('{"keyspace_name": "ks", "type_name": "u", "field_types": [7]}', f':1: {ROW}'),
    ('{"keyspace_name": "ks", "table_name": "t", "column_name": "a", "kind": "regular"}', f':1: {ROW}'),
    ('{"prepared_id": "0x0", "query_string": "SELECT"}', f':1: {ROW}'),
    (column('a', 'int'), ': no statement; write it by cqlsh -e "SELECT JSON * FROM system.prepared_statements"'),
    (object_of(b'\1', 'SELECT a FROM ks.t'), ': no column; add what cqlsh -e "SELECT JSON * FROM system_schema.columns" writes'),
]


def of_refused(program, room):
    """What is no such file is refused, before anything of the capture is read; of a file with all three, lines have the texts."""
    for content, words in REFUSED:
        file = file_of(content, room / 'statements.json')
        found = ran(program, '--statements', file, room / 'none.pcap')
        if found != (1, '', f'cqlp: {file}{words}\n'):
            print(f'{content!r}: {found}')
    file = file_of('\n'.join([user_type('u', 'int'), column('a', 'int'), object_of(b'\1', 'SELECT a FROM ks.t')]), room / 'statements.json')
    capture = capture_of([(b'\1', [[b'\0\0\0\7']])], room / 'one.pcap')
    done = subprocess.run([program, 'capture', '--statements', file, capture], capture_output=True, text=True)
    if done.returncode or 'EXECUTE ONE "SELECT a FROM ks.t"' not in done.stdout:
        print(done)


if __name__ == '__main__':
    {'any': of_any, 'bounds': of_bounds, 'order': of_order, 'refused': of_refused}[sys.argv[1]](sys.argv[2], Path(sys.argv[3]))
