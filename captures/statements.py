#!/usr/bin/env python3
"""Texts of statements that were prepared before a capture: statements.py CASE PROGRAM DATA ROOM prints what is wrong with what `cqlp capture --statements`
makes of a file that cqlsh wrote.

What a file says is read back here from the list of ids and texts that it was made of; what a driver prepared, from its own bytes."""
import json
import struct
import subprocess
import sys
import time
from pathlib import Path

sys.path.insert(0, str(Path(__file__).resolve().parent))
import made

FILE_HEADER = struct.pack('<IHHiIII', 0xA1B2C3D4, 2, 4, 0, 0, 262144, 101)
VOID = struct.pack('>i', 1)
MOST = 252  # of a PREPARE the first 256 bytes count, of which four are a length


def frames(stream):
    """The frames of a direction."""
    while stream:
        length = 9 + struct.unpack_from('>I', stream, 5)[0]
        yield stream[:length]
        stream = stream[length:]


def stream_of(frame):
    return struct.unpack_from('>h', frame, 2)[0]


def capture_of(messages, path):
    """Messages of one connection, each in a packet of its own."""
    path.write_bytes(FILE_HEADER + b''.join(made.in_turn(messages)))
    return path


def executes(ids):
    """An EXECUTE of each id, and its response."""
    for number, name in enumerate(ids):
        yield False, made.execute(number % 32768, name)
        yield True, made.frame(0x84, 0, number % 32768, 0x08, VOID)


def ran(program, *words):
    done = subprocess.run([program, 'capture', *words], stdin=subprocess.DEVNULL, capture_output=True, timeout=120)
    return done.returncode, done.stdout.decode(), done.stderr.decode()


def objects(program, *words):
    status, out, err = ran(program, '--json', *words)
    if status:
        print(f'status {status}: {err}')
    return [json.loads(line) for line in out.splitlines()]


# ---- what cqlsh writes

def object_of(name, text, hexadecimal='0x{}', **dumping):
    return json.dumps({'prepared_id': hexadecimal.format(name.hex()), 'logged_keyspace': None, 'query_string': text}, **dumping)


def as_cqlsh(objects):
    """A column with a heading; a backslash of a text is written twice."""
    objects = [line.replace('\\', '\\\\') for line in objects]
    width = max(map(len, objects), default=6)
    return '\n'.join(['', ' [json]'.center(width + 2), '-' * (width + 2), *(f' {line:>{width}}' for line in objects), '', f'({len(objects)} rows)', ''])


def file_of(text, path):
    path.write_bytes(text if isinstance(text, bytes) else text.encode())
    return path


def shown(text):
    """What is kept of a text, and whether that is all."""
    front = text.encode()[:MOST].decode(errors='ignore')
    return front, front == text


# ---- the cases

def session(program, data, room):
    """A driver's session without its PREPAREs, which the file has, says what the whole one says."""
    for number in (0, 1):
        requests, responses = ((data / f'driver.{number}.{way}.bin').read_bytes() for way in ('requests', 'responses'))
        answers = {}
        for frame in frames(responses):
            answers.setdefault(stream_of(frame), []).append(frame)
        whole, bare, given = [], [], []
        for frame in frames(requests):
            pair = [(False, frame), *((True, answer) for answer in answers.get(stream_of(frame), [])[:1])]
            del answers.get(stream_of(frame), [])[:1]
            whole += pair
            if frame[4] != 0x09:
                bare += pair
                continue
            answer, length = pair[1][1], struct.unpack_from('>I', frame, 9)[0]
            given.append((answer[15:15 + struct.unpack_from('>H', answer, 13)[0]], frame[13:13 + length].decode()))
        one, other = capture_of(whole, room / 'whole.pcap'), capture_of(bare, room / 'bare.pcap')
        if not given:
            continue
        file = file_of(as_cqlsh([object_of(*statement) for statement in given]), room / 'statements.json')
        if len([line for line in ran(program, other)[1].splitlines() if ' EXECUTE ' in line and '"' in line.split(' -> ')[0]]):
            print('an EXECUTE has a text without a file')
        known = [line for line in ran(program, '--statements', file, other)[1].splitlines() if ' EXECUTE ' in line]
        for name, text in given:
            if not any(f'"{text}"' in line for line in known):
                print(f'no EXECUTE has {text!r}')
        for words in ([], ['--json'], ['--opcode', 'EXECUTE', '--summary'], ['--opcode', 'EXECUTE', '--summary', '--literal', '--json'],
                      ['--opcode', 'EXECUTE', '--summary', '--by', 'table'], ['--statement', 'WHERE k = ?'], ['--statement', given[0][1][:12]]):
            due = [line for line in ran(program, *words, one)[1].splitlines() if ' PREPARE ' not in line and '"PREPARE"' not in line]
            found = ran(program, *words, '--statements', file, other)[1].splitlines()
            if found != due or not due:
                print(f'{words}: {found}, and not {due}')


TEXTS = ['SELECT * FROM ks.t WHERE k = ?', 'SELECT "Name" FROM ks.t', "SELECT 'été' FROM ks.t", 'SELECT\n\t*\r\nFROM ks.t',
         'SELECT \'a\\%b\' FROM ks.t', '😀 ks', '{"k": 1}', '', 'x' * 252, 'x' * 253, 'x' * 251 + 'é', 'x' * 250 + 'é', 'y' * 249 + '😀',
         'SELECT "' + 'z' * 300 + '" FROM ks.t', ' [json] (3 rows) ----']


def texts(program, data, room):
    """Whatever a text has in it, and however an id is written."""
    ids = [struct.pack('>QQ', 0xFFEE << 48 | number, 7 * number) for number in range(len(TEXTS))]
    capture = capture_of(executes(ids), room / 'texts.pcap')
    upper = lambda line: line.replace(line[17:51], '0x' + line[19:51].upper())
    plain = [object_of(*statement) for statement in zip(ids, TEXTS)]
    forms = {
        'cqlsh': as_cqlsh(plain),
        'lines': '\n'.join(plain),
        'no escapes': '\n'.join(object_of(*statement, ensure_ascii=False) for statement in zip(ids, TEXTS)),
        'cqlsh without escapes': as_cqlsh([object_of(*statement, ensure_ascii=False) for statement in zip(ids, TEXTS)]),
        'upper case': as_cqlsh([upper(line) for line in plain]),
        'no 0x': as_cqlsh([object_of(*statement, hexadecimal='{}') for statement in zip(ids, TEXTS)]),
        'two columns': as_cqlsh([json.dumps({'query_string': text, 'prepared_id': '0x' + name.hex()}) for name, text in zip(ids, TEXTS)]),
        'CR LF': as_cqlsh(plain).replace('\n', '\r\n'),
        'no end': as_cqlsh(plain)[:-len(f'\n\n({len(plain)} rows)\n')],
        'in order of other ids': as_cqlsh(plain[::-1]),
        'tabs': '\n'.join('\t ' + line + ' \t' for line in plain),
    }
    for form, text in forms.items():
        found = [(of['statement'], of['statement_is_whole']) for of in objects(program, '--statements', file_of(text, room / 'statements.json'), capture)]
        for of, due in zip(found, map(shown, TEXTS), strict=True):
            if of != due:
                print(f'{form}: {of}, and not {due}')


def lengths(program, data, room):
    """Ids of 1 to 64 bytes, one of which begins another."""
    ids = [bytes([171] * length) for length in range(1, 65)] + [b'\0', b'\0\0', b'\xff' * 16, b'\xff' * 15 + b'\xfe']
    capture = capture_of(executes([*ids, b'\xab' * 65, b'\xac']), room / 'lengths.pcap')
    file = file_of(as_cqlsh([object_of(name, f'T{number}') for number, name in enumerate(ids)]), room / 'statements.json')
    found = [of['statement'] for of in objects(program, '--statements', file, capture)]
    if found != [f'T{number}' for number in range(len(ids))] + [None, None]:
        print(found)
    # An EXECUTE whose id is not all there, and a BATCH by id.
    batch = made.frame(0x04, 0, 0, 0x0D, b'\0' + struct.pack('>H', 2) + made.of_id(ids[3]) + made.of_id(ids[4]) + b'\0\1\0')
    void = made.frame(0x84, 0, 0, 0x08, VOID)
    [of] = objects(program, '--statements', file, capture_of([(False, batch), (True, void)], room / 'batch.pcap'))
    if (of['statement'], of['statements']) != ('T3', 2):
        print(of)


def first(program, data, room):
    """Of an id that comes twice the first text counts, of one that the capture prepares the capture's, from then on."""
    name, other, third = b'\1' * 16, b'\2' * 16, b'\3' * 16
    text = b'SELECT captured'
    prepare = made.frame(0x04, 0, 1, 0x09, struct.pack('>I', len(text)) + text)
    messages = [*executes([name, other, third]), (False, prepare), (True, made.prepared(1, name, [b'\0\x09'])), *executes([name, other, third])]
    lines = [object_of(name, 'SELECT given'), object_of(other, 'SELECT first'), object_of(other, 'SELECT second'), object_of(name, 'SELECT given later')]
    file = file_of(as_cqlsh(lines), room / 'statements.json')
    found = [of['statement'] for of in objects(program, '--statements', file, capture_of(messages, room / 'first.pcap'))]
    if found != ['SELECT given', 'SELECT first', None, 'SELECT captured', 'SELECT captured', 'SELECT first', None]:
        print(found)


def many(program, data, room):
    """60,000 statements of random ids, of which some are executed: the memory for them is bounded, and so is the time."""
    state, ids = 1, []
    for _ in range(60_000):
        state = state * 6364136223846793005 + 1442695040888963407 & (1 << 64) - 1
        ids.append(struct.pack('>QQ', state, state * 31 & (1 << 64) - 1))
    text = 'SELECT a, b, c FROM ks.t{} WHERE k = ? AND ' + 'long_name = ? AND ' * 20
    file = file_of(as_cqlsh([object_of(name, text.format(number)) for number, name in enumerate(ids)]), room / 'statements.json')
    asked = list(range(0, 60_000, 21))
    capture = capture_of(executes([ids[number] for number in asked]), room / 'many.pcap')
    begun = time.monotonic()
    found = [of['statement'] for of in objects(program, '--statements', file, capture)]
    took = time.monotonic() - begun
    if found != [shown(text.format(number))[0] for number in asked]:
        print('other texts')
    if took > 20:
        print(f'{took} seconds')

    done = subprocess.run([Path(made.__file__), 'most', program, 'capture', '--statements', file, capture], capture_output=True, text=True)
    status, most = map(int, done.stdout.split())
    if status or not 250 * 60_000 < most * 1024 < 450 * 60_000 + 16_000_000:
        print(f'status {status}, {most} KiB')


BAD = 'no row of system.prepared_statements, system_schema.columns or system_schema.types'
NONE = 'no statement; write it by cqlsh -e "SELECT JSON * FROM system.prepared_statements"'
GOOD = object_of(b'\1' * 16, 'SELECT')
REFUSED = [
    ('{', f':1: {BAD}'), (f' [json]\n-----\n {GOOD}\n{{"prepared_id": "0x00"}}\n', f':4: {BAD}'), ('\n\n{"query_string": "SELECT"}', f':3: {BAD}'),
    ('{}', f':1: {BAD}'), (f'{GOOD}\n{GOOD} {GOOD}', f':2: {BAD}'), (f'{GOOD},', f':1: {BAD}'), ('{"prepared_id": 7, "query_string": "SELECT"}', f':1: {BAD}'),
    ('{"prepared_id": "0x07", "query_string": null}', f':1: {BAD}'), (GOOD.encode() + b'\n{"prepared_id": "0x07", "query_string": "\xff"}', f':2: {BAD}'),
    ('\t {"prepared_id": "0x07", "query_string": "\t"}', f':1: {BAD}'),
    *((f'{{"prepared_id": "{bad}", "query_string": "SELECT"}}', f':1: {BAD}')
      for bad in ('', '0x', '0', '0x0', '0x012', '0xg0', '0x 0', '00x0', '0x0x00', '-0', '\\u0030\\u0078', 'é', '0x' + '00' * 65)),
    ('', f': {NONE}'), ('\n\n', f': {NONE}'), (' [json]\n--------\n\n(0 rows)\n', f': {NONE}'), ('[{"prepared_id": "0x07"}]', f': {NONE}'),
    ('x' * ((1 << 20) + 1), ':1: a line of more than 1048576 bytes'), (f'{GOOD}\n\n' + ' ' * (1 << 20) + '{', ':3: a line of more than 1048576 bytes'),
]


def refused(program, data, room):
    """What is no file of statements is refused, with its line, before anything of the capture is read."""
    for content, words in REFUSED:
        file = file_of(content, room / 'statements.json')
        for capture in (data / 'driver.pcap', room / 'none.pcap', '-'):
            found = ran(program, '--statements', file, capture)
            if found != (1, '', f'cqlp: {file}{words}\n'):
                print(f'{content[:90]!r}: {found}')
    file_of(GOOD + '\n' + ' ' * ((1 << 20) - len(GOOD)) + GOOD, room / 'statements.json')
    for file, said in ((room / 'statements.json', None), (room / 'none.json', f'cqlp: cannot open {room}/none.json\n'), (room, 'cqlp: read fault\n')):
        found = ran(program, '--port', '36401', '--statements', file, data / 'driver.pcap')
        if said and found != (3, '', said) or not said and found[0]:
            print(f'{file}: {found}')
    for other in (['--events'], ['--streams', room]):
        found = ran(program, '--statements', file, *other, data / 'driver.pcap')
        if found[:2] != (2, '') or other[0] not in found[2] or '--statements <FILE>' not in found[2]:
            print(f'{other}: {found}')


if __name__ == '__main__':
    globals()[sys.argv[1]](sys.argv[2], Path(sys.argv[3]), Path(sys.argv[4]))
