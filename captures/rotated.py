#!/usr/bin/env python3
"""Captures in several files, as tcpdump's -G and -C write them: rotated.py CASE PROGRAM DATA ROOM prints what is wrong.

The lines of the files have to be those of the one file that they were split from, wherever it is split; what the last line says is another verdict, since
that is of the last file, and how many files came after the first."""
import os
import re
import subprocess
import sys
import threading
import time
from pathlib import Path

PORTS = ['--port', '36401', '--port', '40971']
HEADER, RECORD = 24, 16


def packets(capture):
    """The records of a pcap file, each with its header."""
    order = 'little' if capture[:1] in (b'\xd4', b'\x4d') else 'big'
    at, records = HEADER, []
    while at < len(capture):
        size = RECORD + int.from_bytes(capture[at + 8:at + 12], order)
        records.append(capture[at:at + size])
        at += size
    return records


def split(capture, sizes, folder):
    """Files with so many packets each, and one with those that are left."""
    folder.mkdir(exist_ok=True)
    records, files, at = packets(capture), [], 0
    for size in [*sizes, len(records)]:
        files.append(folder / f'{len(files):03}.pcap')
        files[-1].write_bytes(capture[:HEADER] + b''.join(records[at:at + size]))
        at += size
    return files


def ran(program, files, *words):
    done = subprocess.run([program, 'capture', *PORTS, *words, *files], stdin=subprocess.DEVNULL, capture_output=True, timeout=60)
    return done.returncode, done.stdout.decode(), done.stderr.decode()


def without_verdict(line):
    """The last line without the bytes of its verdict and the number of files."""
    return re.sub(r' MoreFiles \d+', '', re.sub(r'(?m)^whole \d+', 'whole', line))


def compare(what, one, several, more):
    if several[:2] != one[:2]:
        print(f'{what}: {several[:2]}, of one file {one[:2]}')
    if without_verdict(several[2]) != without_verdict(one[2]):
        print(f'{what}: {several[2]!r}, of one file {one[2]!r}')
    found = re.search(r' MoreFiles (\d+)', several[2])
    if int(found[1] if found else 0) != more:
        print(f'{what}: {several[2]!r}, and not {more} more files')


def same_lines(program, data, room):
    """Wherever a capture is split its lines are the same."""
    for name in ('driver', 'driver-ns', 'driver-big-endian', 'driver-sll2', 'driver-lost', 'driver-snapped', 'driver-overlap'):
        capture = (data / f'{name}.pcap').read_bytes()
        count = len(packets(capture))
        for sizes in ([count // 2], [1], [count - 1], [0, count // 3, 0, count // 3], [count], [1] * count):
            files = split(capture, sizes, room / 'rotated')
            for words in ([], ['--json'], ['--summary'], ['--events'], ['--rows', '--connection', '2']) if name == 'driver' else ([],):
                order = ['--order', '1000']
                compare(f'{name} {sizes} {words}', ran(program, [data / f'{name}.pcap'], *words, *order), ran(program, files, *words, *order), len(sizes))


def other_forms(program, data, room):
    """Each file has a form of its own."""
    capture = (data / 'driver.pcap').read_bytes()
    files = split(capture, [len(packets(capture)) // 2], room / 'rotated')
    empty = split((data / 'driver-big-endian.pcap').read_bytes(), [0], room / 'empty')[0]
    compare('a pcapng file after an empty one', ran(program, [data / 'driver.pcapng']), ran(program, [empty, data / 'driver.pcapng']), 1)
    compare('an empty one in between', ran(program, [data / 'driver.pcap']), ran(program, [files[0], empty, files[1]]), 2)


def cut_file(program, data, room):
    """A file that ends within a packet is counted, and the next one is read from its begin."""
    capture = (data / 'driver.pcap').read_bytes()
    files = split(capture, [1], room / 'rotated')
    first = files[0].read_bytes()
    for cut in (HEADER + RECORD // 2, HEADER + RECORD, len(first) - 1, 10):
        files[0].write_bytes(first[:cut])
        alone, both = ran(program, [files[1]]), ran(program, files)
        if (both[0], both[1].count('\n')) != (1, alone[1].count('\n')) or not both[2].endswith(' MoreFiles 1 CutFiles 1\n'):
            print(f'cut at {cut}: {both}')
    files[1].write_bytes(files[1].read_bytes()[:-1])
    last = ran(program, files[1:])
    if last[0] != 1 or not last[2].startswith('cut ') or 'CutFiles' in last[2]:
        print(f'the last one cut: {last}')


def missing_file(program, data, room):
    """No line is written where a file cannot be opened."""
    missing = room / 'none.pcap'
    for files in ([data / 'driver.pcap', missing], [missing, data / 'driver.pcap'], [data / 'driver.pcap', data / 'driver.pcap', missing]):
        said = ran(program, files)
        if said != (3, '', f'cqlp: cannot open {missing}\n'):
            print(said)


def refused_file(program, data, room):
    """A file that is no capture ends the reading, with what came before it."""
    other = room / 'other'
    other.write_bytes(bytes(100))
    one, both = ran(program, [data / 'driver.pcap']), ran(program, [data / 'driver.pcap', other, data / 'driver.pcap'])
    if both[:2] != (1, one[1]) or not both[2].startswith('refused 0 UnknownMagic ') or not both[2].endswith(' MoreFiles 1\n'):
        print(both)


def pipes(program, data, room):
    """A pipe among several files is opened once, when its turn comes, however long what is written to it."""
    capture = (data / 'driver.pcap').read_bytes()
    long, pipe = room / 'long.pcap', room / 'pipe'
    long.write_bytes(capture[:HEADER] + b''.join(packets(capture)) * 200)
    os.mkfifo(pipe)
    whole = ran(program, [data / 'driver.pcap', long])
    for _ in range(5):
        writer = threading.Thread(target=pipe.write_bytes, args=[long.read_bytes()], daemon=True)
        writer.start()
        compare('a pipe', whole, ran(program, [data / 'driver.pcap', pipe]), 1)
        writer.join(10)
        if writer.is_alive():
            print('the pipe is not read to its end')


def followed(program, data, room):
    """Files whose paths come on standard input give the same lines as those that are named, as each path comes."""
    capture = (data / 'driver.pcap').read_bytes()
    count = len(packets(capture))

    def follow(names, *words):
        done = subprocess.run([program, 'capture', *PORTS, *words, '--follow', '-'], input=names, capture_output=True, timeout=60)
        return done.returncode, done.stdout.decode(), done.stderr.decode()

    for sizes in ([count // 2], [0, count // 3, 0, count // 3], [1] * count):
        files = split(capture, sizes, room / 'rotated')
        for words in ([], ['--json'], ['--summary'], ['--events'], ['--rows', '--connection', '2']):
            named = ran(program, files, *words, '--order', '0')
            for ends in ('\n', '\n\n\n'):
                compare(f'{sizes} {words} {ends!r}', named, follow(ends.join(map(str, files)).encode(), *words), len(sizes))
    with subprocess.Popen([program, 'capture', *PORTS, '--follow', '-'], stdin=subprocess.PIPE, stdout=subprocess.PIPE, stderr=subprocess.DEVNULL) as live:
        first, rest = files[0:count // 2], files[count // 2:]
        lines = ran(program, first, '--order', '0')[1].count('-> ') - ran(program, first, '--order', '0')[1].count('-> nothing')
        for path in first:
            for byte in f'{path}\n'.encode():
                live.stdin.write(bytes([byte]))
                live.stdin.flush()
        early = [live.stdout.readline() for _ in range(lines)]
        live.stdin.write(''.join(f'{path}\n' for path in rest).encode())
        live.stdin.close()
        if b''.join(early) + live.stdout.read() != ran(program, files, '--order', '0')[1].encode() or lines < 5:
            print(f'live: {early}')
    path = f'{data.resolve()}/driver.pcap'
    long = '/'.join(['', *['.'] * ((4_095 - len(path)) // 2)]) + path
    for names, said in (('', 'cqlp: cannot open a capture: standard input names none\n'), ('\n\n', 'cqlp: cannot open a capture: standard input names none\n'),
                        ('none', 'cqlp: cannot open none\n'), (f'{path}\nnone\n', 'cqlp: read fault\ncqlp: cannot open none\n'),
                        ('\udcff\n', 'cqlp: cannot open a capture: standard input names none\n'), ('a' * 5_000,
                        'cqlp: cannot open a capture: standard input names none\n')):
        got = follow(names.encode('utf-8', 'surrogateescape'), '--summary')
        if got != (3, '', said):
            print(f'{names[:50]!r}: {got}')
    if follow(f'{long}\n'.encode())[0] != 0 or not 4_090 < len(long) < 4_096:
        print(f'a path of {len(long)} bytes')


def growing(program, data, room):
    """Of a folder into which captures are written, and of a file that grows, each line comes as its packet does; what else the folder has is no capture."""
    capture = (data / 'driver.pcap').read_bytes()
    records, folder = packets(capture), room / 'growing'
    folder.mkdir()
    (folder / 'notes.txt').write_text('no capture')
    (folder / 'of.pcap').mkdir()
    count = len(records) // 4
    wanted = ran(program, [data / 'driver.pcap'], '--order', '0')[1]
    for path, parts in ((folder, ['z.pcap', 'a.pcap0', 'a.pcap10', 'cap.pcapng']), (room / 'one.pcap', ['../one.pcap'] * 4)):
        (room / 'one.pcap').write_bytes(capture[:HEADER])
        with subprocess.Popen([program, 'capture', *PORTS, '--follow', path], stdin=subprocess.PIPE, stdout=subprocess.PIPE, stderr=subprocess.PIPE) as live:
            early = b''
            for at, name in enumerate(parts):
                # Files that were written within one tick of the system's clock go by their names.
                time.sleep(.02)
                part = b''.join(records[at * count:(at + 1) * count if at < 3 else None])
                with open(folder / name, 'ab') as file:
                    file.write((b'' if name.startswith('..') else capture[:HEADER]) + part[:-9])
                    file.flush()
                    early += live.stdout.readline() if at else b''
                    file.write(part[-9:])
            live.stdin.close()
            got = early + live.stdout.read(), live.stderr.read().decode(), live.wait()
        more = 3 if path == folder else 0
        if got[0].decode() != wanted or got[2] != 0 or f' MoreFiles {more}' * (more > 0) not in got[1] or not got[1].startswith('whole '):
            print(f'{path.name}: {got}')
    (room / 'empty').mkdir()
    for path in ('empty', 'none'):
        got = ran(program, [room / path], '--follow') if path == 'none' else emptied(program, room / path)
        if got != (3, '', f'cqlp: cannot open {room / path}\n'):
            print(f'{path}: {got}')


def at_once(program, data, room):
    """Captures of a folder that were written at once go by their numbers, as tcpdump's -C counts them, or else by their names."""
    capture = (data / 'driver.pcap').read_bytes()
    wanted = ran(program, [data / 'driver.pcap'], '--order', '0')[1]
    for names in ([f'cap.pcap{at or ""}' for at in range(13)], [f'cap_{at:05}.pcap' for at in range(13)]):
        folder = room / names[1]
        for file, name in zip(split(capture, [2] * 12, folder), names):
            file.rename(folder / name)
            os.utime(folder / name, (1_700_000_000, 1_700_000_000))
        with subprocess.Popen([program, 'capture', *PORTS, '--follow', folder], stdin=subprocess.PIPE, stdout=subprocess.PIPE, stderr=subprocess.PIPE) as live:
            got, said = live.communicate(timeout=60)
        if got.decode() != wanted or b' MoreFiles 12' not in said:
            print(f'{names[1]}: {got} {said}')


def belated(program, data, room):
    """A capture that was written at once with the last one, and comes into the folder after that was read, is read whatever its name, and none is read again."""
    capture, folder = (data / 'driver.pcap').read_bytes(), room / 'belated'
    files = split(capture, [len(packets(capture)) // 4] * 3, room / 'apart')
    firsts = [ran(program, files[:at + 1], '--order', '0')[1] for at in range(4)]
    counts = [lines.count('\n') - lines.count('-> nothing') for lines in firsts]
    folder.mkdir()
    with subprocess.Popen([program, 'capture', *PORTS, '--follow', folder], stdin=subprocess.PIPE, stdout=subprocess.PIPE, stderr=subprocess.PIPE) as live:
        early, watchdog = [], threading.Timer(30, live.kill)
        watchdog.start()
        for path, name, count in zip(files, ('c.pcap', 'b.pcap', 'bb.pcap', 'a.pcap'), counts):
            os.utime(path, (1_700_000_000, 1_700_000_000))
            path.rename(folder / name)
            early += [live.stdout.readline() for _ in range(count - len(early))]
        got, said = live.communicate()
        watchdog.cancel()
    if b''.join(early) + got != firsts[3].encode() or b' MoreFiles 3' not in said:
        print(f'{early} {got} {said}')


def emptied(program, folder):
    """What is said of a folder without captures, of which none comes before standard input ends."""
    done = subprocess.run([program, 'capture', '--follow', folder], input=b'', capture_output=True, timeout=60)
    return done.returncode, done.stdout.decode(), done.stderr.decode()


def streams(program, data, room):
    """The streams of connections go on from file to file."""
    capture = (data / 'driver.pcap').read_bytes()
    files, folder = split(capture, [1] * len(packets(capture)), room / 'rotated'), room / 'streams'
    folder.mkdir()
    said = ran(program, files, '--streams', str(folder))
    for number in (1, 2):
        for way in ('requests', 'responses'):
            if (folder / f'{number}.{way}.bin').read_bytes() != (data / f'driver.{number - 1}.{way}.bin').read_bytes():
                print(f'{number} {way}: {said}')


if __name__ == '__main__':
    globals()[sys.argv[1]](sys.argv[2], Path(sys.argv[3]), Path(sys.argv[4]))
