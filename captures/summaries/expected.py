#!/usr/bin/env python3
"""What is to be said of lines.txt, from the definitions in crates/cqlp_capture_summary/specs, and by whole lists of times. Writes said.txt."""
import os
import re

HIDDEN = re.compile('[\x00-\x1f\x7f-\x9f\u061c\u200e\u200f\u2028-\u202e\u2066-\u2069]')
HEADER = '     %    time_ms    count errors unanswered      rows       bytes   p50_ms   p95_ms   p99_ms    max_ms statement\n'
MOST = 2 ** 64 - 1


def shown(text):
    text = text.replace('\\', '\\\\').replace('"', '\\"')
    return HIDDEN.sub(lambda m: ''.join(f'\\x{b:02x}' for b in m[0].encode()), text)


def greatest_in_bucket(time):
    """A time is counted by its first six binary digits."""
    dropped = max(time.bit_length() - 6, 0)
    return (time >> dropped << dropped) + (1 << dropped) - 1


def ms(width, time):
    return f'{time // 1000000:{width}}.{time // 1000 % 1000:03}'


def quantile(times, hundredths):
    rank = -(-len(times) * hundredths // 100)
    return min(greatest_in_bucket(sorted(times)[rank - 1]), max(times))


def line(name, entries, total, missing=0):
    times = [e[3] for e in entries if e[3] is not None]
    time = min(sum(times), MOST)
    share = min(time * 1000 // max(total, 1), 1000)
    text = f' {share // 10:3}.{share % 10} {ms(6, time)}'
    sums = [min(sum(e[i] for e in entries), MOST) for i in (1, 2)]
    counts = [sum(e[0] == kind for e in entries) for kind in ('error', 'unanswered')]
    text += f' {len(entries):8} {counts[0]:6} {counts[1]:10} {sums[0]:9} {sums[1]:11}'
    if times:
        text += ''.join(f' {ms(4, quantile(times, hundredths))}' for hundredths in (50, 95, 99)) + f' {ms(5, max(times))}'
    else:
        text += f' {"-":>8} {"-":>8} {"-":>8} {"-":>9}'
    if missing:
        text += f' (up to {ms(1, missing)} ms more)'
    return f'{text} {name}\n'


def time_of(entries):
    return min(sum(e[3] or 0 for e in entries), MOST)


def table_of(limit, entries):
    """The table: for each place its name, the most time that the statement may have taken, and its entries; and the entries of the others."""
    table, others = [], []
    for entry in entries:
        place = next((p for p in table if p['name'] == entry[4]), None)
        if place is None and len(table) < limit:
            place = {'name': entry[4], 'weight': 0, 'entries': []}
            table.append(place)
        elif place is None and limit:
            place = min(table, key=lambda p: p['weight'])
            others += place['entries']
            place['name'], place['entries'] = entry[4], []
        if place is None:
            others.append(entry)
        else:
            place['weight'] = min(place['weight'] + (entry[3] or 0), MOST)
            place['entries'].append(entry)
    return table, others


def summary(limit, entries):
    table, others = table_of(limit, entries)
    total, text = time_of(entries), HEADER
    for place in sorted(table, key=lambda p: -time_of(p['entries'])):
        kept, whole = place['name']
        missing = max(place['weight'] - time_of(place['entries']), 0)
        text += line(shown(kept.decode('utf-8', 'ignore')) + ('' if whole else '..'), place['entries'], total, missing)
    return text + (line('others', others, total) if others else '')


def main():
    here = os.path.dirname(os.path.abspath(__file__))
    said, limit, entries = '', 0, []
    with open(f'{here}/lines.txt', encoding='utf-8', newline='\n') as file:
        rows = file.read().split('\n')[:-1]
    for row in rows:
        if row.startswith('statements '):
            said += summary(limit, entries)
            limit, entries = int(row.split(' ')[1]), []
            continue
        kind, count, size, took, name = row.split(' ', 4)
        whole = not name.startswith('..')
        raw = name.lstrip('.').encode() if not whole else name.encode()
        key = (raw[:256], whole and len(raw) <= 256)
        entries.append((kind, int(count), int(size), None if took == '-' else int(took), key))
    said += summary(limit, entries)
    with open(f'{here}/said.txt', 'w', encoding='utf-8', newline='\n') as file:
        file.write(said)


if __name__ == '__main__':
    main()
