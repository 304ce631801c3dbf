"""Passes requests on from standard input to standard output, with OLD replaced by NEW in the texts of queries: python3 replace.py OLD NEW"""

import os
import sys

import cqlp
from cqlp import Field, Tag

old, new = map(os.fsencode, sys.argv[1:])


def altered(event: cqlp.Event) -> cqlp.Event:
    if event.tag == Tag.TEXT and event.field == Field.QUERY:
        return event._replace(content=event.content.replace(old, new))
    return event


try:
    for frame in cqlp.encode_frames(map(altered, cqlp.events(sys.stdin.buffer))):
        sys.stdout.buffer.write(frame)
        sys.stdout.buffer.flush()
except (cqlp.BadEvent, cqlp.Refused, cqlp.Cut) as error:
    sys.exit(str(error))
