"""Prints the frames in a file: python3 messages.py FILE"""

import sys

import cqlp
from cqlp import messages

for frame in cqlp.frames(sys.argv[1], longest=1 << 20):
    message = frame.message
    if isinstance(message, messages.Rows):
        print(len(message.rows), "rows, the first is", message.rows[0] if message.rows else None)
    elif isinstance(message, messages.Unavailable):
        level = cqlp.name(cqlp.Group.CONSISTENCY, message.consistency)
        print(message.message, level, message.alive, "of", message.required)
    elif isinstance(message, messages.Query):
        print(message.query, message.parameters.values)
    else:
        print(message)
