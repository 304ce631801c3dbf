"""Prints the frames in a file, and why bad ones are passed over: python3 frames.py FILE"""

import sys

import cqlp


def pass_over(skipped: cqlp.Skipped) -> None:
    print("under the stream id %d: %s" % (skipped.frame.extra, skipped))


try:
    for frame in cqlp.frames(sys.argv[1], skip=pass_over):
        print(frame.stream, frame.message)
except (cqlp.Refused, cqlp.Cut) as error:
    sys.exit(str(error))
