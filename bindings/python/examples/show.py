"""Writes a line for each event of a file, and the verdict to standard error, as `cqlp show` does: python3 examples/show.py FILE"""

import sys

import cqlp


def main() -> None:
    with open(sys.argv[1], "rb") as file, cqlp.Decoder() as decoder:
        try:
            while piece := file.read(4096):
                for event in decoder.decode(piece):
                    print(event)
        except cqlp.Refused as refused:
            for event in refused.events:
                print(event)
        sys.stdout.flush()
        print(decoder.finish(), file=sys.stderr)


main()
