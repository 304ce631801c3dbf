"""Reads a page whose only cell is a list that says 2,147,483,647 elements, and has two."""

import cqlp

FRAME = bytes.fromhex(
    "840000000800000031 00000002 00000001 00000001 0001 6b 0001 74 0001 63 0020 0009 00000001"
    " 00000010 7fffffff 00000004 00000001 ffffffff"
)


def main() -> None:
    with cqlp.Decoder(cqlp.Limits(cell=1024, text=1024)) as decoder:
        try:
            decoder.decode(FRAME)
        except cqlp.Refused as refused:
            print(refused.events[-1])
            print(refused)
        print(decoder.finish(), decoder.held())


main()
