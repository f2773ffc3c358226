"""Writes a header and packets after it, for the word `node`. It is no part of the proved program.

    python3 packets.py HEADER NODES BYTES PACKETS

HEADER is a file with a plan and the lines of a node; each packet has cells of so many nodes, each of
so many bytes. Two of three cells have the same state in all nodes, the others any bytes: the same
each time. Every thousandth cell has another length.
"""

import random
import sys


def cell(source, common, size):
    if source.randrange(1000) == 0:
        size = source.randrange(2 * size + 1)
        return size.to_bytes(2, "big") + source.randbytes(size)
    state = common if source.randrange(3) else source.randbytes(size)
    return size.to_bytes(2, "big") + state


def main():
    header, nodes, size, packets = sys.argv[1], *map(int, sys.argv[2:])
    source = random.Random(7)
    with open(header, "rb") as text:
        sys.stdout.buffer.write(text.read())
    for _ in range(packets):
        common = source.randbytes(size)
        sys.stdout.buffer.write(b"".join(cell(source, common, size) for _ in range(nodes)))


main()
