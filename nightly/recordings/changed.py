#!/usr/bin/env python3
"""changed.py STREAM OLD NEW    changes the one message of a stream of one-segment frames whose results are this number"""
import struct
import sys

path, old, new = sys.argv[1], *map(int, sys.argv[2:])
stream = bytearray(open(path, "rb").read())
at, found = 0, []
while at < len(stream):
    count, words = struct.unpack_from("<II", stream, at)
    assert count == 0
    end = at + 8 + words * 8
    # Results of one data word are the last word of their frame.
    if struct.unpack_from("<Q", stream, end - 8)[0] == old:
        found.append(end - 8)
    at = end
assert len(found) == 1, found
struct.pack_into("<Q", stream, found[0], new)
open(path, "wb").write(stream)
