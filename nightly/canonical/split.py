#!/usr/bin/env python3
"""split.py FILE STEM    writes each plain frame of FILE to a file of its own: STEM.0, STEM.1 and so on."""
import struct
import sys


def frames(data):
    """The frames that data is, one after another."""
    while data:
        segments = struct.unpack_from("<I", data)[0] + 1
        sizes = struct.unpack_from(f"<{segments}I", data, 4)
        size = (4 + 4 * segments + 7) // 8 * 8 + 8 * sum(sizes)
        yield data[:size]
        data = data[size:]


file, stem = sys.argv[1:]
with open(file, "rb") as source:
    for number, frame in enumerate(frames(source.read())):
        with open(f"{stem}.{number}", "wb") as one:
            one.write(frame)
