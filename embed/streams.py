#!/usr/bin/env python3
"""streams.py FRAMES FOLDER    writes streams into FOLDER: of a file of frames all in one, plain and packed as the reference writer does
it, and the lines that a check prints; and streams at fault, with what is said of each."""
import os
import sys

frames, folder = sys.argv[1:]
os.makedirs(folder, exist_ok=True)


def write(name, what):
    with open(f"{folder}/{name}", "wb" if isinstance(what, bytes) else "w") as out:
        out.write(what)


rows = [line.rstrip("\n").split("\t") for line in open(frames) if not line.startswith("#")]
plain, packed = (b"".join(bytes.fromhex(row[n]) for row in rows) for n in (1, 2))
write("all.plain", plain)
write("all.packed", packed)
write("all.said", f"{len(rows)} frames, {len(plain)} bytes\n")
first = bytes.fromhex(rows[0][1])
size = len(first)
at_fault = {
    "cut": (first + first[:-1], f"refused at byte {size}: F3 Truncated"),
    "segments": (first + (512).to_bytes(4, "little"), f"refused at byte {size}: F1 TooManySegments"),
    "large": (first + bytes(4) + (8388609).to_bytes(4, "little"), f"refused at byte {size}: F2 FrameTooLarge"),
    "null": (bytes(4) + (1).to_bytes(4, "little") + bytes(8), "refused at byte 0: G1 NoRoot segment 0 word 0"),
    "outside": (bytes(4) + (1).to_bytes(4, "little") + bytes([0, 0, 0, 0, 1, 0, 0, 0]), "refused at byte 0: G3 OutOfBounds segment 0 word 0"),
}
for name, (stream, said) in at_fault.items():
    write(f"{name}.bad", stream)
    write(f"{name}.fault", said)
