#!/usr/bin/env python3
"""Writes the fuzzer's seeds into a folder: each frame of a file of frames, in each form."""
import os
import sys

frames, folder = sys.argv[1:]
os.makedirs(folder, exist_ok=True)
for number, line in enumerate(open(frames)):
    if line.startswith("#"):
        continue
    _, plain, packed, _ = line.rstrip("\n").split("\t")
    for form, digits in enumerate([plain, packed, plain]):
        with open(f"{folder}/{number}.{form}", "wb") as out:
            out.write(bytes([form]) + bytes.fromhex(digits))
