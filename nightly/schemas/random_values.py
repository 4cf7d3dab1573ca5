#!/usr/bin/env python3
"""random_values.py REQUEST STRUCT SEED COUNT [plain]    writes COUNT texts of random values of a struct, for `capnp encode`: as random_texts.py
does, with floats of any bits and texts of any characters. With `plain` floats are those that every notation writes alike."""
import os
import random
import struct
import sys

sys.path.insert(0, os.path.join(os.path.dirname(os.path.abspath(__file__)), "..", "fields"))
from random_texts import DEEPEST, Values
from request import load

# (`capnp encode` counts brackets and quotes within texts too, where it looks for a message's end)
CHARACTERS = [c if c.isalnum() else f"\\x{ord(c):02x}" for c in map(chr, range(1, 128))] + ["\u00e9", "\u0301", "\u4e2d", "\u202e", "\U0001f600"]
POINTERS_OF_ANY_KIND = (17, 18)
FLOATS = ["inf", "-inf", "nan", "0", "-0", "1", "-1"]


def has_text(kind):
    """Whether values of a type can be written as text: not capabilities, and not pointers of any kind."""
    return kind["kind"] not in POINTERS_OF_ANY_KIND and (kind["kind"] != 14 or has_text(kind["elem"]))


class AnyValues(Values):
    def __init__(self, nodes, source, plain=False):
        super().__init__(nodes, source)
        self.plain = plain

    def float(self, code):
        if self.random.random() < 0.3:
            return self.random.choice(FLOATS)
        if self.plain:
            return repr(self.random.randint(-999, 999) / self.random.choice([1, 2, 4, 8]))
        if self.random.random() < 0.3:
            return repr(self.random.randint(-10**9, 10**9) / 10**self.random.randint(0, 12))
        bits = self.random.getrandbits(64 if code == 11 else 32)
        number = struct.unpack("<d" if code == 11 else "<f", bits.to_bytes(8 if code == 11 else 4, "little"))[0]
        return "nan" if number != number else repr(number)

    def text(self):
        return '"' + "".join(self.random.choice(CHARACTERS) for _ in range(self.random.choice([0, 1, 2, 7, 8, 9, 30]))) + '"'

    def value(self, kind, depth):
        if kind["kind"] == 14 and not has_text(kind):
            return "[]"
        return super().value(kind, depth)


def main(path, root, seed, count, plain=""):
    nodes, _, _ = load(path)
    values = AnyValues(nodes, random.Random(int(seed)), plain == "plain")
    node = next(n for n in nodes.values() if n["name"].endswith(":" + root))
    for _ in range(int(count)):
        print(values.struct(node, 0))


if __name__ == "__main__":
    main(*sys.argv[1:])
