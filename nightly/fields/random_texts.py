#!/usr/bin/env python3
"""random_texts.py REQUEST STRUCT SEED COUNT    writes COUNT texts of random values of a struct, for `capnp encode`."""
import random
import struct
import sys

from request import load

RANGES = {2: (-2**7, 2**7 - 1), 3: (-2**15, 2**15 - 1), 4: (-2**31, 2**31 - 1), 5: (-2**63, 2**63 - 1),
          6: (0, 2**8 - 1), 7: (0, 2**16 - 1), 8: (0, 2**32 - 1), 9: (0, 2**64 - 1)}
DEEPEST = 5


class Values:
    """Random values of the types of `nodes`, which are as request.py reads them."""

    def __init__(self, nodes, source):
        self.nodes = nodes
        self.random = source

    def number(self, low, high):
        """The edges more often than others."""
        return self.random.choice([low, high, 0, 1, self.random.randint(low, high)])

    def float(self, _code):
        number = self.random.choice([0.5, -1.25, 1e10, 3.0, self.random.randint(-10**6, 10**6) / 8])
        return self.random.choice(["inf", "-inf", "nan", repr(struct.unpack("<f", struct.pack("<f", number))[0])])

    def text(self):
        return '"' + "".join(self.random.choice("ab z\u00e9\u4e2d") for _ in range(self.random.randint(0, 9))) + '"'

    def value(self, kind, depth):
        code = kind["kind"]
        if code == 0:
            return "void"
        if code == 1:
            return self.random.choice(["true", "false"])
        if code in RANGES:
            return str(self.number(*RANGES[code]))
        if code in (10, 11):
            return self.float(code)
        if code == 12:
            return self.text()
        if code == 13:
            return '0x"' + "".join(f"{self.random.randrange(256):02x}" for _ in range(self.random.randint(1, 9))) + '"'
        if code == 14:
            count = self.random.randint(0, 4) if depth < DEEPEST else 0
            return "[" + ", ".join(self.value(kind["elem"], depth + 1) for _ in range(count)) + "]"
        if code == 15:
            return self.random.choice(self.nodes[kind["id"]]["enumerants"])
        return self.struct(self.nodes[kind["id"]], depth + 1)

    def struct(self, node, depth):
        """Some of the fields, and one member of the union."""
        fields = [f for f in node["fields"] if f["disc"] == 0xFFFF]
        members = [f for f in node["fields"] if f["disc"] != 0xFFFF]
        chosen = [f for f in fields if self.random.random() < 1.4 / (depth + 1)]
        if members and self.random.random() < 0.8:
            chosen.append(self.random.choice(members))
        parts = []
        for field in chosen:
            if field["which"] == 1:
                parts.append(f"{field['name']} = {self.struct(self.nodes[field['group']], depth)}")
            elif field["type"]["kind"] not in (17, 18) and depth < DEEPEST:
                parts.append(f"{field['name']} = {self.value(field['type'], depth)}")
        return "(" + ", ".join(parts) + ")"


if __name__ == "__main__":
    path, root, seed, count = sys.argv[1], sys.argv[2], int(sys.argv[3]), int(sys.argv[4])
    nodes, _, _ = load(path)
    values = Values(nodes, random.Random(seed))
    node = next(n for n in nodes.values() if n["name"].endswith(":" + root))
    for _ in range(count):
        print(values.struct(node, 0))
