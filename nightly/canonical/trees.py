#!/usr/bin/env python3
"""trees.py SEED COUNT    writes this many frames of random trees without capabilities: structs and lists of structs that end in zero words
and null pointers, lists of every size with bits set past their elements, empty structs and lists, and gaps between bodies."""
import random
import struct
import sys

WIDTHS = {0: 0, 1: 1, 2: 8, 3: 16, 4: 32, 5: 64}


class Segment:
    """The words of a message that is written, bodies in any order."""

    def __init__(self, dice):
        self.dice, self.words = dice, [0]

    def room(self, count):
        """Where a body of this many blank words begins, in places after words that nothing points to."""
        if self.dice.random() < 0.1:
            self.words += [self.dice.getrandbits(64) for _ in range(self.dice.randrange(1, 3))]
        start = len(self.words)
        self.words += [0] * count
        return start

    def point(self, at, start, low, high):
        self.words[at] = (start - at - 1) % 2**30 * 4 + low + high * 2**32

    def datum(self):
        return self.dice.choice([0, 0, 0, 1, self.dice.getrandbits(64)])

    def parts(self, start, data, pointers, depth):
        """Fills a struct's words."""
        for place in range(start, start + data):
            self.words[place] = self.datum()
        for place in range(start + data, start + data + pointers):
            if self.dice.random() < 0.5:
                self.tree(place, depth - 1)

    def struct(self, at, depth):
        data, pointers = self.dice.randrange(4), self.dice.randrange(4) if depth else 0
        start = at if data + pointers == 0 else self.room(data + pointers)
        self.point(at, start, 0, data + pointers * 2**16)
        self.parts(start, data, pointers, depth)

    def numbers(self, at):
        size = self.dice.randrange(6)
        count = self.dice.choice([0, 1, 2, 3, 7, 8, 9, 63, 64, 65, self.dice.randrange(200)])
        words = (count * WIDTHS[size] + 63) // 64
        start = self.room(words)
        for place in range(start, start + words):
            self.words[place] = self.datum()
        self.point(at, start, 1, size + count * 8)

    def pointers(self, at, depth):
        count = self.dice.randrange(4)
        start = self.room(count)
        self.point(at, start, 1, 6 + count * 8)
        self.parts(start, 0, count, depth)

    def structs(self, at, depth):
        count, data, pointers = (self.dice.randrange(4) for _ in range(3))
        size = count * (data + pointers)
        start = self.room(1 + size)
        self.point(at, start, 1, 7 + size * 8)
        self.words[start] = 4 * count + (data + pointers * 2**16) * 2**32
        for element in range(count):
            self.parts(start + 1 + element * (data + pointers), data, pointers, depth)

    def tree(self, at, depth):
        if depth <= 0:
            return self.numbers(at)
        kinds = [self.struct, self.pointers, self.structs]
        return self.dice.choice(kinds)(at, depth) if self.dice.random() < 0.7 else self.numbers(at)


seed, number = map(int, sys.argv[1:])
for it in range(number):
    segment = Segment(random.Random(seed * 1000003 + it))
    segment.struct(0, 4)
    sys.stdout.buffer.write(struct.pack("<II", 0, len(segment.words)))
    sys.stdout.buffer.write(struct.pack(f"<{len(segment.words)}Q", *segment.words))
