#!/usr/bin/env python3
"""annotate.py SEED FILE..    gives declarations of schemas that random_schema.py made annotations of json.capnp at
random: names, base64 and hex for data, prefixes for the fields of groups in their place, and tags for unions. No two
names come to be the same."""
import random
import re
import sys

IMPORT = 'using JsonOf = import "/capnp/compat/json.capnp";'


class Annotator:
    def __init__(self, seed):
        self.random = random.Random(seed)
        self.number = 0

    def name(self):
        self.number += 1
        return f"{self.random.choice(['n_', 'é', 'a b', '-'])}{self.number}"

    def chance(self, of):
        return self.random.random() < of

    def field(self, line):
        """A field's line, or an enumerant's."""
        said = f' $JsonOf.name("{self.name()}")' if self.chance(0.2) else ""
        if re.search(r":Data\b", line) and self.chance(0.6):
            said += self.random.choice([" $JsonOf.base64", " $JsonOf.hex"])
        return line[:-1] + said + ";" if line.endswith(";") else line

    def group(self, line, may_flatten):
        """The head of a group, or of a union that has a name."""
        said = ""
        if may_flatten and self.chance(0.4):
            said += f' $JsonOf.flatten(prefix = "{self.name()}")'
        elif self.chance(0.2):
            said += f' $JsonOf.name("{self.name()}")'
        if ":union" in line and self.chance(0.5):
            said += f' $JsonOf.discriminator(name = "{self.name()}")'
        return line[:-2] + said + " {"

    def struct(self, line):
        """The head of a struct."""
        if not self.chance(0.4):
            return line
        value = f', valueName = "{self.name()}"' if self.chance(0.5) else ""
        return line[:-2] + f' $JsonOf.discriminator(name = "{self.name()}"{value}) {{'

    def line(self, line, heads):
        if re.match(r"\s+\w+ @\d+( :|;| \$)", line) and "->" not in line:
            return self.field(line)
        if re.match(r"\s+\w+ :(group|union)\b.* \{$", line):
            return self.group(line, may_flatten(heads))
        if re.match(r"\s*struct \w+.* \{$", line):
            return self.struct(line)
        return line

    def text(self, text):
        first, *lines = text.split("\n")
        heads, done = [], [first, IMPORT]
        for line in lines:
            line = self.line(line, heads)
            if line.endswith(" {"):
                heads.append(line)
            elif line.strip() == "}":
                heads.pop()
            done.append(line)
        return "\n".join(done)


def may_flatten(heads):
    """Whether the fields of a group in these blocks may stand in its place: in a union only where that has a tag, and
    its values have names of their own."""
    if heads[-1].strip() == "union {":
        union = heads[-2]
    elif ":union" in heads[-1]:
        union = heads[-1]
    else:
        return True
    return "$JsonOf.discriminator" in union and "valueName" not in union


def main(seed, *paths):
    for path in paths:
        with open(path, encoding="utf-8") as file:
            text = file.read()
        with open(path, "w", encoding="utf-8") as file:
            file.write(Annotator(int(seed)).text(text))


if __name__ == "__main__":
    main(*sys.argv[1:])
