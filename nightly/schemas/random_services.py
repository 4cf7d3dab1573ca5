#!/usr/bin/env python3
"""random_services.py SEED FOLDER    writes a small random schema into FOLDER, vSEED.capnp, whose code is proved in minutes: an enum, a struct with
a union, and two interfaces, one of which may extend the other. Many names are words that clauses of the code have too."""
import os
import random
import sys

WORDS = """on not blank w32 textTree withPointer withUint bytesTree capTree requestOf areOf naming noneNamed length map binary64 toBits bitXor
castUnsigned r caller table params value body at plain flag target alloc call content isCall text data list""".split()
NUMBERS = ["Bool", "Int8", "Int16", "Int32", "Int64", "UInt8", "UInt16", "UInt32", "UInt64", "Float32", "Float64"]
DEFAULTS = {"Bool": "true", "Int32": "-7", "UInt16": "9", "Float64": "0.5", "Text": '"on"'}


class Schema:
    def __init__(self, seed):
        self.random = random.Random(seed)
        self.enum, self.struct, self.base, self.other = self.random.sample(["Not", "Blank", "Held", "Map", "On", "Seen", "Naming", "Flag"], 4)

    def names(self, count):
        return self.random.sample(WORDS, count)

    def type(self, depth=0):
        """A type of a field or a param."""
        kind = self.random.choice([*NUMBERS, "Text", "Text", "Data", self.enum, self.struct, self.base, "List"])
        if kind != "List":
            return kind
        return f"List({self.type(depth + 1)})" if depth < 2 else "List(UInt8)"

    def field(self, name, ordinal, indent):
        kind = self.type()
        # A struct that holds itself only in lists has an end.
        kind = f"List({kind})" if kind == self.struct else kind
        default = f" = {DEFAULTS[kind]}" if kind in DEFAULTS and self.random.random() < 0.5 else ""
        return f"{indent}{name} @{ordinal} :{kind}{default};\n"

    def struct_text(self):
        """Three fields, and a union of a member without bits, a field, and a group of two."""
        names = self.names(8)
        text = f"struct {self.struct} {{\n" + "".join(self.field(names[i], i, "  ") for i in range(3))
        text += f"  union {{\n    {names[3]} @3 :Void;\n" + self.field(names[4], 4, "    ")
        return text + f"    {names[5]} :group {{\n" + self.field(names[6], 5, "      ") + self.field(names[7], 6, "      ") + "    }\n  }\n}\n"

    def side(self):
        names = self.names(self.random.randint(0, 4))
        return "(" + ", ".join(f"{name} :{self.type()}" for name in names) + ")"

    def interface_text(self, name, above, words):
        methods = "".join(f"  {word} @{i} {self.side()} -> {self.side()};\n" for i, word in enumerate(words))
        return f"interface {name}{above} {{\n{methods}}}\n"

    def text(self):
        words = self.names(5)
        above = f" extends({self.base})" if self.random.random() < 0.5 else ""
        values = "".join(f"  {name} @{i};\n" for i, name in enumerate(self.names(3)))
        return (f"enum {self.enum} {{\n{values}}}\n" + self.struct_text() + self.interface_text(self.base, "", words[:3])
                + self.interface_text(self.other, above, words[3:]))


def main(seed, folder):
    with open(os.path.join(folder, f"v{seed}.capnp"), "w", encoding="utf-8") as out:
        out.write(f"@0xc0ffee000003{int(seed):04x};\n" + Schema(int(seed)).text())


if __name__ == "__main__":
    main(*sys.argv[1:])
