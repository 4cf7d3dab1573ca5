#!/usr/bin/env python3
"""names.py CRATE..    whether the code of generated crates names something twice: a method of a type, a function, a type or an import of a
module, a variant, or a definition; and whether it has a character that Rattle's sources can't have. It prints what it finds."""
import collections
import os
import re
import sys
import unicodedata

BLOCK = re.compile(r"^(?:impl(?:<[^>]*>)? (.*)|pub enum (.*)|pub trait (.*)) \{$")
FORBIDDEN = {chr(c) for c in (9, 11, 12, 13, 0x85, 0x2028, 0x2029, 0x61C, 0x200E, 0x200F)} | {chr(c) for c in (*range(0x202A, 0x202F), *range(0x2066, 0x206A))}


def imported(text):
    """The names that `use` brings into a module, and those that `ghost use` does."""
    for ghost, path in re.findall(r"^(ghost )?use ([^;]*);", text, re.M):
        separator = "." if ghost else "::"
        inner = re.search(r"\{(.*)\}", path, re.S)
        for name in (inner.group(1).split(",") if inner else [path.split(separator)[-1]]):
            if name.strip():
                yield ghost + "use" if ghost else "use", name.strip().split(" as ")[-1]


def declared(text):
    """The names that a module declares, each with the block that it is in."""
    block = ""
    for line in text.split("\n"):
        if line == "}":
            block = ""
        elif begins := BLOCK.match(line):
            block = line
        if name := re.match(r"(?:pub )?(?:struct|enum|trait|type|static|const|fn) (\w+)", line):
            yield "value" if "fn " in line or "static " in line or "const " in line else "use", name.group(1)
        elif name := re.match(r"    (?:pub )?(?:fn|const) (\w+)", line):
            yield block, name.group(1)
        elif "enum" in block and (name := re.match(r"    (\w+)(?:\(.*)?,$", line)):
            yield block, name.group(1)


def defined(text):
    """The words that definitions declare."""
    for name in re.findall(r"^(?:abbrev |record )?(?:pub )?(?:record )?(\w+) :", text, re.M):
        yield "word", name


def look(path):
    with open(path, encoding="utf-8") as file:
        text = file.read()
    found = [f"a character U+{ord(c):04X}" for c in sorted(set(text)) if c in FORBIDDEN or unicodedata.category(c) == "Cc" and c != "\n"]
    names = list(imported(text)) + list(declared(text)) if path.endswith(".rt") else list(defined(text))
    for (block, name), count in collections.Counter(names).items():
        if count > 1:
            found.append(f"{name} {count} times in {block}")
    return [f"{path}: {it}" for it in found]


def main(crates):
    found = []
    for crate in crates:
        for folder, _, files in os.walk(crate):
            for file in files:
                if file.endswith((".rt", ".antt")):
                    found += look(os.path.join(folder, file))
    print("\n".join(found), end="\n" if found else "")
    return 1 if found else 0


if __name__ == "__main__":
    sys.exit(main(sys.argv[1:]))
