#!/usr/bin/env python3
"""tools/listings.py [--check]    cuts the listings of documents anew out of the programs that they come from.

A listing names its file after its fence: ```rust crates/examples/src/count.rt. Its lines are parts of that file, with a line `..` between
parts; the first and the last line of a part say where it is cut. A listing with `whole` after its file is that whole file: one of the
examples as a program of its own, with `fn main(rt: HostRuntime)` for its `pub fn run(rt: &HostRuntime)`.

With --check nothing is written. Each listing that differs from its program is printed, and each Rust listing that names no file; then the
status is 1. It is 1 too where a part isn't found any more.
"""
import pathlib
import re
import sys

TOP = pathlib.Path(__file__).resolve().parent.parent
DOCUMENTS = ["README.md", "docs/TUTORIAL.md", "crates/jamdrosek/src/lib.rt"]
BETWEEN = ".."


class Missing(Exception):
    """A part of a listing that its file doesn't have."""


def dedented(lines):
    """The lines without the indentation of the first one."""
    by = len(lines[0]) - len(lines[0].lstrip())
    return [line[by:] if line[:by].strip() == "" else line for line in lines]


def ends_at(lines, first, last):
    """The first place from `first` on at which the line `last` stands, indented as in a listing that begins there."""
    by = len(lines[first]) - len(lines[first].lstrip())
    for at in range(first, len(lines)):
        if lines[at] == " " * by + last:
            return at
    return None


def part_of(lines, since, part):
    """A part anew, and where it ends. Parts come in the file's order."""
    for first in range(since, len(lines)):
        last = ends_at(lines, first, part[-1]) if lines[first].strip() == part[0].strip() else None
        if last is not None and (len(part) == 1 or last > first):
            return dedented(lines[first : last + 1]), last + 1
    raise Missing(f"no part begins with `{part[0].strip()}` and ends with `{part[-1].strip()}`")


def parts_of(lines, listing):
    """The parts of a listing anew."""
    parts, cut, since = [[]], [], 0
    for line in listing:
        if line.strip() == BETWEEN:
            parts.append([])
        else:
            parts[-1].append(line)
    for part in parts:
        if not part:
            raise Missing("a part is empty")
        part, since = part_of(lines, since, dedented(part))
        cut += ([BETWEEN] if cut else []) + part
    return cut


def whole_of(lines):
    """The whole file, as a program of its own if it is a part of one."""
    text = "\n".join(line for line in lines if not line.startswith("//!")).strip()
    head, main, rest = text.partition("pub fn run(rt: &HostRuntime)")
    body, end, rest = rest.partition("\n}")
    body = re.sub(r"\brt(?=[,)])", "&rt", body)
    return f"#![tactic(auto)]\n\n{head}fn main(rt: HostRuntime){body}{end}{rest}".split("\n") if main else text.split("\n")


def listing_of(words, listing):
    """The listing anew."""
    lines = (TOP / words[1]).read_text().rstrip("\n").split("\n")
    return whole_of(lines) if words[2:] == ["whole"] else parts_of(lines, listing)


def anew(name, text):
    """The document with its listings cut anew, and what is to be said of them."""
    comment = "//! " if name.endswith(".rt") else ""
    lines, said, at = text.split("\n"), [], 0
    while at < len(lines):
        fence = re.match(rf"{re.escape(comment)}```(\S.*)$", lines[at])
        if not fence:
            at += 1
            continue
        words = fence[1].split()
        end = next(it for it in range(at + 1, len(lines)) if lines[it].startswith(f"{comment}```"))
        if len(words) > 1:
            try:
                listing = [line[len(comment) :] for line in lines[at + 1 : end]]
                cut = listing_of(words, listing)
                if cut != listing:
                    said.append(f"{name}:{at + 1}: {words[1]} has other lines")
                lines[at + 1 : end] = [f"{comment}{line}".rstrip() for line in cut]
                end = at + 1 + len(cut)
            except (Missing, OSError) as fault:
                said.append(f"{name}:{at + 1}: {words[1]}: {fault}")
        elif words == ["rust"]:
            said.append(f"{name}:{at + 1}: a listing of no file")
        at = end + 1
    return "\n".join(lines), said


def main():
    checks, faults = sys.argv[1:] == ["--check"], []
    for name in DOCUMENTS:
        path = TOP / name
        text = path.read_text()
        cut, said = anew(name, text)
        if not checks and cut != text:
            path.write_text(cut)
            _, said = anew(name, cut)
        faults += said
    for fault in faults:
        print(fault)
    return 1 if faults else 0


if __name__ == "__main__":
    sys.exit(main())
