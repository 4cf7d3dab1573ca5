#!/usr/bin/env python3
"""tools/sentences.py [FILE..]    lists what is too long: sentences over 30 words, lines and table cells over 120 characters, table rows over 140,
                                and documents over 4,000 words.

Without FILE it reads README.md, bench/README.md and docs/, and says so too if README.md and docs/ have over 30,000 words together. It skips
code blocks; code within a line counts as one word. The status is 1 where something is listed.
"""
import os
import pathlib
import re
import sys

TOP = pathlib.Path(__file__).resolve().parent.parent
DOCUMENT, ALL = 4_000, 30_000  # words


def parts_of(text):
    """The paragraphs, list items and table cells of a text, each with the number of its first line."""
    first, part, is_code = 1, "", False
    for number, line in enumerate([*text.splitlines(), ""], 1):
        is_code ^= line.startswith("```")
        is_text = not (is_code or re.match(r"```|    |\||#|\s*$", line))
        if part and not (is_text and not re.match(r"\s*(-|\d+\.) ", line)):
            yield first, part
            part = ""
        if is_text:
            first, part = (first if part else number), f"{part} {line.strip()}"
        elif line.startswith("|"):
            yield from ((number, cell) for cell in line.strip("|").split("|"))


def words_of(text):
    return re.findall(r"\S*\w\S*", re.sub(r"`[^`]*`", "`x`", text))


def length_of(text):
    """How many words a document has."""
    return len(words_of(re.sub(r"^    .*$", "", re.sub(r"^```.*?^```$", "", text, flags=re.S | re.M), flags=re.M)))


def faults_of(text):
    if length_of(text) > DOCUMENT:
        yield 1, f"{length_of(text)} words"
    for number, line in enumerate(text.splitlines(), 1):
        if len(line) > 120 and not line.startswith(("|", "    ")):
            yield number, f"a line of {len(line)} characters"
        if line.startswith("|"):
            if len(line) > 140:
                yield number, f"a row of {len(line)} characters"
            yield from ((number, f"a cell of {len(it.strip())}: {it.strip()[:60]}") for it in line.split("|") if len(it.strip()) > 120)
    for number, part in parts_of(text):
        for sentence in re.split(r"(?<=[.!?])\**\s+(?=[A-Z`*\[(0-9]|cp_|capnp)", re.sub(r"`[^`]*`", "`x`", part)):
            words = len(words_of(sentence))
            if words > 30:
                yield number, f"{words} words: {sentence.strip()[:70]}"


def main():
    names = sys.argv[1:] or [TOP / "README.md", TOP / "bench/README.md", *sorted((TOP / "docs").glob("*.md"))]
    found = [(name, *it) for name in names for it in sorted(faults_of(pathlib.Path(name).read_text()))]
    length = sum(length_of(name.read_text()) for name in names if name != TOP / "bench/README.md") if not sys.argv[1:] else 0
    if length > ALL:
        found.append((TOP / "docs", 1, f"{length} words in all"))
    for name, number, fault in found:
        print(f"{os.path.relpath(name)}:{number}: {fault}")
    print(f"{len(found)} found")
    return 1 if found else 0


if __name__ == "__main__":
    sys.exit(main())
