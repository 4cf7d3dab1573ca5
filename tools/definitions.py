#!/usr/bin/env python3
"""tools/definitions.py [--check]    makes docs/DEFINITIONS.md anew: the definitions that docs/PROVED.md names, in the words of crates/*/specs.

PROVED.md names a definition by a capitalised word inside a sentence, or by any word of its specs in brackets. It is one of the crate that
the section is about, or of a crate below it. What DEFINITIONS.md says of it is the comment above it there. ALSO has further ones.

With --check nothing is written, and the status is 1 where the file differs, or where a name in brackets is no definition.
"""
import pathlib
import re
import sys
import textwrap

TOP = pathlib.Path(__file__).resolve().parent.parent
PROVED, MADE = TOP / "docs/PROVED.md", TOP / "docs/DEFINITIONS.md"
HEAD = """# Definitions

Public contracts rest on definitions, which stand in `specs/` of each crate. These are the ones that
[PROVED.md](PROVED.md) names, in the words that stand beside them there. `tools/definitions.py` makes this page.

A word is a number below 2^64. Segments are lists of words. Both are numbered from 0. Each paragraph begins with its
file, and the sections of the encoding specification or of rpc.capnp that this is about.
"""
# Definitions on which those rest, by crate.
ALSO = {
    "cp_words": ["words_for"],
    "cp_tree": ["depth", "cost"],
    "cp_reading": ["Locates", "Denotes"],
    "cp_packed": ["Packed"],
    "cp_frame": ["Framed", "Frame"],
    "cp_stream": ["Messages"],
}
LONG = 27  # words; a sentence of more is cut


def definitions_of(file):
    """The names that a file defines, each with the comment above it."""
    comment = []
    for line in file.read_text().splitlines():
        line = line.strip()
        if line.startswith("--"):
            comment.append(line.lstrip("- "))
        elif found := re.match(r"(?:abbrev )?pub (?:abbrev )?(?:record |data )?(\w+)", line):
            if comment:
                yield found[1], " ".join(comment)
            comment = []
        elif line not in ("abbrev mutual", "mutual", "abbrev"):
            comment = []


def sections_of(file):
    """The sections of a standard that the file's first comment names."""
    first = re.match(r"(?:--.*\n)+", file.read_text())
    return re.findall(r'"([^"]+)"', first[0].replace("\n--", "")) if first else []


def specs():
    """Of each crate its definitions: where each stands, and its comment. One of a crate's own comes before those of its records."""
    found = {}
    for file in sorted(TOP.glob("crates/*/specs/**/*.antt")):
        crate = file.relative_to(TOP).parts[1]
        for name, comment in definitions_of(file):
            found.setdefault(crate, {}).setdefault(name, (file, comment))
    return found


def uses():
    """The libraries that each crate stands on."""
    lines = (line.partition("#")[0].partition(":") for line in (TOP / "crates.txt").read_text().splitlines())
    return {head.split()[0]: libraries.split() for head, colon, libraries in lines if colon}


def named(found):
    """The definitions that PROVED.md names, as pairs of crate and name, and those that aren't there."""
    below, crates, names, lacking = uses(), [], set(), []
    for line in PROVED.read_text().split("\n\n"):
        titles = [it for title in re.findall(r"^(?:#.*|\*\*.*\*\*.*)$", line, re.M) for it in re.findall(r"\w+", title) if it in below]
        crates = titles or crates
        where = list(crates)
        where += [it for at in where for it in below.get(at, []) if it not in where]
        text = re.sub(r"`[^`]*`|\[[^\]]*\]\([^)]*\)", "`", " ".join(line.split()))
        bracketed = [it for group in re.findall(r"\(([\w, ]+)\)", text) for it in group.split(", ")]
        for name in bracketed + re.findall(r"(?<=[a-z,;:`] )([A-Z]\w+)", text):
            at = next((it for it in where if name in found.get(it, {})), None)
            if at:
                names.add((at, name))
            elif name in bracketed and re.fullmatch(r"[A-Z]\w*[a-z]|\w+_\w+", name) and name not in below:
                lacking.append(name)
    return names, lacking


def sentences(comment):
    """A comment as whole sentences. A very long one is cut."""
    text = comment[0].upper() + comment[1:]
    text = text if text[-1] in ".)" else text + "."
    return " ".join(shorter(it, [r"; (?:and then )?", ": ", ", and (?=then |of )", ", and "]) for it in re.split(r"(?<=\.) ", text))


def shorter(sentence, cuts):
    """The sentence, cut at the first of these that it has if it is very long."""
    if len(sentence.split()) <= LONG or not cuts:
        return sentence
    parts = re.split(cuts[0], sentence)
    return ". ".join(shorter(it[0].upper() + it[1:], cuts[1:]) for it in parts)


def page(found, names):
    """The page: crate by crate as crates.txt has them, and a paragraph for each file."""
    text = HEAD
    for crate in uses():
        files = {}
        for name, (file, comment) in found.get(crate, {}).items():
            if (crate, name) in names or name in ALSO.get(crate, []):
                files.setdefault(file, []).append(f"**{name}**: {sentences(comment)}")
        text += f"\n## {crate}\n\n" if files else ""
        for file, said in files.items():
            about = ", ".join(f'"{it}"' for it in sections_of(file))
            line = f"- {file.stem}{f' ({about})' if about else ''}. {' '.join(said)}"
            text += textwrap.fill(line, 120, subsequent_indent="  ", break_on_hyphens=False, break_long_words=False) + "\n"
    return text


def main():
    found = specs()
    names, lacking = named(found)
    made = page(found, names)
    checks = sys.argv[1:] == ["--check"]
    for name in lacking:
        print(f"docs/PROVED.md: {name} is no definition of its crates")
    if checks and made != MADE.read_text():
        print("docs/DEFINITIONS.md isn't what tools/definitions.py makes of specs/ and docs/PROVED.md")
    elif not checks:
        MADE.write_text(made)
    return 1 if lacking or made != MADE.read_text() else 0


if __name__ == "__main__":
    sys.exit(main())
