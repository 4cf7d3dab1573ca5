#!/usr/bin/env python3
"""tools/lay.py FOLDER SOURCES NAME LIBRARIES    puts a crate that lies outside crates/ into FOLDER/crates, and its line into FOLDER/crates.txt.

rt refuses a .rt or .antt file that is in no crate of crates.txt. So the sources of tests/, nightly/ and bench/ have other endings: .rs for .rt,
and .antt.in for .antt. SOURCES has the crate's src/, specs/, proofs/ and data/. Where it has a file `also`, this names another crate, of
whose files those are laid out too that the crate has no file of that name for.
"""
import os
import shutil
import sys

ENDINGS = {".rs": ".rt", ".antt.in": ".antt"}
PARTS = ("src", "specs", "proofs", "data")
TOP = os.path.dirname(os.path.dirname(os.path.realpath(__file__)))


def laid(name):
    """A file's name as rt has it."""
    return next((name[: -len(it)] + ENDINGS[it] for it in ENDINGS if name.endswith(it)), name)


def files_of(sources):
    """Where each file of a crate lies, in order, by its name as rt has it, below the crate's folder."""
    found = {}
    for part in PARTS:
        for at, folders, names in os.walk(f"{sources}/{part}"):
            folders.sort()
            for name in sorted(names):
                found[laid(os.path.relpath(f"{at}/{name}", sources))] = f"{at}/{name}"
    if os.path.exists(f"{sources}/also"):
        found = files_of(f"{TOP}/{open(f'{sources}/also').read().strip()}") | found
    return found


def lay(sources, to):
    """Puts the crate into the folder."""
    for name, file in files_of(sources).items():
        os.makedirs(os.path.dirname(f"{to}/{name}"), exist_ok=True)
        shutil.copy2(file, f"{to}/{name}")


def main(folder, sources, name, libraries):
    lay(sources, f"{folder}/crates/{name}")
    with open(f"{folder}/crates.txt", "a") as lines:
        lines.write(f"{name}: {libraries}\n")


if __name__ == "__main__":
    main(*sys.argv[1:])
