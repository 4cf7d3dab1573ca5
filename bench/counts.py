#!/usr/bin/env python3
"""counts.py --build FOLDER    instructions of each event of a server, by the number of entries of its vat's tables; needs valgrind"""

import argparse
import collections
import pathlib
import re
import subprocess
import tempfile

EACH = 200  # events of a phase, as in vat.cpp


def dumps(folder):
    """The name of each mark and the instructions since the mark before, in order."""
    for dump in sorted(folder.glob("out.*.*"), key=lambda path: int(path.suffix[1:])):
        text = dump.read_text()
        name = re.search(r"^desc: Trigger: Client Request: (.*)$", text, re.M)
        if name:
            yield name[1].split("|"), int(re.search(r"^(?:summary|totals): (\d+)", text, re.M)[1])


def events(marks):
    """The instructions of an event by phase and table, and by size. The mark itself is the empty phase."""
    table = collections.defaultdict(dict)
    nothing, before = 0, ""
    for (entries, size, phase), instructions in marks:
        if phase == "nothing":
            nothing = instructions
        elif phase != "before":
            name = f"{phase} ({before})" if phase == "its Finish" else phase
            table[name, entries][int(size)] = (instructions - nothing) / EACH
        before = phase
    return table


def main():
    parser = argparse.ArgumentParser(description=__doc__)
    parser.add_argument("--build", type=pathlib.Path, required=True)
    build = parser.parse_args().build.resolve()
    with tempfile.TemporaryDirectory() as folder:
        command = ["valgrind", "-q", "--tool=callgrind", f"--callgrind-out-file={folder}/out.%p", build / "vat", "counts"]
        subprocess.run(command, check=True)
        table = events(dumps(pathlib.Path(folder)))
    phases = list(dict.fromkeys(phase for phase, _ in table))
    for (phase, entries), counts in sorted(table.items(), key=lambda row: phases.index(row[0][0])):
        row = "".join(f" {counts[size]:8.0f}" for size in sorted(counts))
        print(f"{phase:50} {entries:14}{row}  {max(counts.values()) / min(counts.values()):5.2f}")


if __name__ == "__main__":
    main()
