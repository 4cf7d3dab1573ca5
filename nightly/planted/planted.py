#!/usr/bin/env python3
"""planted.py [ROUND..]    plants faults into the product, and looks whether ./test sees them.

A line of faults.txt has a round, an edit and a test. The edit is a wrong line that the prover must refuse, of wrong-bodies/ or must-fail-more/ of
a crate, or one of this folder, where no contract says what is right. All edits of a round are made in one copy of what is committed, where each
of their tests must fail: no other edit of the round concerns it. Before that all these tests must pass here, where nothing is planted.
The last line is `N passed, M failed`; the status is 1 if any failed. `taskset -c 0 planted.py` compiles one program at a time.
"""
import pathlib
import re
import subprocess
import sys
import tempfile

HERE = pathlib.Path(__file__).resolve().parent
TOP = HERE.parent.parent


def read_faults(asked):
    """The rounds that are asked for, or all, each with its tests by their edits."""
    rounds = {}
    for line in (HERE / "faults.txt").read_text().splitlines():
        number, edit, test = line.split(maxsplit=2)
        if number != "#" and (not asked or number in asked):
            rounds.setdefault(number, {})[edit] = test
    return [*rounds.values()]


def copy_to(folder):
    """Puts what is committed there."""
    archive = subprocess.run(["git", "-C", TOP, "archive", "HEAD"], check=True, stdout=subprocess.PIPE)
    subprocess.run(["tar", "-x", "-C", folder], check=True, input=archive.stdout)


def plant(copy, edit):
    """Makes an edit in a copy of the repository."""
    [path] = [*copy.glob(f"crates/*/*/{edit}.edit"), *copy.glob(f"nightly/planted/{edit}.edit")]
    folder = copy / "crates" if path.parent.name == HERE.name else path.parent.parent
    (file, *_), *pairs = re.findall(r"^(?:file: (.+)|old: (.+)\nnew: ?(.*))$", path.read_text(), re.M)
    for _, old, new in pairs:
        text = (folder / file).read_text()
        if text.count(old) != 1:
            sys.exit(f"{edit}: its old text stands {text.count(old)} times in {file}")
        (folder / file).write_text(text.replace(old, new))


def try_tests(top, tests):
    """The status of ./test there, and what it printed."""
    ended = subprocess.run([top / "test", *tests], stdout=subprocess.PIPE, text=True)
    return ended.returncode, ended.stdout


def try_round(faults):
    """Says of each edit whether its test fails where all are made. Returns how many do."""
    with tempfile.TemporaryDirectory() as folder:
        copy_to(folder)
        for it in faults:
            plant(pathlib.Path(folder), it)
        _, said = try_tests(pathlib.Path(folder), faults.values())
    failing = set(re.findall(r"^FAILED (.+):$", said, re.M))
    for edit, test in faults.items():
        print(f"{edit}: {'seen by' if test in failing else 'NOT SEEN by'} {test}", flush=True)
    if not failing.issuperset(faults.values()):
        print(said)
    return sum(it in failing for it in faults.values())


def main(asked):
    rounds = read_faults(asked)
    status, said = try_tests(TOP, {test for faults in rounds for test in faults.values()})
    if status:
        sys.exit(f"without a fault these tests must pass:\n{said}")
    faults, seen = sum(map(len, rounds)), sum(map(try_round, rounds))
    print(f"{seen} passed, {faults - seen} failed")
    sys.exit(seen < faults)


if __name__ == "__main__":
    main(sys.argv[1:])
