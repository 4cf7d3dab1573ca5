#!/usr/bin/env python3
"""Whether tails.py notices what an end does wrong: corrupt.py ENDS [SEEDS [MOVES]]

Stands between tails.py and the program ENDS of ends/, and changes one line of what that says in each seed (12, of 120 moves), in one way. A line
for each way says in how many seeds tails.py found a difference, of those that had such a line. The status is 1 where a way was never noticed.
"""
import os
import pathlib
import random
import re
import subprocess
import sys

HERE = pathlib.Path(__file__).resolve()


def changed(pattern, replacement):
    """Another line in place of one that has this."""
    return lambda line: [re.sub(pattern, replacement, line, count=1)] if re.search(pattern, line) else None


def lacking(pattern):
    return lambda line: [] if re.search(pattern, line) else None


def twice(pattern):
    return lambda line: [line, line] if re.search(pattern, line) else None


def more(pattern):
    """The number after this is greater by one."""
    return changed(rf"({pattern})(\d+)", lambda it: f"{it[1]}{int(it[2]) + 1}")


# What each way does to a line: the lines in its place, or none where it isn't of this way.
WAYS = {
    "a call is sent twice": twice("^> call"),
    "a call isn't sent": lacking("^> call"),
    "a Return is sent twice": twice("^> return"),
    "a Return isn't sent": lacking("^> return a=.* results"),
    "a Return has other results": more(r"^> return a=.* results \{\(0*(?=[1-9a-f])"),
    "a Return fails": changed(r"^(> return a=\d+ releaseParamCaps=false) results .*", r'\1 exception failed "no"'),
    "results went nowhere": changed("resultsSentElsewhere", "canceled"),
    "a Return names another object": more(r"^> return .*senderHosted:"),
    "a Finish isn't sent": lacking("^> finish"),
    "a Finish keeps what it is to release": changed("^(> finish .*)true", r"\1false"),
    "a Release is of one more": more("^> release .*count="),
    "a Release isn't sent": lacking("^> release"),
    "a promise isn't resolved": lacking("^> resolve"),
    "a Disembargo isn't sent": lacking("^> disembargo"),
    "a call comes twice": twice("^! deliver"),
    "a call doesn't come": lacking("^! deliver"),
    "a call comes to another object": more("^! deliver object:"),
    "a call names another reference": more("^! deliver .*import:"),
    "a question isn't settled": lacking("^! settled"),
    "a question is settled twice": twice("^! settled"),
    "a question fails": changed(r"^(! settled question:\d+ )\{.*", r'\1exception failed "no"'),
    "an entry is left": more("^= entries "),
}


def stand_between(ends, way, at):
    """Passes on lines and what follows them. The line is changed that comes as the one of this number, after each `new`."""
    program = subprocess.Popen([ends, *sys.argv[1:]], stdin=subprocess.PIPE, stdout=subprocess.PIPE, text=True)
    left, changes = at, WAYS[way]
    for asked in sys.stdin:
        program.stdin.write(asked)
        program.stdin.flush()
        told = []
        for line in program.stdout:
            told.append(line.rstrip("\n"))
            if line == ".\n":
                break
        if asked == "new\n":
            left = at
        for place, line in enumerate(told) if asked.startswith("A ") else []:
            lines = changes(line) if left else None
            if lines is not None:
                left -= 1
                if not left:
                    told[place : place + 1] = lines
                    pathlib.Path(os.environ["CHANGED"]).touch()
                    break
        print("\n".join(told), flush=True)


def notices(ends, way, seed, moves):
    """Whether tails.py finds a difference; none where no line was changed."""
    mark = pathlib.Path(f"/tmp/changed.{os.getpid()}")
    mark.unlink(missing_ok=True)
    at = 1 if seed % 4 < 2 else random.Random(seed).randrange(2, 6)  # (of some lines there is but one)
    environment = dict(os.environ, ENDS=ends, WAY=way, AT=str(at), CHANGED=str(mark))
    words = [HERE.parent / "tails.py", HERE, "--first", str(seed), "--seeds", "1", "--moves", str(moves)]
    done = subprocess.run(words, env=environment, capture_output=True)
    was_changed = mark.exists()
    mark.unlink(missing_ok=True)
    return done.returncode != 0 if was_changed else None


def main(ends, seeds=12, moves=120):
    missed = 0
    for way in WAYS:
        found = [notices(ends, way, seed, moves) for seed in range(1, int(seeds) + 1)]
        missed += not found.count(True)
        print(f"{way}: {found.count(True)} of {len(found) - found.count(None)}", flush=True)
    return missed > 0


if __name__ == "__main__":
    if "WAY" in os.environ:
        stand_between(os.environ["ENDS"], os.environ["WAY"], int(os.environ["AT"]))
    else:
        sys.exit(main(*sys.argv[1:]))
