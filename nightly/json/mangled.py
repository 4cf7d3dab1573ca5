#!/usr/bin/env python3
"""mangled.py COMMAND SCHEMA STRUCT FRAMES FOLDER [COUNT [SEED]]    COUNT times (2,000) JSON and frames that are changed at random

JSON that COMMAND (capnp_cli, built) prints of FRAMES, and FRAMES themselves, lose bytes, get others or come to nest deep. `encode --json` writes frames
of what it takes, which are shown and read again to the same bytes. It refuses all else: status 2, one line, and no byte of what follows. `show --json`
prints JSON that Python reads too, or refuses: status 1 or 2, and one line.
"""
import collections
import json
import pathlib
import random
import subprocess
import sys

command, schema, struct, frames, folder = sys.argv[1:6]
count, seed = (int(it) for it in (*sys.argv[6:], *("2000", "1")[len(sys.argv) - 6 :]))
folder = pathlib.Path(folder)
chance = random.Random(seed)
ended = collections.Counter()
WORDS = [b"null", b"true", b"1e999", b"-0", b"0.5", b'"\\ud800"', b'"NaN"', b"18446744073709551616", b'{"":1}', b"[]", b"{}", b'"', b"\\", b"\xff", b"\0", b"/**/", b"'", b":", b","]


def wrong(what, given):
    (folder / "mangled.wrong").write_bytes(given)
    sys.exit(f"mangled.py: {what}; the input is in {folder}/mangled.wrong")


def run(job, given):
    words = [command, job, "--schema", schema, "--type", struct, "--json", "-"]
    ran = subprocess.run(words, input=given, capture_output=True, timeout=60)
    said = ran.stderr.decode(errors="replace")
    ended[job, ran.returncode] += 1
    if ran.returncode not in ((0, 2) if job == "encode" else (0, 1, 2)):
        wrong(f"{job} ends with {ran.returncode}: {said[-400:]}", given)
    if said.count("\n") != (ran.returncode != 0):
        wrong(f"{job} says with status {ran.returncode}: {said[-400:]}", given)
    return ran.returncode, ran.stdout


def cut(text):
    """Bytes at random."""
    at = chance.randrange(len(text) + 1)
    return at, min(len(text), at + chance.choice((1, 1, 2, 8, 40)))


def mangled(text, words):
    """The same with some places changed."""
    for _ in range(chance.choice((1, 1, 1, 2, 3))):
        at, end = cut(text)
        how = chance.randrange(7)
        if how == 0:
            text = text[:at] + text[end:]
        elif how == 1:
            text = text[:at] + bytes(chance.randrange(256) for _ in range(end - at)) + text[end:]
        elif how == 2:
            text = text[:at] + chance.choice(words) + text[end:]
        elif how == 3:
            text = text[:end] + text[at:end] + text[end:]
        elif how == 4:
            other, last = cut(text)
            text = text[:at] + text[other:last] + text[end:]
        elif how == 5:
            text = text[:at]
        else:
            text = text[:at] + chance.choice((b"[", b'{"a":', b"[[", b'"')) * chance.choice((1, 70, 5000)) + text[at:]
    return text


def read(given):
    """JSON that is read: what is made of it comes to the same again."""
    status, made = run("encode", given)
    if status:
        # What came before is written, and nothing of what is refused.
        whole = run("show", made)[0] == 0 if made else True
        if not whole:
            wrong("a part of a frame is written", given)
        return
    again, shown = run("show", made)
    if again:
        wrong("what was made can't be shown", given)
    if run("encode", shown) != (0, made):
        wrong("what is shown makes something else", given)


def show(given):
    status, lines = run("show", given)
    for line in lines.decode(errors="strict").splitlines():
        json.loads(line)
    return status


stream = pathlib.Path(frames).read_bytes()
objects = [it + b"\n" for it in run("show", stream)[1].splitlines()]
for turn in range(count):
    few = b"".join(chance.choices(objects, k=chance.choice((1, 1, 2, 5))))
    read(mangled(few, WORDS))
    start = chance.randrange(max(1, len(stream) // 8)) * 8 if chance.random() < 0.3 else 0
    show(mangled(stream[start:], [bytes(8), b"\xff" * 8, b"\x01\0\0\0\1\0\0\0"]))
print(", ".join(f"{job} {times} times status {status}" for (job, status), times in sorted(ended.items())))
