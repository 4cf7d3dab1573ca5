#!/usr/bin/env python3
"""word_seeds.py DATA FOLDER    writes the seeds of `words` into a folder, and their words into FOLDER.dict: the rows of texts, calls and guards"""
import os
import re
import sys

data, folder = sys.argv[1:]
KINDS = 3


def rows(name):
    lines = (line.rstrip("\n") for line in open(f"{data}/{name}.txt"))
    return [line.split("\t") for line in lines if line and not line.startswith("#")]


def parts(message):
    """The parts of a stream that a message of a row is."""
    comes_back, frame = message.startswith("<"), bytes.fromhex(message.lstrip("<"))
    pieces = [frame[at : at + 255] for at in range(0, len(frame), 255)]
    return b"".join(bytes([comes_back, len(piece)]) + piece for piece in pieces)


seeds, structs = [], []
for name, texts, _ in rows("texts"):
    if name not in structs:
        structs.append(name)
    if structs.index(name) < 16:
        seeds.append(bytes([KINDS * structs.index(name)]) + texts.replace("|", "\n").encode())
for words, _ in rows("calls"):
    seeds.append(b"\1" + words.encode())
for rules, messages, _ in rows("guards"):
    stream = b"".join(parts(message) for message in messages.split(" ") if message != ".")
    seeds.append(b"\2" + " ".join(rules.split(" ")[2:]).encode() + b"\n" + stream)
os.makedirs(folder, exist_ok=True)
for number, seed in enumerate(seeds):
    with open(f"{folder}/{number}", "wb") as out:
        out.write(seed)
words = {it for name in ("texts", "calls") for row in rows(name) for it in re.findall(r"[A-Za-z_]\w+", row[1 if name == "texts" else 0])}
with open(f"{folder}.dict", "w") as out:
    out.writelines(f'"{word}"\n' for word in sorted(words))
