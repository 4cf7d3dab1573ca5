"""Keeps figures in a file of data, a line each: date, program, job, input, figure, unit, conditions, machine, commit."""
import datetime
import os
import pathlib
import subprocess

FIELDS = ("date", "program", "job", "input", "figure", "unit", "conditions", "machine", "commit")
FILE = pathlib.Path(__file__).resolve().parent / "history.tsv"


def machine():
    """The processor's name and how many of them there are."""
    lines = pathlib.Path("/proc/cpuinfo").read_text().splitlines()
    name = next((it.split(":", 1)[1].strip() for it in lines if it.startswith("model name")), "unknown")
    return f"{os.cpu_count()} x {name}"


def commit():
    """The commit that was timed, with a + where the folder differs from it."""
    words = ["git", "-C", str(FILE.parent), "describe", "--always", "--dirty=+"]
    return subprocess.run(words, stdout=subprocess.PIPE, text=True).stdout.strip() or "unknown"


def keep(file, program, rows, conditions):
    """Appends rows of job, input, figure and unit."""
    today, ran_on, timed = datetime.date.today().isoformat(), machine(), commit()
    with open(file, "a") as out:
        for row in rows:
            print(today, program, *row, conditions, ran_on, timed, sep="\t", file=out)


def read(file=FILE):
    """Each line as a dictionary; what an old line lacks is empty."""
    with open(file) as lines:
        next(lines)
        for line in lines:
            words = line.rstrip("\n").split("\t")
            yield dict(zip(FIELDS, words + [""] * (len(FIELDS) - len(words))))
