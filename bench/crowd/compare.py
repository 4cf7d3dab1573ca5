#!/usr/bin/env python3
"""Times what a call costs beside 60 and beside 60,000 open things of a kind, as processor time of both ends together.

    compare.py --program FILE [--events 20000] [--runs 3] [--only WORD] [--enforce]

FILE is the program of this folder (`build.sh`). Each row is the least of the runs, less what the same run takes without events.
`--enforce` fails where a call beside 60,000 costs more than 1.5 times of what it costs beside 60.
"""
import argparse
import os
import subprocess
import sys

FEW, MANY, MOST = 60, 60_000, 1.5

# What is open: at the client and at the server.
KINDS = {
    "later": "questions, and answers that come later",
    "pipelined": "questions, and calls that wait for the results of one",
    "cancel": "the same as later; each event is a call that is given up",
    "results": "questions whose results are kept, and answers",
    "objects": "imports, and exports of objects that calls made",
    "promises": "imports, and promises that an object made",
    "watchers": "an export, and what an object keeps",
    "timers": "imports, and objects that are to be woken",
}


def spent(words):
    """Processor seconds of a program."""
    child = subprocess.Popen(words, stdout=subprocess.DEVNULL)
    _, status, use = os.wait4(child.pid, 0)
    child.returncode = os.waitstatus_to_exitcode(status)
    if child.returncode:
        sys.exit(f"{' '.join(words)}: status {child.returncode}")
    return use.ru_utime + use.ru_stime


def event(args, kind, count):
    """Microseconds of an event beside so many things."""
    runs = range(args.runs)
    base = min(spent([args.program, kind, str(count), "0"]) for _ in runs)
    whole = min(spent([args.program, kind, str(count), str(args.events)]) for _ in runs)
    return 1e6 * max(0.0, whole - base) / args.events


def main():
    words = argparse.ArgumentParser(description=__doc__, formatter_class=argparse.RawDescriptionHelpFormatter)
    words.add_argument("--program", required=True)
    words.add_argument("--events", type=int, default=20_000)
    words.add_argument("--runs", type=int, default=3)
    words.add_argument("--only", default="")
    words.add_argument("--enforce", action="store_true")
    args = words.parse_args()
    grown = []
    print(f"{'open':<10}{f'us at {FEW}':>12}{f'us at {MANY}':>14}{'ratio':>8}")
    for kind in KINDS:
        if args.only not in kind:
            continue
        few, many = event(args, kind, FEW), event(args, kind, MANY)
        ratio = many / few if few else 0.0
        print(f"{kind:<10}{few:>12.1f}{many:>14.1f}{ratio:>8.2f}", flush=True)
        if ratio > MOST:
            grown.append(kind)
    if args.enforce and grown:
        sys.exit(f"grows: {' '.join(grown)}")


if __name__ == "__main__":
    main()
