#!/usr/bin/env python3
"""Times capnp_cli beside the reference library on the same files, and prints the ratios of their times.

    compare.py --build FOLDER --data FOLDER [--runs 7] [--only WORD] [--cpu 1] [--enforce] [--history FILE]

`make BUILD=FOLDER` makes the one folder, `generate` fills the other. The two programs run in turn, once with what they
write compared, and then timed with nothing done with it. A ratio is ours over the reference's: below 1 we are faster.
Times are processor seconds, of user and system together, so that other work on the machine shows little; the spread is
the median over the least, ours and the reference's. With --enforce the status is 1 where a ratio passes its goal, or
where what is written differs. With --history each ratio is appended to FILE; plot.py draws it.
"""
import argparse
import hashlib
import os
import pathlib
import statistics
import subprocess
import sys

import history

COMMAND = pathlib.Path(__file__).resolve().parent.parent / "crates/cp_cli/out/cp_cli"

# The greatest ratio that is asked for.
GOALS = {
    "check": {"small": 1.0, "typical": 0.75, "blob": 1.1, "list": 0.55, "listp": 0.55, "mix": 0.6},
    "check --packed": {"small": 0.75, "typical": 0.6, "blob": 0.85, "list": 0.5, "listp": 0.5, "mix": 0.55},
    "pack": {"zeros": 1.1, "typical": 0.9, "mix": 0.75, "noise": 1.0},
    "unpack": {"zeros": 0.9, "typical": 0.9, "mix": 0.8, "noise": 1.0},
}


def run(words, cpu, out=subprocess.DEVNULL):
    """Processor milliseconds, and the digest of what was written where it goes to a pipe."""
    child = subprocess.Popen(["taskset", "-c", cpu, *words], stdout=out)
    digest = hashlib.sha256()
    while child.stdout and (piece := child.stdout.read(1 << 20)):
        digest.update(piece)
    _, status, use = os.wait4(child.pid, 0)
    child.returncode = os.waitstatus_to_exitcode(status)
    if child.returncode:
        sys.exit(f"{' '.join(words)}: status {child.returncode}")
    return 1e3 * (use.ru_utime + use.ru_stime), digest.digest()


def compare(job, name, args):
    """Prints a row; the ratio, and whether the goal is met and what was written is the same."""
    form = "packed" if job in ("check --packed", "unpack") else "plain"
    words = [*job.split(), str(args.data / f"{name}.{form}")]
    programs = [[str(it), *words] for it in (args.command, args.build / "reference")]
    wrote = [run(it, args.cpu, subprocess.PIPE)[1] for it in programs]
    same = wrote[0] == wrote[1]
    times = [[run(it, args.cpu)[0] for it in programs] for _ in range(args.runs)]
    ours, theirs = zip(*times)
    mine, other = statistics.median(ours), statistics.median(theirs)
    goal = GOALS[job][name]
    met = same and mine / other <= goal
    spread = f"{mine / min(ours):.2f} {other / min(theirs):.2f}"
    note = "" if met else "over" if same else "OTHER OUTPUT"
    print(f"{job:<15}{name:<9}{mine:>8.1f} ms{other:>8.1f} ms{mine / other:>8.2f}{goal:>7.2f}   {spread}  {note}", flush=True)
    return mine / other, met


def main():
    words = argparse.ArgumentParser(description=__doc__, formatter_class=argparse.RawDescriptionHelpFormatter)
    words.add_argument("--build", type=pathlib.Path, required=True)
    words.add_argument("--data", type=pathlib.Path, required=True)
    words.add_argument("--command", type=pathlib.Path, default=COMMAND)
    words.add_argument("--runs", type=int, default=7)
    words.add_argument("--only", default="")
    words.add_argument("--cpu", default="1")
    words.add_argument("--enforce", action="store_true")
    words.add_argument("--history", type=pathlib.Path)
    args = words.parse_args()
    print(f"{args.runs} runs of each, in turn; load {os.getloadavg()[0]:.1f}")
    print(f"{'job':<15}{'input':<9}{'ours':>11}{'reference':>11}{'ratio':>8}{'goal':>7}   spread")
    names = [(job, name) for job in GOALS for name in GOALS[job] if args.only in f"{job}/{name}"]
    load = os.getloadavg()[0]
    found = [compare(*it, args) for it in names]
    if args.history:
        rows = [(*it, f"{ratio:.2f}", "ratio") for it, (ratio, _) in zip(names, found)]
        history.keep(args.history, "compare.py", rows, f"load {load:.1f} at first, medians of {args.runs} runs")
    return 1 if args.enforce and not all(met for _, met in found) else 0


if __name__ == "__main__":
    sys.exit(main())
