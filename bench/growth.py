#!/usr/bin/env python3
"""Times capnp_cli on messages and streams that grow, and prints what a kilobyte and a message cost.

    growth.py --build FOLDER [--runs 3] [--only WORD] [--cpu 1] [--command FILE]

`make BUILD=FOLDER` makes the folder with `grow`, which writes the inputs; each lies in a temporary folder while the command
reads it. Times are processor milliseconds, of user and system together, the least of the runs; those of a kilobyte and of
a message are less what an empty file takes. The peak is the most memory that the command held. Where cost grows as the
input does, the time of a kilobyte or of a message stays, and the peak of a stream.
"""
import argparse
import os
import pathlib
import subprocess
import sys
import tempfile

COMMAND = pathlib.Path(__file__).resolve().parent.parent / "crates/cp_cli/out/cp_cli"
KILO, MEGA = 1 << 10, 1 << 20


def filling(sizes):
    """Each size, so many times that it fills 32 MB."""
    return [(size, max(1, 32 * MEGA // size)) for size in sizes]


# What grows: the jobs, and each size of a message with its number in the file.
KINDS = {
    "data": (["check", "check --packed", "pack", "unpack"], filling([KILO, 32 * KILO, MEGA, 4 * MEGA, 16 * MEGA, 32 * MEGA])),
    "texts": (["check", "show", "pack"], filling([KILO, 32 * KILO, MEGA, 4 * MEGA, 16 * MEGA, 32 * MEGA])),
    "small": (["check", "check --packed", "show"], [(0, 10**power) for power in range(1, 8)]),
    "segments": (["check", "show", "pack"], [(count, 20) for count in (1, 2, 16, 52, 256, 511)]),
    "nesting": (["check", "show", "recut --words 1000000"], [(levels, 20) for levels in (6, 8, 16, 32, 48, 64)]),
}


def run(words, cpu):
    """Processor milliseconds and the peak in megabytes. A process begins with the peak of the one that it was split off from, hence `time`."""
    with tempfile.NamedTemporaryFile("r") as peak:
        child = subprocess.Popen(["time", "-f", "%M", "-o", peak.name, "taskset", "-c", cpu, *words], stdout=subprocess.DEVNULL)
        _, status, use = os.wait4(child.pid, 0)
        child.returncode = os.waitstatus_to_exitcode(status)
        if child.returncode:
            sys.exit(f"{' '.join(words)}: status {child.returncode}")
        return 1e3 * (use.ru_utime + use.ru_stime), int(peak.read()) / KILO


def least(words, cpu, runs):
    """The least time of the runs and the greatest peak. What takes a second is run once."""
    time, peak = run(words, cpu)
    for _ in range(runs - 1 if time < 1000 else 0):
        again, other = run(words, cpu)
        time, peak = min(time, again), max(peak, other)
    return time, peak


def make(words, file):
    with open(file, "wb") as out:
        subprocess.run(words, stdout=out, check=True)


def grow(args, kind, folder, start):
    """Prints the rows of a kind."""
    jobs, sizes = KINDS[kind]
    plain, packed = folder / "plain", folder / "packed"
    for size, count in sizes:
        make([args.build / "grow", kind, str(size), str(count)], plain)
        bytes_ = plain.stat().st_size
        if any(job in ("check --packed", "unpack") for job in jobs):
            make([args.command, "pack", plain], packed)
        for job in jobs:
            file = packed if job in ("check --packed", "unpack") else plain
            time, peak = least([str(args.command), *job.split(), str(file)], args.cpu, args.runs)
            spent = 1e6 * max(0.0, time - start)
            row = f"{kind:<10}{size:>9}{job.split(' --words')[0]:>16}{count:>10}{bytes_ / KILO:>10.0f}"
            print(f"{row}{time:>10.1f}{spent * KILO / bytes_:>9.0f}{spent / count:>12.0f}{peak:>9.1f}", flush=True)


def main():
    words = argparse.ArgumentParser(description=__doc__, formatter_class=argparse.RawDescriptionHelpFormatter)
    words.add_argument("--build", type=pathlib.Path, required=True)
    words.add_argument("--command", type=pathlib.Path, default=COMMAND)
    words.add_argument("--runs", type=int, default=3)
    words.add_argument("--only", default="")
    words.add_argument("--cpu", default="1")
    args = words.parse_args()
    with tempfile.TemporaryDirectory() as name:
        folder = pathlib.Path(name)
        (folder / "none").touch()
        start, peak = least([str(args.command), "check", str(folder / "none")], args.cpu, 10)
        print(f"an empty file: {start:.1f} ms, {peak:.1f} MB; load {os.getloadavg()[0]:.1f}")
        print(f"{'kind':<10}{'size':>9}{'job':>16}{'messages':>10}{'KB':>10}{'ms':>10}{'ns/KB':>9}{'ns/message':>12}{'peak MB':>9}")
        for kind in KINDS:
            if args.only in kind:
                grow(args, kind, folder, start)


if __name__ == "__main__":
    main()
