#!/usr/bin/env python3
"""Times `capnp_cli serve --at-once N` beside the reference library's server of many connections.

    compare.py --build FOLDER [--runs 5] [--calls 100000] [--cpus 1,2] [--only WORD] [--enforce] [--history FILE]

A row: connections that call, silent ones beside them, then of each server the calls a second, the microseconds of the median call, of the
99th in a hundred and of the server's processor a call, and the kB that a connection takes; then the ratios of the last two, ours over the
reference's. The spread is that of the processor times, the median over the least. Each server runs on one processor, the client on another.
With --enforce the status is 1 where a ratio passes its goal; with --history ratios are appended to FILE.
"""
import argparse
import os
import pathlib
import statistics
import subprocess
import sys

HERE = pathlib.Path(__file__).resolve().parent
sys.path.insert(0, str(HERE.parent))
import history
from servers import expect_built, free_port, raise_open_files, wait_for

COMMAND = HERE.parent.parent / "crates/cp_cli/out/cp_cli"

# Connections that call, and silent ones.
ROWS = [(1, 0), (100, 0), (1000, 0), (5000, 0), (1, 99), (10, 990), (50, 4950), (1, 1000)]
MOST = 10_000  # connections at once

# The greatest ratio of processor times and of memory that is asked for.
GOALS = (0.6, 0.34)


def run(words, row, args):
    """What `load` prints, as numbers, against a server of its own. `PORT` among the words is its port."""
    port = free_port()
    here, there = args.cpus.split(",")
    words = [str(port) if it == "PORT" else it for it in words]
    server = subprocess.Popen(["taskset", "-c", there, *words], stderr=subprocess.DEVNULL)
    try:
        wait_for(server, port)
        client = ["taskset", "-c", here, str(args.build / "load"), str(port), str(row[0]), str(args.calls), str(row[1]), str(server.pid)]
        said = subprocess.run(client, stdout=subprocess.PIPE, check=True, timeout=300).stdout
    finally:
        server.kill()
        server.wait()
    *times, before, after = map(float, said.split())
    return *times, (after - before) / sum(row)


def compare(servers, row, args):
    """Prints the lines of a row; its two ratios."""
    runs = [[run(it, row, args) for it in servers.values()] for _ in range(args.runs)]
    each = [[statistics.median(it) for it in zip(*those)] for those in zip(*runs)]
    for name, (rate, median, late, work, memory) in zip(servers, each):
        print(f"{name:<12}{row[0]:>8}{row[1]:>8}{rate:>10.0f}{median:>11.1f}{late:>11.1f}{work:>9.2f}{memory:>9.1f}", flush=True)
    spread = " ".join(f"{statistics.median(works) / min(works):.2f}" for works in ([it[3] for it in those] for those in zip(*runs)))
    ratios = tuple(ours / theirs for ours, theirs in zip(each[0][3:], each[1][3:]))
    note = "over" if any(it > goal for it, goal in zip(ratios, GOALS)) else ""
    print(f"{'ratio':<60}{ratios[0]:>9.2f}{ratios[1]:>9.2f}   {spread}  {note}", flush=True)
    return ratios


def main():
    words = argparse.ArgumentParser(description=__doc__, formatter_class=argparse.RawDescriptionHelpFormatter)
    words.add_argument("--build", type=pathlib.Path, required=True)
    words.add_argument("--command", type=pathlib.Path, default=COMMAND)
    words.add_argument("--runs", type=int, default=5)
    words.add_argument("--calls", type=int, default=100000)
    words.add_argument("--cpus", default="1,2")
    words.add_argument("--only", default="", help="a row, such as 5000/0")
    words.add_argument("--enforce", action="store_true")
    words.add_argument("--history", type=pathlib.Path)
    args = words.parse_args()
    expect_built(args.command, args.build / "many", args.build / "load")
    servers = {"ours": [str(args.command), "serve", "--at-once", str(MOST), "PORT", "-"], "reference": [str(args.build / "many"), "PORT"]}
    raise_open_files()
    load = os.getloadavg()[0]
    print(f"{args.runs} runs of each, in turn; load {load:.1f}")
    print(f"{'':<12}{'calling':>8}{'silent':>8}{'calls/s':>10}{'median us':>11}{'99 in 100':>11}{'server':>9}{'kB each':>9}   spread")
    rows = [row for row in ROWS if args.only in f"{row[0]}/{row[1]}"]
    found = [compare(servers, row, args) for row in rows]
    if args.history:
        kept = [
            (f"{calling} connections, {silent} silent", what, f"{ratio:.2f}", "ratio")
            for (calling, silent), ratios in zip(rows, found)
            for what, ratio in zip(("server's processor", "memory"), ratios)
        ]
        history.keep(args.history, "host/compare.py", kept, f"load {load:.1f} at first, medians of {args.runs} runs")
    return 1 if args.enforce and any(it > goal for ratios in found for it, goal in zip(ratios, GOALS)) else 0


if __name__ == "__main__":
    sys.exit(main())
