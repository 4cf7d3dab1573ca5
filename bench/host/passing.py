#!/usr/bin/env python3
"""Times what a host passes on beside servers over the reference library: notes that are pushed to all connections, and calls of one client's
object by another client.

    passing.py --build FOLDER --examples PROGRAM [--runs 3] [--cpus 1,2] [--only WORD] [--enforce] [--history FILE]

PROGRAM is more_examples, built. `make BUILD=FOLDER/notebook` in nightly/notebook, and `make BUILD=FOLDER/directory` in nightly/directory, make
the rest. A row: how many connections watch, or how many calls are under way at a time, then of each server the microseconds of its processor
for a push or a call, and its peak memory in MB. A ratio is ours over the reference's: below 1 we are faster. The spread is the median over the
least. Each server runs on one processor, its clients on another. With --enforce the status is 1 where a ratio of times passes its goal; with
--history ratios are appended to FILE.
"""
import argparse
import os
import pathlib
import statistics
import subprocess
import sys

HERE = pathlib.Path(__file__).resolve().parent
sys.path.insert(0, str(HERE.parent))
import history
from servers import expect_built, free_port, peak, spent, wait_for

ROWS = [("push", 100), ("push", 990), ("call", 1), ("call", 64)]
NOTES = 40  # that are pushed
CALLS = {1: 5000, 64: 20000}
GOAL = 0.6


def started(cpu, words):
    return subprocess.Popen(["taskset", "-c", cpu, *map(str, words)], stdout=subprocess.DEVNULL, stderr=subprocess.DEVNULL)


def serve(words, port, cpu):
    """A server that listens."""
    server = started(cpu, words)
    wait_for(server, port)
    return server


def client(words, cpu):
    subprocess.run(["taskset", "-c", cpu, *map(str, words)], stdout=subprocess.DEVNULL, stderr=subprocess.DEVNULL, check=True, timeout=300)


def end(*processes):
    for it in processes:
        it.kill()
        it.wait()


def pushes(words, port, watchers, args):
    """Microseconds of a push, and the peak: what a server takes for many notes, less what it takes for one."""
    here, there = args.cpus.split(",")
    took = []
    for notes in (1, 1 + NOTES):
        server = serve(words, port, there)
        before = spent(server)
        client([args.build / "notebook/client", "many", f"127.0.0.1:{port}", watchers, notes], here)
        took.append(spent(server) - before)
        most = peak(server)
        end(server)
    return 1e6 * (took[1] - took[0]) / (NOTES * watchers), most / 1024


def calls(words, port, window, args):
    """Microseconds of a call that a server passes on, and the peak."""
    here, there = args.cpus.split(",")
    server = serve(words, port, there)
    members = args.build / "directory/members"
    called = started(here, [members, port, "serve", "a"])
    try:
        # It is found once it has joined.
        while subprocess.run([members, str(port), "load", "a", "1", "1"], stderr=subprocess.DEVNULL).returncode:
            pass
        before = spent(server)
        client([members, port, "load", "a", CALLS[window], window], here)
        return 1e6 * (spent(server) - before) / CALLS[window], peak(server) / 1024
    finally:
        end(called, server)


def run(ours, row, args):
    """A row of one server. The examples listen on ports of their own."""
    kind, count = row
    if kind == "push":
        port = 7001 if ours else free_port()
        words = [args.examples, "server"] if ours else [args.build / "notebook/server", f"127.0.0.1:{port}"]
        return pushes(words, port, count, args)
    port = 7003 if ours else free_port()
    words = [args.examples, "directory"] if ours else [args.build / "directory/server", port]
    return calls(words, port, count, args)


def compare(row, args):
    """Prints a row; its ratio."""
    runs = [[run(ours, row, args) for ours in (True, False)] for _ in range(args.runs)]
    ours, theirs = ([statistics.median(it) for it in zip(*those)] for those in zip(*runs))
    ratio = ours[0] / theirs[0]
    spread = " ".join(f"{statistics.median(works) / min(works):.2f}" for works in ([it[0] for it in those] for those in zip(*runs)))
    note = "" if ratio <= GOAL else "over"
    print(f"{row[0]:<6}{row[1]:>6}{ours[0]:>10.2f}{theirs[0]:>10.2f}{ratio:>8.2f}{GOAL:>7.2f}{ours[1]:>8.1f}{theirs[1]:>8.1f}   {spread}  {note}", flush=True)
    return ratio


def main():
    words = argparse.ArgumentParser(description=__doc__, formatter_class=argparse.RawDescriptionHelpFormatter)
    words.add_argument("--build", type=pathlib.Path, required=True)
    words.add_argument("--examples", type=pathlib.Path, required=True)
    words.add_argument("--runs", type=int, default=3)
    words.add_argument("--cpus", default="1,2")
    words.add_argument("--only", default="", help="a row, such as push/100")
    words.add_argument("--enforce", action="store_true")
    words.add_argument("--history", type=pathlib.Path)
    args = words.parse_args()
    expect_built(args.examples, *(args.build / it for it in ("notebook/server", "notebook/client", "directory/server", "directory/members")))
    load = os.getloadavg()[0]
    print(f"{args.runs} runs of each, in turn; load {load:.1f}")
    print(f"{'':<12}{'us':>10}{'theirs':>10}{'ratio':>8}{'goal':>7}{'MB':>8}{'theirs':>8}   spread")
    rows = [row for row in ROWS if args.only in f"{row[0]}/{row[1]}"]
    found = [compare(row, args) for row in rows]
    if args.history:
        kept = [(f"{kind}, {count} at once", "server's processor", f"{ratio:.2f}", "ratio") for (kind, count), ratio in zip(rows, found)]
        history.keep(args.history, "host/passing.py", kept, f"load {load:.1f} at first, medians of {args.runs} runs")
    return 1 if args.enforce and any(it > GOAL for it in found) else 0


if __name__ == "__main__":
    sys.exit(main())
