#!/usr/bin/env python3
"""Times `capnp_cli serve` beside the reference library's server of the same objects, and prints the ratios of their times. In the mode
`large-results` the server is a program over cp_serve, `giving`, and both have a Blob.

    compare.py --build FOLDER [--runs 7] [--calls 30000] [--only WORD] [--cpus 1,2] [--enforce] [--history FILE]

`giving/build.sh FOLDER` builds `giving`, `make BUILD=FOLDER` the rest. The two servers run in turn on one processor, the same
client on another, and a call's time is the client's by the clock. A ratio is ours over the reference's: below 1 we are faster.
The spread is the median over the least, ours and the reference's. `server` is the ratio of the servers' processor times, in
which other work on the machine shows little. With --enforce the status is 1 where a ratio passes its goal. With --history each
ratio is appended to FILE; plot.py draws it. `client.cpp` says what the modes are.
"""
import argparse
import os
import pathlib
import statistics
import subprocess
import sys

HERE = pathlib.Path(__file__).resolve().parent
sys.path.insert(0, str(HERE.parent))
import history
from servers import expect_built, free_port, used, wait_for

COMMAND = HERE.parent.parent / "crates/cp_cli/out/cp_cli"

# The greatest ratio that is asked for.
GOALS = {"seq": 0.85, "window": 0.9, "pipeline": 0.85, "large": 1.2, "large-3": 1.1, "large-30": 1.1, "large-results": 0.9, "raw-seq": 0.75, "raw-window": 0.45, "raw-full": 0.75}

# Of calls that take longer there are fewer, by this factor.
FEWER = {"large": 30, "large-3": 90, "large-30": 900, "large-results": 30}


def run(words, mode, args):
    """Microseconds a call by the clock, and of its server's processor, which serves it alone. `PORT` among the words is its port."""
    port = free_port()
    here, there = args.cpus.split(",")
    server = subprocess.Popen(["taskset", "-c", there, *(str(port) if it == "PORT" else it for it in words)])
    wait_for(server, port)
    calls = args.calls // FEWER.get(mode, 1)
    client = ["taskset", "-c", here, str(args.build / "client"), str(port), mode, str(calls)]
    took = float(subprocess.run(client, stdout=subprocess.PIPE, check=True, timeout=120).stdout) / 1e3
    before = used()
    server.wait(5)
    return took, (used() - before) / calls


def servers(mode, args):
    """The words of both servers, ours first."""
    theirs = [str(args.build / "server"), "PORT", "1"]
    if mode == "large-results":
        return [[str(args.build / "giving"), "PORT", "1"], [*theirs, "blob"]]
    return [[str(args.command), "serve", "PORT", "1"], theirs]


def compare(mode, args):
    """Prints a row; the ratios by the clock and of the servers' processor time, and whether the goal is met."""
    runs = [[run(words, mode, args) for words in servers(mode, args)] for _ in range(args.runs)]
    (ours, our_work), (theirs, their_work) = (zip(*it) for it in zip(*runs))
    mine, other = statistics.median(ours), statistics.median(theirs)
    ratio, work = mine / other, statistics.median(our_work) / statistics.median(their_work)
    met = ratio <= GOALS[mode]
    spread = f"{mine / min(ours):.2f} {other / min(theirs):.2f}"
    print(f"{mode:<15}{mine:>9.1f} us{other:>9.1f} us{ratio:>8.2f}{GOALS[mode]:>7.2f}{work:>8.2f}   {spread}  {'' if met else 'over'}", flush=True)
    return ratio, work, met


def main():
    words = argparse.ArgumentParser(description=__doc__, formatter_class=argparse.RawDescriptionHelpFormatter)
    words.add_argument("--build", type=pathlib.Path, required=True)
    words.add_argument("--command", type=pathlib.Path, default=COMMAND)
    words.add_argument("--runs", type=int, default=7)
    words.add_argument("--calls", type=int, default=30000)
    words.add_argument("--only", default="")
    words.add_argument("--cpus", default="1,2")
    words.add_argument("--enforce", action="store_true")
    words.add_argument("--history", type=pathlib.Path)
    args = words.parse_args()
    modes = [it for it in GOALS if args.only in it]
    expect_built(args.build / "client", *(it[0] for mode in modes for it in servers(mode, args)))
    load = os.getloadavg()[0]
    print(f"{args.runs} runs of each, in turn; load {load:.1f}")
    print(f"{'mode':<15}{'ours':>12}{'reference':>12}{'ratio':>8}{'goal':>7}{'server':>8}   spread")
    found = [compare(mode, args) for mode in modes]
    if args.history:
        rows = [row for mode, (ratio, work, _) in zip(modes, found) for row in ((mode, "", f"{ratio:.2f}", "ratio"), (mode, "server's processor", f"{work:.2f}", "ratio"))]
        history.keep(args.history, "rpc/compare.py", rows, f"load {load:.1f} at first, medians of {args.runs} runs")
    return 1 if args.enforce and not all(met for *_, met in found) else 0


if __name__ == "__main__":
    sys.exit(main())
