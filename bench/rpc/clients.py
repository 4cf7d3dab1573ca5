#!/usr/bin/env python3
"""Times our client beside the reference library's, each with the same server, and prints the ratios of their times.

    clients.py --build FOLDER [--command FILE] [--runs 7] [--calls 30000] [--only WORD] [--cpus 1,2] [--enforce]

`calling/build.sh FOLDER` builds our client, `giving/build.sh FOLDER` our server of `echo-..`, `make BUILD=FOLDER` the reference
library's. The clients run in turn on one processor, a server on another: the reference library's, and ours, with --command also
`capnp_cli serve`. A call's time is the client's by the clock. A ratio is ours over the reference's: below 1 we are faster. `client`
is the ratio of the clients' processor times. With --enforce the status is 1 where a ratio by the clock passes its goal. `client.cpp`
says what the modes are.
"""
import argparse
import os
import pathlib
import statistics
import subprocess
import sys

sys.path.insert(0, str(pathlib.Path(__file__).resolve().parent.parent))
from servers import expect_built, free_port, used, wait_for

# The greatest ratio that is asked for.
GOALS = {"seq": 0.9, "window": 0.9, "pipeline": 0.9, "echo-1-20": 1.0, "echo-16-20": 1.0}

# Of calls that take longer there are fewer, by this factor.
FEWER = {"echo-1-20": 100, "echo-16-20": 750}


def run(client, server, mode, args):
    """Microseconds a call, by the clock and of the client's processor, with a server of its own. `PORT` among its words is its port."""
    port = free_port()
    here, there = args.cpus.split(",")
    process = subprocess.Popen(["taskset", "-c", there, *(str(port) if it == "PORT" else it for it in server)])
    wait_for(process, port)
    calls, before = args.calls // FEWER.get(mode, 1), used()
    words = ["taskset", "-c", here, str(args.build / client), str(port), mode, str(calls)]
    took = float(subprocess.run(words, stdout=subprocess.PIPE, check=True, timeout=120).stdout) / 1e3
    work = (used() - before) / calls
    process.wait(5)
    return took, work


def servers(mode, args):
    """The words of the servers of a mode by their names."""
    theirs = [str(args.build / "server"), "PORT", "1"]
    if mode.startswith("echo-"):
        return {"reference": [*theirs, "blob"], "ours": [str(args.build / "giving"), "PORT", "1", "host"]}
    ours = {"ours": [str(args.command), "serve", "PORT", "1"]} if args.command else {}
    return {"reference": theirs, **ours}


def compare(name, server, mode, args):
    """Prints a row; whether the goal is met."""
    runs = [[run(client, server, mode, args) for client in ("calling", "client")] for _ in range(args.runs)]
    (ours, our_work), (theirs, their_work) = (zip(*it) for it in zip(*runs))
    mine, other = statistics.median(ours), statistics.median(theirs)
    work = statistics.median(our_work) / statistics.median(their_work)
    met = mine / other <= GOALS[mode]
    spread = f"{mine / min(ours):.2f} {other / min(theirs):.2f}"
    row = f"{name:<11}{mode:<11}{mine:>8.1f} us{other:>9.1f} us{mine / other:>8.2f}{GOALS[mode]:>7.2f}{work:>8.2f}   {spread}  {'' if met else 'over'}"
    print(row, flush=True)
    return met


def main():
    words = argparse.ArgumentParser(description=__doc__, formatter_class=argparse.RawDescriptionHelpFormatter)
    words.add_argument("--build", type=pathlib.Path, required=True)
    words.add_argument("--command", type=pathlib.Path)
    words.add_argument("--runs", type=int, default=7)
    words.add_argument("--calls", type=int, default=30016)
    words.add_argument("--only", default="")
    words.add_argument("--cpus", default="1,2")
    words.add_argument("--enforce", action="store_true")
    args = words.parse_args()
    modes = [mode for mode in GOALS if args.only in mode]
    rows = [(name, server, mode) for mode in modes for name, server in servers(mode, args).items()]
    expect_built(args.build / "calling", args.build / "client", *{server[0] for _, server, _ in rows})
    print(f"{args.runs} runs of each, in turn; load {os.getloadavg()[0]:.1f}")
    print(f"{'server':<11}{'mode':<11}{'our client':>11}{'reference':>12}{'ratio':>8}{'goal':>7}{'client':>8}   spread")
    met = [compare(*row, args) for row in rows]
    return 1 if args.enforce and not all(met) else 0


if __name__ == "__main__":
    sys.exit(main())
