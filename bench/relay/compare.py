#!/usr/bin/env python3
"""Times calls through `capnp_cli relay` beside those through HAProxy and a bare TCP relay, which look at nothing.

    compare.py --build FOLDER [--command PROGRAM] [--runs 5] [--calls 20000] [--cpus 1,2,3] [--only WORD] [--enforce] [--history FILE]

The client, a relay and the reference library's server run on a processor each. A row has what a call takes by the client's clock, and
that over the bare relay's, then of the relay's processor, and that over HAProxy's. `seq`, `window` and `pipeline` are the small calls of
bench/rpc; then come calls with 4 KiB and 1 MiB in the params, and small calls of 100 connections at once. `direct` is without a relay;
`whole` is the bare one where it holds each frame until all of it has come; `anew` and `guard` are ours where it writes each message anew,
and with rules that let all pass. The spread is that of the processor time, the median over the least. With --enforce the status is 1
where a ratio passes its goal; with --history the ratios of ours are appended to FILE.
"""
import argparse
import os
import pathlib
import statistics
import subprocess
import sys
import tempfile

HERE = pathlib.Path(__file__).resolve().parent
sys.path.insert(0, str(HERE.parent))
import history
from servers import expect_built, free_port, spent, wait_for

COMMAND = HERE.parent.parent / "crates/cp_cli/out/cp_cli"
PEERS = HERE.parent.parent / "nightly/peers"

# The calls of a mode by how many fewer they are, since each takes longer.
MODES = {"seq": 1, "window": 1, "pipeline": 1, "params-4096": 1, "params-1048576": 30, "many": 1}
CONNECTIONS = 100  # in the mode `many`
OURS = ("ours", "anew", "guard")

# The greatest ratio of processor times that is asked for, and of times by the clock where nothing is said: of ours, over the bare relay's.
GOALS = {("params-4096", "ours"): 1.5, ("params-4096", "guard"): 1.5}
BY_CLOCK = 1.5

BALANCER = """
defaults
    mode tcp
    timeout connect 2s
    timeout client 5m
    timeout server 5m
listen calls
    bind 127.0.0.1:{port}
    server one 127.0.0.1:{to}
"""


def relays(room, args):
    """The words of each relay, with PORT and TO for its port and the server's."""
    ours = [args.command, "relay"]
    ends = ["PORT", "127.0.0.1:TO", "1000"]
    rules = ["--schema", room / "desk.request", "--allow", "Desk.now", "--allow", "Cell.add"]
    return {
        "direct": None,
        "bare": [args.build / "bare", "PORT", "TO", "1000"],
        "whole": [args.build / "bare", "PORT", "TO", "1000", "whole"],
        "HAProxy": ["haproxy", "-db", "-q", "-f", room / "haproxy.cfg"],
        "ours": [*ours, *ends],
        "anew": [*ours, "--anew", *ends],
        "guard": [*ours, *rules, *ends],
    }


def start(cpu, words, port):
    """Runs it, and returns once it listens."""
    process = subprocess.Popen(["taskset", "-c", cpu, *map(str, words)])
    wait_for(process, port)
    return process


def call(mode, port, server, args):
    """Makes the calls of a mode; how many, and microseconds a call."""
    calls = args.calls // MODES[mode]
    words = [args.build / "rpc/client", port, mode, calls]
    if mode == "many":
        words = [args.build / "host/load", port, CONNECTIONS, calls, 0, server.pid]
    words = ["taskset", "-c", args.cpus.split(",")[0], *map(str, words)]
    said = float(subprocess.run(words, stdout=subprocess.PIPE, check=True, timeout=120).stdout.split()[0])
    return calls, 1e6 / said if mode == "many" else said / 1e3


def run(relay, mode, room, args):
    """Microseconds a call, by the clock and of the relay's processor."""
    to, port = free_port(), free_port()
    (room / "haproxy.cfg").write_text(BALANCER.format(port=port, to=to))
    _, between, there = args.cpus.split(",")
    many = [args.build / "host/many", to]
    processes = [start(there, many if mode == "many" else [args.build / "rpc/server", to, "1"], to)]
    try:
        if relay is None:
            return call(mode, to, processes[0], args)[1], 0.0
        words = [str(it).replace("PORT", str(port)).replace("TO", str(to)) for it in relay]
        processes.append(start(between, words, port))
        before = spent(processes[1])
        calls, took = call(mode, port, processes[0], args)
        return took, 1e6 * (spent(processes[1]) - before) / calls
    finally:
        for it in reversed(processes):
            it.kill()
            it.wait()


def compare(mode, room, args):
    """Prints the rows of a mode; the ratios of processor times, and whether the goals are met."""
    each = relays(room, args)
    runs = [{name: run(words, mode, room, args) for name, words in each.items()} for _ in range(args.runs)]
    clock, work = ({name: statistics.median(row[name][it] for row in runs) for name in each} for it in (0, 1))
    met = clock["ours"] <= BY_CLOCK * clock["bare"]
    for name in each:
        ratio, goal = work[name] / work["HAProxy"], GOALS.get((mode, name))
        spread = work[name] / min(row[name][1] for row in runs) if work[name] else 1.0
        is_over = goal and ratio > goal
        met &= not is_over
        times = f"{clock[name]:>9.1f}{clock[name] / clock['bare']:>7.2f}{work[name]:>10.2f}{ratio:>9.2f}"
        print(f"{mode:<16}{name:<9}{times}   {spread:.2f}  {'over' if is_over else ''}", flush=True)
    return {name: work[name] / work["HAProxy"] for name in OURS}, met


def main():
    words = argparse.ArgumentParser(description=__doc__, formatter_class=argparse.RawDescriptionHelpFormatter)
    words.add_argument("--build", type=pathlib.Path, required=True)
    words.add_argument("--command", type=pathlib.Path, default=COMMAND)
    words.add_argument("--runs", type=int, default=5)
    words.add_argument("--calls", type=int, default=20000)
    words.add_argument("--cpus", default="1,2,3")
    words.add_argument("--only", default="")
    words.add_argument("--enforce", action="store_true")
    words.add_argument("--history", type=pathlib.Path)
    args = words.parse_args()
    expect_built(args.command, *(args.build / it for it in ("bare", "rpc/client", "rpc/server", "host/load", "host/many")))
    load = os.getloadavg()[0]
    print(f"{args.runs} runs of each, in turn; load {load:.1f}")
    print(f"{'mode':<16}{'relay':<9}{'us':>9}{'bare':>7}{'its us':>10}{'HAProxy':>9}   spread")
    with tempfile.TemporaryDirectory() as name:
        room = pathlib.Path(name)
        request = subprocess.run(["capnp", "compile", "-o-", "desk.capnp"], cwd=PEERS, stdout=subprocess.PIPE, check=True).stdout
        (room / "desk.request").write_bytes(request)
        found = {mode: compare(mode, room, args) for mode in MODES if args.only in mode}
    if args.history:
        kept = [(mode, f"{name} over HAProxy", f"{it:.2f}", "ratio") for mode, (ratios, _) in found.items() for name, it in ratios.items()]
        history.keep(args.history, "relay/compare.py", kept, f"load {load:.1f} at first, medians of {args.runs} runs")
    return 1 if args.enforce and not all(met for _, met in found.values()) else 0


if __name__ == "__main__":
    sys.exit(main())
