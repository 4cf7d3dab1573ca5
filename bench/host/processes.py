#!/usr/bin/env python3
"""Times several processes of `capnp_cli serve` behind HAProxy, beside the reference library's server likewise.

    processes.py --build FOLDER [--command FILE] [--runs 3] [--calls 50000] [--connections 100]

A row: the server, how many processes it has (0: one without HAProxy), as many programs that call them, then the calls a second of all
together, and the microseconds of a processor that a call takes of the servers, of HAProxy and of the callers. Each caller has so many
connections, and makes so many calls. Where all processors are busy, calls a second say little, and processor time more.
"""
import argparse
import os
import pathlib
import statistics
import subprocess
import sys
import tempfile
import time

HERE = pathlib.Path(__file__).resolve().parent
sys.path.insert(0, str(HERE.parent))
from servers import expect_built, free_port, spent, wait_for

COMMAND = HERE.parent.parent / "crates/cp_cli/out/cp_cli"
BALANCER = """
global
    maxconn 8192
defaults
    mode tcp
    timeout connect 2s
    timeout client 5m
    timeout server 5m
listen store
    bind 127.0.0.1:{port}
    balance leastconn
"""


def started(words):
    return subprocess.Popen([str(it) for it in words], stderr=subprocess.DEVNULL)


def run(words, count, args):
    """Calls a second, and microseconds a call of the servers, HAProxy and the callers."""
    ports, processes, port = [free_port() for _ in range(max(count, 1))], [], None
    try:
        for it in ports:
            processes.append(started([it if word == "PORT" else word for word in words]))
            wait_for(processes[-1], it)
        servers = list(processes)
        if count:
            port = free_port()
            with tempfile.NamedTemporaryFile("w", suffix=".cfg") as file:
                file.write(BALANCER.format(port=port) + "".join(f"    server s{it} 127.0.0.1:{it}\n" for it in ports))
                file.flush()
                processes.append(started(["haproxy", "-db", "-f", file.name]))
                wait_for(processes[-1], port)
        before = [spent(it) for it in processes]
        began, times = time.time(), os.times()
        load = [args.build / "load", port or ports[0], args.connections, args.calls, 0, servers[0].pid]
        callers = [subprocess.Popen([str(it) for it in load], stdout=subprocess.DEVNULL) for _ in ports]
        for it in callers:
            assert it.wait(600) == 0
        took, ended = time.time() - began, os.times()
        each = [after - it for after, it in zip(map(spent, processes), before)]
    finally:
        for it in processes:
            it.kill()
            it.wait()
    calls = args.calls * len(ports)
    callers_took = ended.children_user + ended.children_system - times.children_user - times.children_system
    parts = sum(each[: len(servers)]), sum(each[len(servers) :]), callers_took
    return calls / took, *(it / calls * 1e6 for it in parts)


def main():
    words = argparse.ArgumentParser(description=__doc__, formatter_class=argparse.RawDescriptionHelpFormatter)
    words.add_argument("--build", type=pathlib.Path, required=True)
    words.add_argument("--command", type=pathlib.Path, default=COMMAND)
    words.add_argument("--runs", type=int, default=3)
    words.add_argument("--calls", type=int, default=50_000)
    words.add_argument("--connections", type=int, default=100)
    args = words.parse_args()
    expect_built(args.command, args.build / "many", args.build / "load")
    servers = {"ours": [args.command, "serve", "--at-once", "2000", "PORT", "-"], "reference": [args.build / "many", "PORT"]}
    print(f"{args.runs} runs of each, in turn; load {os.getloadavg()[0]:.1f}; {os.cpu_count()} processors")
    print(f"{'':<12}{'processes':>10}{'calls/s':>10}{'server us':>11}{'HAProxy us':>12}{'caller us':>11}")
    for count in (0, 1, 2, 4):
        times = [[run(it, count, args) for it in servers.values()] for _ in range(args.runs)]
        for name, those in zip(servers, zip(*times)):
            rate, *each = (statistics.median(it) for it in zip(*those))
            print(f"{name:<12}{count:>10}{rate:>10.0f}{each[0]:>11.2f}{each[1]:>12.2f}{each[2]:>11.2f}", flush=True)


if __name__ == "__main__":
    main()
