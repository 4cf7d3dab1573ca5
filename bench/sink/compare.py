#!/usr/bin/env python3
"""Times a server that is generated from a schema beside the reference library's server of the same object.

    compare.py --build FOLDER [--runs 5] [--seconds 1] [--only WORD] [--cpus 1,2] [--enforce] [--history FILE]

`build.sh FOLDER` builds our server, `make BUILD=FOLDER` the other one, and the client of both, `ask.cpp`, which says what the modes are. A row:
the socket, the mode, its size (bytes or items), the calls under way at a time, then of each server the microseconds of a call by the client's
clock and of the server's processor, and the server's peak memory in MB. A ratio is ours over the reference's: below 1 we are faster. The spread
is that of the processor times, the median over the least. Each server runs on one processor, the client on another. With --enforce the status is
1 where a ratio of times passes its goal; with --history ratios are appended to FILE.
"""
import argparse
import os
import pathlib
import statistics
import subprocess
import sys
import tempfile
import time

HERE = pathlib.Path(__file__).resolve().parent
sys.path.insert(0, str(HERE.parent))
import history
from servers import expect_built, free_port, peak, spent, wait_for

KILO, MEGA = 1 << 10, 1 << 20

# Size, calls under way, about how many microseconds a call takes, and the greatest ratio that is asked for.
SIZES = [
    (0, 1, 40, 0.6), (0, 64, 12, 0.6), (200, 1, 40, 0.6), (200, 64, 12, 0.6), (4 * KILO, 1, 50, 0.7), (4 * KILO, 64, 20, 0.7),
    (MEGA, 1, 1200, 0.9), (MEGA, 8, 1000, 0.9), (16 * MEGA, 1, 40000, 0.9),
]
ROWS = [
    *((mode, *it) for mode in ("put", "get") for it in SIZES),
    ("raise", 1000, 1, 700, 0.9), ("raise", 1000, 8, 500, 0.9), ("pages", 0, 64, 30, 0.6), ("pages", 0, 10000, 30, 0.6),
]
SOCKETS = ("tcp", "unix")


class Place:
    """Where a server listens: the words for both servers, and for the client."""

    def __init__(self, socket, room):
        self.path = f"{room}/socket" if socket == "unix" else None
        self.port = None if self.path else free_port()
        self.ours = self.path or str(self.port)
        self.address = f"unix:{self.path}" if self.path else f"127.0.0.1:{self.port}"

    def wait(self, server):
        """Returns once it listens. (It takes one connection, so a try to connect would use that up.)"""
        if self.port:
            return wait_for(server, self.port)
        for _ in range(500):
            if f" {self.path}\n" in pathlib.Path("/proc/net/unix").read_text():
                return
            time.sleep(0.01)
        sys.exit("the server doesn't listen")


def run(name, socket, row, args):
    """Microseconds a call by the client's clock and of the server's processor, and the server's peak of memory."""
    mode, size, window, micros, _ = row
    calls = window * max(1, int(1e6 * args.seconds / micros) // window)
    here, there = args.cpus.split(",")
    with tempfile.TemporaryDirectory() as room:
        place = Place(socket, room)
        words = [place.ours, "2"] if name == "sinking" else [place.address, "2"]
        server = subprocess.Popen(["taskset", "-c", there, str(args.build / name), *words])
        try:
            place.wait(server)
            before = spent(server)
            client = ["taskset", "-c", here, str(args.build / "ask"), place.address, mode, *map(str, (size, window, calls))]
            took = float(subprocess.run(client, stdout=subprocess.PIPE, check=True, timeout=300).stdout) / 1e3
            # The turn that isn't timed counts too.
            return took, 1e6 * (spent(server) - before) / (calls + window), peak(server) / KILO
        finally:
            server.kill()
            server.wait()


def compare(socket, row, args):
    """Prints a row; its name, its two ratios, and whether they meet the goal."""
    mode, size, window, _, goal = row
    runs = [[run(name, socket, row, args) for name in ("sinking", "sink")] for _ in range(args.runs)]
    ours, theirs = ([statistics.median(it) for it in zip(*those)] for those in zip(*runs))
    ratio, work = ours[0] / theirs[0], ours[1] / theirs[1]
    spread = " ".join(f"{statistics.median(those) / min(those):.2f}" for those in zip(*((a[1], b[1]) for a, b in runs)))
    times = f"{ours[0]:>9.1f}{theirs[0]:>9.1f}{ratio:>6.2f}{ours[1]:>9.1f}{theirs[1]:>9.1f}{work:>6.2f}"
    met = max(ratio, work) <= goal
    note = "" if met else "over"
    print(f"{socket:<5}{mode:<6}{size:>9}{window:>6}{times}{goal:>6.1f}{ours[2]:>7.1f}{theirs[2]:>7.1f}   {spread}  {note}", flush=True)
    return f"{mode} {size}, {window} at once, {socket}", ratio, work, met


def main():
    words = argparse.ArgumentParser(description=__doc__, formatter_class=argparse.RawDescriptionHelpFormatter)
    words.add_argument("--build", type=pathlib.Path, required=True)
    words.add_argument("--runs", type=int, default=5)
    words.add_argument("--seconds", type=float, default=1)
    words.add_argument("--only", default="")
    words.add_argument("--cpus", default="1,2")
    words.add_argument("--enforce", action="store_true")
    words.add_argument("--history", type=pathlib.Path)
    args = words.parse_args()
    expect_built(*(args.build / it for it in ("sinking", "sink", "ask")))
    load = os.getloadavg()[0]
    print(f"{args.runs} runs of each, in turn; load {load:.1f}")
    columns = f"{'us':>9}{'theirs':>9}{'':>6}{'server':>9}{'theirs':>9}{'':>6}{'goal':>6}{'MB':>7}{'theirs':>7}"
    print(f"{'':<5}{'mode':<6}{'size':>9}{'':>6}{columns}   spread")
    rows = [(socket, row) for socket in SOCKETS for row in ROWS if args.only in f"{socket}/{row[0]}/{row[1]}/{row[2]}"]
    found = [compare(*it, args) for it in rows]
    if args.history:
        rows = [it for what, ratio, work, _ in found for it in ((what, "", f"{ratio:.2f}", "ratio"), (what, "server's processor", f"{work:.2f}", "ratio"))]
        history.keep(args.history, "sink/compare.py", rows, f"load {load:.1f} at first, medians of {args.runs} runs")
    return 1 if args.enforce and not all(met for *_, met in found) else 0


if __name__ == "__main__":
    sys.exit(main())
