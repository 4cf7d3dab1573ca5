#!/usr/bin/env python3
"""Times how cost grows, ours beside the reference library's, and draws it: a picture each for entries, connections and messages.

    pictures.py --build FOLDER [--command FILE] [--to bench/pictures] [--runs 3] [--cpus 1,2] [--only WORD] [--history FILE]

`make BUILD=FOLDER` in bench and in bench/host makes the programs. The entries are answers that a server keeps, at most 60,000 of a connection, as
calls weren't finished. The connections call a server at the same time. Of both it is the server's processor time a call, by `host/load`.
The messages hold data, and are checked by `capnp_cli check` or by `reference check`: processor time a KB, less that of an empty file. A point is
the least of the runs. With --history the figures are appended to FILE.
"""
import argparse
import math
import os
import pathlib
import subprocess
import sys
import tempfile

HERE = pathlib.Path(__file__).resolve().parent
import growth
import history
from servers import expect_built, free_port, raise_open_files, wait_for

COMMAND = HERE.parent / "crates/cp_cli/out/cp_cli"
KILO, MEGA = 1 << 10, 1 << 20
OF_ONE = 60_000  # entries of a connection
MOST = 10_100  # connections
TRAVERSAL = ["--traversal", str(64 * MEGA)]

# What grows, what a point is of, and the sizes.
PICTURES = {
    "entries": ("answers that are kept", "us a call", [60, 600, 6_000, 60_000, 600_000]),
    "connections": ("connections that call", "us a call", [10, 100, 1_000, 10_000]),
    "messages": ("bytes of a message", "ns a KB", [KILO, 32 * KILO, MEGA, 16 * MEGA, 64 * MEGA, 256 * MEGA]),
}


def by_load(words, connections, kept, calls, args):
    """Microseconds of the server's processor a call."""
    port = free_port()
    here, there = args.cpus.split(",")
    server = subprocess.Popen(["taskset", "-c", there, *(str(it).replace("PORT", str(port)) for it in words)], stderr=subprocess.DEVNULL)
    try:
        wait_for(server, port)
        load = [args.build / "load", port, connections, calls, 0, server.pid, kept]
        said = subprocess.run(["taskset", "-c", here, *map(str, load)], stdout=subprocess.PIPE, check=True, timeout=600).stdout
        return float(said.split()[3])
    finally:
        server.kill()
        server.wait()


def by_check(program, size, file, start, args):
    """Nanoseconds of a processor a KB."""
    time, _ = growth.least([str(program), "check", *TRAVERSAL, str(file)], args.cpus.split(",")[0], args.runs)
    return 1e6 * max(0.0, time - start) * KILO / file.stat().st_size


def servers(args):
    return {"ours": [args.command, "serve", "--at-once", MOST, "PORT", "-"], "reference": [args.build / "many", "PORT"]}


def serve_curves(kind, sizes, args):
    """The points of each server."""
    found = {name: [] for name in servers(args)}
    for size in sizes:
        connections = -(-size // OF_ONE) if kind == "entries" else size
        kept = size // connections if kind == "entries" else 0
        for name, words in servers(args).items():
            least = min(by_load(words, connections, kept, max(20_000, 3 * connections), args) for _ in range(args.runs))
            found[name].append((size, least))
    return found


def check_curves(sizes, args):
    """The points of each program."""
    programs = {"ours": args.command, "reference": args.build / "reference"}
    found = {name: [] for name in programs}
    with tempfile.TemporaryDirectory() as name:
        file = pathlib.Path(name) / "plain"
        file.touch()
        starts = {name: growth.least([str(it), "check", str(file)], args.cpus.split(",")[0], 10)[0] for name, it in programs.items()}
        for size in sizes:
            growth.make([args.build / "grow", "data", str(size), str(max(1, 32 * MEGA // size))], file)
            for name, it in programs.items():
                found[name].append((size, by_check(it, size, file, starts[name], args)))
    return found


WIDTH, HEIGHT, LEFT, TOP = 560, 260, 60, 30
COLOURS = {"ours": "#1b6ca8", "reference": "#d1495b"}


def scale(low, high, length, start):
    """A place on an axis by the logarithm."""
    return lambda it: start + math.log(it / low) / math.log(high / low) * length


def ticks(low, high):
    """1, 2 and 5 times each power of ten, from the last one below the least to the first one above the most."""
    steps = [digit * 10.0**power for power in range(-2, 9) for digit in (1, 2, 5)]
    return [it for at, it in enumerate(steps) if steps[min(at + 1, len(steps) - 1)] > low and steps[max(at - 1, 0)] < high]


def size_of(number):
    """A size as a reader says it."""
    for unit, name in ((MEGA, "M"), (KILO, "K")):
        if number >= unit and number % unit == 0:
            return f"{number // unit} {name}iB"
    return f"{number:,}"


def draw(kind, curves):
    """The picture, as SVG."""
    across, up, sizes = PICTURES[kind]
    values = [value for points in curves.values() for _, value in points]
    marks = ticks(min(values), max(values))
    at_x, at_y = scale(sizes[0], sizes[-1], WIDTH - 40, LEFT + 20), scale(marks[0], marks[-1], -HEIGHT, TOP + HEIGHT)
    size = f'width="{LEFT + WIDTH + 20}" height="{TOP + HEIGHT + 45}"'
    yield f'<svg xmlns="http://www.w3.org/2000/svg" {size} font-family="sans-serif" font-size="12">'
    yield '<rect width="100%" height="100%" fill="white"/>'
    yield f'<rect x="{LEFT}" y="{TOP}" width="{WIDTH}" height="{HEIGHT}" fill="none" stroke="#999"/>'
    yield f'<text x="{LEFT}" y="{TOP - 10}">{up}, by {across}</text>'
    for it in marks:
        yield f'<line x1="{LEFT}" x2="{LEFT + WIDTH}" y1="{at_y(it):.1f}" y2="{at_y(it):.1f}" stroke="#ddd"/>'
        yield f'<text x="{LEFT - 6}" y="{at_y(it) + 4:.1f}" text-anchor="end">{it:g}</text>'
    for it in sizes:
        yield f'<text x="{at_x(it):.1f}" y="{TOP + HEIGHT + 16}" text-anchor="middle">{size_of(it)}</text>'
    for index, (name, points) in enumerate(curves.items()):
        line = " ".join(f"{at_x(x):.1f},{at_y(y):.1f}" for x, y in points)
        yield f'<polyline points="{line}" fill="none" stroke="{COLOURS[name]}" stroke-width="2"/>'
        yield from (f'<circle cx="{at_x(x):.1f}" cy="{at_y(y):.1f}" r="3" fill="{COLOURS[name]}"/>' for x, y in points)
        yield f'<text x="{LEFT + 20 + 90 * index}" y="{TOP + HEIGHT + 36}" fill="{COLOURS[name]}">{name}</text>'
    yield "</svg>"


def main():
    words = argparse.ArgumentParser(description=__doc__, formatter_class=argparse.RawDescriptionHelpFormatter)
    words.add_argument("--build", type=pathlib.Path, required=True)
    words.add_argument("--command", type=pathlib.Path, default=COMMAND)
    words.add_argument("--to", type=pathlib.Path, default=HERE / "pictures")
    words.add_argument("--runs", type=int, default=3)
    words.add_argument("--cpus", default="1,2")
    words.add_argument("--only", default="")
    words.add_argument("--history", type=pathlib.Path)
    args = words.parse_args()
    expect_built(args.command, *(args.build / it for it in ("load", "many", "grow", "reference")))
    raise_open_files()
    args.to.mkdir(exist_ok=True)
    load = os.getloadavg()[0]
    for kind, (_, unit, sizes) in PICTURES.items():
        if args.only not in kind:
            continue
        curves = check_curves(sizes, args) if kind == "messages" else serve_curves(kind, sizes, args)
        (args.to / f"{kind}.svg").write_text("\n".join(draw(kind, curves)) + "\n")
        rows = [(f"{kind}, {name}", str(size), f"{value:.2f}", unit) for name, points in curves.items() for size, value in points]
        for row in rows:
            print(f"{row[0]:<24}{row[1]:>10}{row[2]:>10} {row[3]}", flush=True)
        if args.history:
            history.keep(args.history, "pictures.py", rows, f"load {load:.1f} at first, least of {args.runs} runs")


if __name__ == "__main__":
    sys.exit(main())
