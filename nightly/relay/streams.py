#!/usr/bin/env python3
"""Streams through `capnp_cli relay` to a target of Python's, compared with what `capnp_cli check` says of the same bytes.

    streams.py COMMAND FRAMES    COMMAND is the program, FRAMES a file of frames as test_interop has it (data/frames.txt)

Each frame, plain and packed, has to pass as it is, in two pieces cut anywhere; with a byte changed, cut short, or within a limit
that it passes, what passes must be the bytes that `check` accepts, and the line on standard error that of `check`. Then a
target that stops reading, a client and a target that reset, also inside a frame, a target that isn't there, and connections
that go on beside one that is refused.
"""
import collections
import pathlib
import random
import socket
import struct
import subprocess
import sys
import tempfile
import threading
import time

COMMAND, FRAMES = sys.argv[1:3]
random.seed(1)


def require(holds, *what):
    if not holds:
        sys.exit(f"streams.py: {what}")


class Relay:
    """The command between a port of its own and a target that listens here."""

    def __init__(self, *words, count=1, target=None):
        self.listener = socket.create_server(("127.0.0.1", 0))
        with socket.socket() as it:
            it.bind(("127.0.0.1", 0))
            self.port = it.getsockname()[1]
        target = target or self.listener.getsockname()[1]
        args = [COMMAND, "relay", *words, str(self.port), f"127.0.0.1:{target}", str(count)]
        self.process = subprocess.Popen(args, stdout=subprocess.PIPE, stderr=subprocess.PIPE)
        for _ in range(200):
            if f":{self.port:04X} 00000000:0000 0A" in pathlib.Path("/proc/net/tcp").read_text():
                return
            time.sleep(0.01)
        sys.exit(f"the relay doesn't listen: {self.process.communicate()}")

    def connect(self):
        near = socket.create_connection(("127.0.0.1", self.port))
        near.settimeout(20)
        near.setsockopt(socket.IPPROTO_TCP, socket.TCP_NODELAY, 1)
        far, _ = self.listener.accept()
        far.settimeout(20)
        return near, far

    def end(self):
        """Its status, and its lines on standard error."""
        _, err = self.process.communicate(timeout=20)
        self.listener.close()
        return self.process.returncode, err.decode()

    def memory(self):
        return int(next(line for line in open(f"/proc/{self.process.pid}/status") if line.startswith("VmRSS")).split()[1])


def drain(stream):
    got = bytearray()
    try:
        while piece := stream.recv(1 << 20):
            got += piece
    except ConnectionResetError:
        pass
    return bytes(got)


def check(stream, *words):
    """What `check` says of the bytes: its status, and where and why it refuses them."""
    done = subprocess.run([COMMAND, "check", *words, "-"], input=stream, capture_output=True)
    return done.returncode, done.stderr.decode()


def pass_all(streams, words, limits):
    """Each stream in a connection of its own, both ways in turn, through one relay."""
    relay = Relay(*words, *limits, count=len(streams))
    checks = [check(stream, *words, *limits) for stream in streams]
    for number, (stream, (status, line)) in enumerate(zip(streams, checks), 1):
        near, far = relay.connect()
        way = [near, far] if number % 2 else [far, near]
        cut = random.randrange(len(stream) + 1)
        try:
            way[0].sendall(stream[:cut])
            if number % 7 == 0:
                time.sleep(0.002)
            way[0].sendall(stream[cut:])
            way[0].shutdown(socket.SHUT_WR)
        except OSError:
            require(status == 1, "an accepted stream's connection was closed", number)
        accepted = len(stream) if status == 0 else int(line.split()[3].rstrip(":"))
        got = drain(way[1])
        require(got == stream[:accepted], number, "passed", len(got), "of", len(stream), "accepted", accepted, line)
        way[1].close()
        if status == 0:
            require(drain(way[0]) == b"", "bytes from nowhere")
        way[0].close()
    status, lines = relay.end()
    wanted = [
        f"{number}: {line.rstrip()} ({'>' if number % 2 else '<'})" if len(streams) > 1 else f"{line.rstrip()} (>)"
        for number, (_, line) in enumerate(checks, 1)
        if line
    ]
    require(sorted(lines.splitlines()) == sorted(wanted), set(lines.splitlines()) ^ set(wanted))
    require(status == (1 if wanted else 0), status)
    return len(streams), len(wanted)


def changed(frame):
    frame = bytearray(frame)
    for _ in range(random.randrange(1, 3)):
        frame[random.randrange(len(frame))] = random.choice([0, 1, 0xFF, 0x7F, random.randrange(256)])
    return bytes(frame)


def frames_pass():
    rows = [line.split("\t") for line in open(FRAMES) if line[0] != "#"]
    for words, field in (([], 1), (["--packed"], 2)):
        frames = [bytes.fromhex(row[field]) for row in rows]
        print("as they are:", *pass_all(frames, words, []), flush=True)
        broken = [random.choice(frames) + changed(frame) + random.choice(frames) for frame in frames for _ in range(4)]
        print("changed:", *pass_all(broken, words, []), flush=True)
        short = [random.choice(frames) + frame[: random.randrange(len(frame))] for frame in frames]
        print("cut short:", *pass_all(short, words, []), flush=True)
        print("within limits:", *pass_all(frames, words, ["--nesting", "3", "--traversal", "40"]), flush=True)


def stops_reading(frame):
    """What waits is bounded, whichever way, and all of it comes in the end."""
    for back in (False, True):
        relay = Relay()
        near, far = relay.connect()
        source, sink = (far, near) if back else (near, far)
        stream = frame * (64_000_000 // len(frame))
        thread = threading.Thread(target=lambda: (source.sendall(stream), source.shutdown(socket.SHUT_WR)))
        thread.start()
        time.sleep(1)
        require(thread.is_alive(), "all went into buffers")
        memory = relay.memory()
        require(memory < 4096, memory)
        got = drain(sink)
        thread.join()
        require(got == stream, len(got), len(stream))
        sink.close()
        source.close()
        require(relay.end() == (0, ""), "not well")
        print("stops reading:", memory, "kB", flush=True)


def reset(stream):
    stream.setsockopt(socket.SOL_SOCKET, socket.SO_LINGER, struct.pack("ii", 1, 0))
    stream.close()


def resets(frame):
    """A reset after the last whole message is an end: a peer may close with bytes unread."""
    relay = Relay(count=3)
    near, far = relay.connect()
    near.sendall(frame)
    require(far.recv(1 << 16) == frame, "the frame")
    reset(near)
    require(drain(far) == b"", "bytes from nowhere")
    other, there = relay.connect()
    other.sendall(frame)
    require(there.recv(1 << 16) == frame, "the frame")
    reset(there)
    require(drain(other) == b"", "bytes from nowhere")
    last, there = relay.connect()
    last.sendall(frame)
    last.shutdown(socket.SHUT_WR)
    require(drain(there) == frame, "the frame")
    there.close()
    status, lines = relay.end()
    print("resets:", status, lines.splitlines(), flush=True)
    require((status, lines) == (0, ""), lines)


def resets_inside(frame):
    """A write to a peer that resets may fail first, and take the socket's error: then the frame that it leaves open isn't refused."""
    turns = 60
    relay = Relay(count=turns)
    for turn in range(turns):
        near, far = relay.connect()
        source, other = (near, far) if turn % 2 else (far, near)
        source.sendall(frame + frame[:9])
        require(other.recv(1 << 16) == frame, "the frame")
        thread = threading.Thread(target=write_until_it_breaks, args=(other, frame * 100))
        thread.start()
        source.recv(1 << 16)
        reset(source)
        require(drain(other) == b"", "bytes from nowhere")
        thread.join()
        other.close()
    status, lines = relay.end()
    print("resets inside a frame:", status, dict(collections.Counter(line.split(": ", 1)[1] for line in lines.splitlines())), flush=True)
    require(status == 2 and lines.count(": device: ") == len(lines.splitlines()) == turns, lines)


def write_until_it_breaks(stream, frames):
    try:
        while True:
            stream.sendall(frames)
    except OSError:
        pass


def no_target():
    with socket.socket() as it:
        it.bind(("127.0.0.1", 0))
        port = it.getsockname()[1]
    relay = Relay(target=port)
    near = socket.create_connection(("127.0.0.1", relay.port))
    require(drain(near) == b"", "bytes from nowhere")
    status, lines = relay.end()
    print("no target:", status, lines.splitlines(), flush=True)
    require(status == 2 and len(lines.splitlines()) == 1, lines)


def side_by_side(frame):
    """One is refused, and the others go on."""
    relay = Relay(count=3)
    first, there = relay.connect()
    bad, seen = relay.connect()
    first.sendall(frame[:9])
    bad.sendall(frame + b"\xff" * 64)
    require(drain(seen) == frame, "what was accepted")
    require(drain(bad) == b"", "bytes from nowhere")
    first.sendall(frame[9:])
    require(there.recv(1 << 16) == frame, "the frame")
    there.sendall(frame)
    require(first.recv(1 << 16) == frame, "the answer")
    for stream in (first, there):
        stream.close()
    last, there = relay.connect()
    last.close()
    there.close()
    status, lines = relay.end()
    print("side by side:", status, lines.splitlines(), flush=True)
    require(status == 1 and len(lines.splitlines()) == 1 and lines.startswith(f"2: refused at byte {len(frame)}: F1"), lines)


def main():
    frame = bytes.fromhex(next(line for line in open(FRAMES) if line.startswith("call")).split("\t")[1])
    side_by_side(frame)
    no_target()
    resets(frame)
    resets_inside(frame)
    stops_reading(frame)
    frames_pass()


main()
