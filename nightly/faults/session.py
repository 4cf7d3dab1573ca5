"""Runs of the command with peers that always say the same, so that one with a fault can be compared with one without."""
import dataclasses
import itertools
import os
import pathlib
import re
import signal
import socket
import struct
import subprocess
import sys
import time

COMMAND, BUILD = map(os.path.abspath, sys.argv[1:3])
PATIENCE = 30  # seconds; what takes longer hangs
PORTS = itertools.cycle(range(17200, 17240))


def frames_of(stream):
    """The plain frames of these bytes."""
    while stream:
        segments = struct.unpack_from("<I", stream)[0] + 1
        words = segments // 2 + 1 + sum(struct.unpack_from(f"<{segments}I", stream, 4))
        yield stream[: 8 * words]
        stream = stream[8 * words :]


class Peer:
    """One end of a connection with the command, and the bytes that came to it. There is no stream once it is closed."""

    def __init__(self, stream, pause):
        self.stream, self.pause, self.got, self.name = stream, pause, b"", None
        if stream:
            self.name = "%s:%d" % stream.getsockname()
            stream.settimeout(PATIENCE)
            stream.setsockopt(socket.IPPROTO_TCP, socket.TCP_NODELAY, 1)

    def send(self, stream):
        """Sends this. Where the other end is gone, what it said before can still be read."""
        self.pause()
        try:
            if self.stream:
                self.stream.sendall(stream)
        except ConnectionError:
            pass

    def take(self, count=None):
        """Takes what comes, up to so many bytes in all, or to the end, after which it closes."""
        while self.stream and (count is None or len(self.got) < count):
            try:
                piece = self.stream.recv(1 << 16 if count is None else count - len(self.got))
            except ConnectionError:
                piece = b""
            self.got += piece
            if not piece:
                self.close()

    def is_over(self):
        """Whether the other end closed, and nothing more is to be taken."""
        if not self.stream:
            return True
        self.stream.setblocking(False)
        try:
            return not self.stream.recv(1, socket.MSG_PEEK)
        except OSError as error:
            return not isinstance(error, BlockingIOError)
        finally:
            self.stream.settimeout(PATIENCE)

    def end(self):
        """Says that nothing more comes."""
        try:
            if self.stream:
                self.stream.shutdown(socket.SHUT_WR)
        except OSError:
            pass

    def reset(self):
        if self.stream:
            self.stream.setsockopt(socket.SOL_SOCKET, socket.SO_LINGER, struct.pack("ii", 1, 0))
            self.close()

    def close(self):
        if self.stream:
            self.stream.close()
            self.stream = None


@dataclasses.dataclass
class Outcome:
    """How a run ended. The status is below 0 for a signal, and none where it hung."""

    status: int
    out: bytes
    lines: list
    got: list
    calls: int = dataclasses.field(default=1, compare=False)  # (that its fault could change)
    changed: int = dataclasses.field(default=-1, compare=False)  # (the descriptor of the one that it changed)


class Run:
    """The command with peers, and with a fault that this environment makes. Where it `stops`, it is stopped before each thing that they send."""

    def __init__(self, fault={}, stops=False, **options):
        self.count = pathlib.Path(BUILD, "count")
        self.count.write_text("0")
        self.stops, self.options = stops, options
        self.environment = dict(os.environ, COUNT=str(self.count), **fault)
        self.port, self.peers, self.listener, self.process, self.given = next(PORTS), [], None, None, None
        self.tells_ends = False

    def begin(self, *words, given=None, program=None):
        """Begins the command, or this program, which tells how each connection ended."""
        self.given, self.tells_ends = given, program is not None
        streams = dict(stdin=subprocess.DEVNULL if given is None else subprocess.PIPE, stdout=subprocess.PIPE, stderr=subprocess.PIPE)
        self.process = subprocess.Popen([program or COMMAND, *map(str, words)], env=self.environment, **streams | self.options)
        return self

    def pause(self):
        for number in [signal.SIGSTOP, signal.SIGCONT] if self.stops else []:
            time.sleep(0.01)
            self.process.send_signal(number)

    def peer(self, stream):
        self.peers.append(Peer(stream, self.pause))
        return self.peers[-1]

    def until(self, attempt, is_over):
        """A peer by an attempt that is made until it succeeds, and once more when this is over."""
        start, last = time.monotonic(), False
        while time.monotonic() < start + PATIENCE:
            try:
                return self.peer(attempt())
            except (ConnectionRefusedError, ConnectionResetError, TimeoutError):
                if last:
                    return self.peer(None)
            time.sleep(0.001)
            last = is_over()
        raise TimeoutError

    def connect(self):
        """A peer that connects once the command listens."""
        return self.until(lambda: socket.create_connection(("127.0.0.1", self.port)), lambda: self.process.poll() is not None)

    def listen(self):
        """The address of peers that the command connects to."""
        port = next(PORTS)
        self.listener = socket.create_server(("127.0.0.1", port))
        self.listener.settimeout(0.01)
        return f"127.0.0.1:{port}"

    def accept(self, near=None):
        """A peer that the command connects to, by itself or for this one."""
        return self.until(lambda: self.listener.accept()[0], lambda: self.process.poll() is not None or near and near.is_over())

    def lines(self, text):
        """Lines, with names for the ports that differ from run to run."""
        numbers = {peer.name: number for number, peer in enumerate(self.peers, 1)}
        text = re.sub(r"\(peer (127[\d.:]+)\)$", lambda it: f"(peer {numbers.get(it[1])})", text, flags=re.MULTILINE)
        return re.sub(r"\b127\.0\.0\.1:172\d\d\b", "PLACE", text).splitlines()

    def outcome(self):
        """Waits for its end."""
        out, said = self.process.communicate(self.given, timeout=PATIENCE)
        lines, status = self.lines(said.decode(errors="replace")), self.process.returncode
        if self.tells_ends:
            status, out, lines = self.ends(status, out.decode(), lines)
        return Outcome(status, out or b"", lines, self.got(), *map(int, self.count.read_text().split()))

    def ends(self, status, out, lines):
        """The ends of connections, as `serve` tells them: a line of each that isn't served to its end, and the status of the first."""
        ends = re.findall(r"^(\d+) ended: (.*)$", out, re.MULTILINE)
        lines = [re.sub("^Error", "device", it) for it in lines] + [f"{end} (peer {number})" for number, end in ends if end != "ended"]
        if status == 0 and sorted(number for number, _ in ends) != [str(place) for place, _ in enumerate(self.peers, 1)]:
            lines.append("an end isn't told once")
        if status in (0, 1) and lines:
            status = 2 if lines[0].startswith("device") else 1
        return status, b"", lines

    def got(self):
        return [it.got for it in self.peers]

    def close(self):
        if self.process:
            self.process.kill()
            self.process.communicate()
        for it in filter(None, [self.listener, *self.peers]):
            it.close()


def play(script, fault={}, **options):
    """Plays a script, and tells how the command ended."""
    run = Run(fault, **options)
    try:
        script(run)
        return run.outcome()
    except (TimeoutError, subprocess.TimeoutExpired):
        return Outcome(None, b"", ["it hangs"], run.got())
    finally:
        run.close()
