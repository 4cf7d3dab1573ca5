#!/usr/bin/env python3
"""Tries `capnp_cli serve` with many connections at once, and with peers that are silent, half open, at fault, reset, or that don't read.

    host.py COMMAND [NAME..]    each trial prints a line; the status is 0 if each went as it should
"""
import os
import pathlib
import re
import socket
import struct
import subprocess
import sys
import tempfile
import time

DESK = 0xE5A1000000000001
CELL = 0xE5A1000000000002
ABORT, CALL, RETURN, FINISH, RELEASE, BOOTSTRAP = 1, 2, 3, 4, 6, 8


def words(*numbers):
    return b"".join(struct.pack("<Q", it) for it in numbers)


def struct_at(offset, data, pointers):
    return offset << 2 | data << 32 | pointers << 48


def frame(body):
    return struct.pack("<II", 0, len(body) // 8) + body


def bootstrap(question):
    return frame(words(struct_at(0, 1, 1), BOOTSTRAP, struct_at(0, 1, 1), question, 0))


def call(question, method=0):
    """A call of the Desk, as export 0."""
    target = [struct_at(2, 1, 1), 0, 0, 0, 0]
    return frame(words(struct_at(0, 1, 1), CALL, struct_at(0, 3, 3), question | method << 32, DESK, 0, *target))


def large_call(question, count):
    """A call of the Desk with a list of so many bytes."""
    head = words(struct_at(0, 1, 1), CALL, struct_at(0, 3, 3), question, DESK, 0, struct_at(2, 1, 1), struct_at(3, 0, 2), 0, 0, 0)
    return frame(head + words(struct_at(1, 0, 1), 0, 1 | 2 << 32 | count << 35) + bytes((count + 7) // 8 * 8))


def call_of_answer(question, answer, given):
    """A call of the first pointer of an answer, which gives the object of this number."""
    target = [1 << 32, struct_at(0, 1, 1), answer, 0xF_0000_0001, 1 << 32 | 4, 1]
    params = [0, 0x17_0000_0001, struct_at(1, 1, 1), given << 32 | 1, 0]
    return frame(words(struct_at(0, 1, 1), CALL, struct_at(0, 3, 3), question | 1 << 32, CELL, 0, struct_at(2, 1, 1), struct_at(7, 0, 2), 0, *target, *params))


def finish(question):
    return frame(words(struct_at(0, 1, 1), FINISH, struct_at(0, 1, 0), question))


def abort():
    return frame(words(struct_at(0, 1, 1), ABORT, struct_at(0, 1, 1), 0, 0))


class Peer:
    """A connection to a server."""

    def __init__(self, address, receive_buffer=None):
        self.socket = socket.socket(socket.AF_UNIX if isinstance(address, str) else socket.AF_INET)
        if receive_buffer:
            self.socket.setsockopt(socket.SOL_SOCKET, socket.SO_RCVBUF, receive_buffer)
        self.socket.settimeout(20)
        self.socket.connect(address)

    def send(self, *messages):
        self.socket.sendall(b"".join(messages))
        return self

    def bytes(self, count):
        taken = b""
        while len(taken) < count:
            piece = self.socket.recv(count - len(taken))
            assert piece, "the server closed"
            taken += piece
        return taken

    def message(self):
        """The kind of the next message, and its bytes."""
        segments, size = struct.unpack("<II", self.bytes(8))
        assert segments == 0
        body = self.bytes(8 * size)
        return struct.unpack_from("<H", body, 8)[0], body

    def kinds(self, count):
        return [self.message()[0] for _ in range(count)]

    def is_closed(self):
        try:
            return self.socket.recv(1) == b""
        except ConnectionResetError:
            return True

    def is_silent(self, seconds):
        self.socket.settimeout(seconds)
        try:
            self.socket.recv(1)
            return False
        except TimeoutError:
            return True
        finally:
            self.socket.settimeout(20)

    def close(self):
        self.socket.close()

    def reset(self):
        self.socket.setsockopt(socket.SOL_SOCKET, socket.SO_LINGER, struct.pack("ii", 1, 0))
        self.socket.close()


class Server:
    """`serve` with these words, at a port that the system picks by turns."""

    def __init__(self, count, *options):
        with socket.socket() as it:
            it.bind(("127.0.0.1", 0))
            self.address = it.getsockname()
        self.process = subprocess.Popen([COMMAND, "serve", *options, str(self.address[1]), str(count)], stderr=subprocess.PIPE)
        self.first = self.process.stderr.readline().decode().strip()
        assert self.first == f"listening on 127.0.0.1:{self.address[1]}", self.first

    def peer(self, receive_buffer=None):
        return Peer(self.address, receive_buffer)

    def memory(self):
        text = pathlib.Path(f"/proc/{self.process.pid}/status").read_text()
        return int(re.search(r"VmRSS:\s+(\d+)", text)[1])

    def ended(self, status=0, *patterns):
        """It ends with this status, and says these lines, each with its peer."""
        said = self.process.communicate(timeout=30)[1].decode().splitlines()
        assert self.process.returncode == status, (self.process.returncode, said)
        assert len(said) == len(patterns), said
        for line, pattern in zip(said, patterns):
            assert re.fullmatch(pattern + r" \(peer 127\.0\.0\.1:\d+\)", line), line


def many_at_once():
    server = Server(300, "--at-once", "300")
    peers = [server.peer() for _ in range(300)]
    for it in peers:
        it.send(bootstrap(0), call(1))
    for it in reversed(peers):
        assert it.kinds(2) == [RETURN, RETURN]
    for it in peers:
        it.close()
    server.ended()


def further_ones_wait():
    server = Server(3, "--at-once", "2")
    first, second, third = (server.peer().send(bootstrap(0)) for _ in range(3))
    assert first.kinds(1) + second.kinds(1) == [RETURN, RETURN]
    assert third.is_silent(0.5)
    first.close()
    assert third.kinds(1) == [RETURN]
    second.close()
    third.close()
    server.ended()


def answered_later_and_alone():
    server = Server(1, "--at-once", "2")
    peer = server.peer().send(bootstrap(0), call(1, method=1))
    assert peer.kinds(2) == [RETURN, RETURN]
    peer.close()
    server.ended()


def answers_after_the_peers_end():
    server = Server(1, "--at-once", "2")
    peer = server.peer().send(bootstrap(0), call(1, method=1), call(2))
    peer.socket.shutdown(socket.SHUT_WR)
    assert peer.kinds(3) == [RETURN] * 3
    assert peer.is_closed()
    server.ended()


def a_fault_loses_nothing():
    server = Server(1, "--at-once", "2")
    peer = server.peer().send(bootstrap(0), finish(9))
    time.sleep(0.2)
    # The server takes what comes after its Abort off the stream, so nothing of it is lost by a reset.
    peer.send(b"\0" * 100_000)
    time.sleep(0.2)
    assert peer.kinds(2) == [RETURN, ABORT]
    assert peer.is_closed()
    peer.close()
    server.ended()


def a_fault_that_never_closes():
    server = Server(1, "--at-once", "2")
    peer = server.peer().send(bootstrap(0), finish(9))
    start = time.time()
    server.ended()
    assert 4.5 < time.time() - start < 8
    peer.close()


def the_peers_abort_closes_first():
    server = Server(1, "--at-once", "2")
    peer = server.peer().send(bootstrap(0), abort())
    assert peer.kinds(1) == [RETURN]
    assert peer.is_silent(0.5)
    peer.close()
    server.ended()


def refused_bytes():
    server = Server(2, "--at-once", "2")
    peer = server.peer().send(bootstrap(0), b"\xff" * 64)
    assert peer.kinds(2) == [RETURN, ABORT]
    assert peer.is_closed()
    peer.close()
    time.sleep(0.2)
    peer = server.peer().send(bootstrap(0)[:20])
    peer.socket.shutdown(socket.SHUT_WR)
    assert peer.is_closed()
    server.ended(1, "refused at byte 48: F1 .*", "refused at byte 0: F3 Truncated")


def a_reset_has_its_cause():
    server = Server(2, "--at-once", "2")
    peer = server.peer().send(bootstrap(0))
    assert peer.kinds(1) == [RETURN]
    peer.reset()
    peer = server.peer().send(bootstrap(0))
    assert peer.kinds(1) == [RETURN]
    peer.close()
    server.ended(2, r"device: Connection reset by peer \(os error 104\)")


def idle():
    server = Server(2, "--at-once", "2", "--idle", "2")
    silent, other = (server.peer().send(bootstrap(0)) for _ in range(2))
    assert silent.kinds(1) + other.kinds(1) == [RETURN, RETURN]
    for question in range(1, 6):
        time.sleep(0.5)
        assert other.send(call(question)).kinds(1) == [RETURN]
    # It was asked at half of the time.
    assert silent.kinds(2) == [BOOTSTRAP, FINISH] and silent.is_closed()
    other.close()
    server.ended(1, "closed: no byte moved in time")


def one_that_does_not_read():
    block = b"".join(call(question) + finish(question) for question in range(1, 200_000))
    server = Server(2, "--at-once", "2", "--idle", "3")
    deaf, other = server.peer(4096).send(bootstrap(0)), server.peer().send(bootstrap(0))
    assert other.kinds(1) == [RETURN]
    deaf.socket.setblocking(False)
    sent, worst, question, start = 0, 0, 0, time.time()
    while time.time() - start < 2:
        try:
            sent += deaf.socket.send(block[sent : sent + 65_536])
        except BlockingIOError:
            pass
        began, question = time.time(), question + 1
        assert other.send(call(question), finish(question)).kinds(1) == [RETURN]
        worst = max(worst, time.time() - began)
    assert sent < len(block), "it was read on"
    assert worst < 1, worst
    assert server.memory() < 40_000, server.memory()
    other.close()
    server.ended(1, "closed: no byte moved in time")


def one_that_finishes_nothing():
    server = Server(1, "--at-once", "2")
    peer = server.peer().send(bootstrap(0))
    assert peer.kinds(1) == [RETURN]
    for first in range(1, 65_536, 255):
        peer.send(*(call(question) for question in range(first, first + 255)))
        assert peer.kinds(255) == [RETURN] * 255
    # All 65,536 answers are kept.
    assert peer.send(call(65_536)).kinds(1) == [ABORT]
    peer.close()
    server.ended()


def a_large_call():
    server = Server(1, "--at-once", "2")
    peer = server.peer().send(bootstrap(0), large_call(1, 30_000_000), call(2))
    assert peer.kinds(3) == [RETURN] * 3
    peer.close()
    server.ended()


def calls_that_fail():
    """Calls on an exception, which reach no object: each is answered, and what it gave is released."""
    server = Server(1, "--at-once", "2")
    peer = server.peer().send(bootstrap(0), call(1, method=2))
    assert peer.kinds(2) == [RETURN, RETURN]
    for first in range(2, 8_002, 100):
        questions = range(first, first + 100)
        for it in questions:
            peer.send(call_of_answer(it, 1, it), finish(it))
        came = [peer.message() for _ in range(200)]
        assert [kind for kind, _ in came].count(RETURN) == 100
        released = sorted(struct.unpack_from("<II", body, 24) for kind, body in came if kind == RELEASE)
        assert released == [(it, 1) for it in questions], released
    peer.close()
    server.ended()


def silent_and_half_open():
    server = Server(1001, "--at-once", "1001")
    peer = server.peer().send(bootstrap(0))
    assert peer.kinds(1) == [RETURN]
    before = server.memory()
    silent = [server.peer() for _ in range(1000)]
    for it in silent[::2]:
        it.send(bootstrap(0)[:13])
    for question in range(1, 1000):
        assert peer.send(call(question)).kinds(1) == [RETURN]
    each = (server.memory() - before) / 1000
    assert each < 16, each
    for it in silent:
        it.close()
    peer.close()
    lines = ["refused at byte 0: F3 Truncated"] * 500
    server.ended(1, *lines)
    return f"{each:.1f} kB each"


def opened_and_closed():
    server = Server(10_000, "--at-once", "100")
    marks = []
    for number in range(10_000):
        peer = server.peer().send(bootstrap(0), call(1))
        assert peer.kinds(2) == [RETURN, RETURN]
        if number % 1_000 == 500:
            marks.append(server.memory())
        peer.close()
    server.ended()
    assert marks[-1] <= marks[1] + 64, marks
    return f"{marks[-1]} kB"


def a_path():
    with tempfile.TemporaryDirectory() as folder:
        path = f"{folder}/socket"
        process = subprocess.Popen([COMMAND, "serve", "--socket", path, "1"], stderr=subprocess.PIPE)
        assert process.stderr.readline().decode() == f"listening on {path}\n"
        peer = Peer(path).send(bootstrap(0), call(1))
        assert peer.kinds(2) == [RETURN, RETURN]
        peer.close()
        assert process.wait(10) == 0


def standard_input():
    given = subprocess.run([COMMAND, "serve", "-"], input=bootstrap(0) + call(1, method=1), stdout=subprocess.PIPE, timeout=10)
    assert given.returncode == 0
    kinds, at = [], 0
    while at < len(given.stdout):
        kinds.append(struct.unpack_from("<H", given.stdout, at + 16)[0])
        at += 8 + 8 * struct.unpack_from("<I", given.stdout, at + 4)[0]
    assert kinds == [RETURN, RETURN], kinds


TRIALS = [
    many_at_once,
    further_ones_wait,
    answered_later_and_alone,
    answers_after_the_peers_end,
    a_fault_loses_nothing,
    a_fault_that_never_closes,
    the_peers_abort_closes_first,
    refused_bytes,
    a_reset_has_its_cause,
    idle,
    one_that_does_not_read,
    one_that_finishes_nothing,
    a_large_call,
    calls_that_fail,
    silent_and_half_open,
    opened_and_closed,
    a_path,
    standard_input,
]

if __name__ == "__main__":
    COMMAND, *names = sys.argv[1:]
    COMMAND = os.path.abspath(COMMAND)
    failed = 0
    for trial in TRIALS:
        if names and trial.__name__ not in names:
            continue
        try:
            print(f"{trial.__name__}: {trial() or 'as it should'}", flush=True)
        except (AssertionError, OSError, subprocess.TimeoutExpired) as error:
            print(f"{trial.__name__}: FAILED {error!r}", flush=True)
            failed = 1
    sys.exit(failed)
