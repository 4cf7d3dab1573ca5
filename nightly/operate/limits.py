#!/usr/bin/env python3
"""What peers that mean ill cost a process of the service, while others call it.

    limits.py COMMAND [NAME..]    a line for each trial: how it ended, the longest call of another connection meanwhile, and the process's
                                  memory before, at most and afterwards; the status is 0 if each went as it should

The process is `serve` as store@.service has it, with a shorter --idle, without the balancer, and with a guard before it where the trial says so.
"""
import contextlib
import os
import pathlib
import re
import struct
import subprocess
import sys
import tempfile
import threading
import time

HERE = pathlib.Path(__file__).resolve().parent
sys.path.insert(0, str(HERE.parent / "host"))
from host import ABORT, RETURN, Peer, bootstrap, call, call_of_answer, finish, large_call

IDLE = 5  # seconds
MESSAGE = 30  # seconds that a message may take, which `serve` has fixed


class Service:
    """One process, and a connection that calls it all the time."""

    def __init__(self, *options):
        self.folder = tempfile.TemporaryDirectory(prefix="operate.")
        self.path = f"{self.folder.name}/1"
        self.log = open(f"{self.folder.name}/log", "w+")
        words = [COMMAND, "serve", "--at-once", "1000", "--idle", str(IDLE), *options, "--socket", self.path, "-"]
        self.process = subprocess.Popen(words, stderr=self.log)
        self.wait_for(self.path)
        self.guard = None
        self.worst, self.most, self.calls, self.ends = 0, 0, 0, False

    def wait_for(self, path):
        while not os.path.exists(path):
            time.sleep(0.02)

    def guarded(self, port, *options):
        """A guard before it, on a port of 127.0.0.1."""
        self.guard = subprocess.Popen([COMMAND, "relay", *options, str(port), f"unix:{self.path}", "1000"], stderr=subprocess.DEVNULL)
        while True:
            with contextlib.suppress(OSError):
                Peer(("127.0.0.1", port)).close()
                return "127.0.0.1", port
            time.sleep(0.02)

    def __enter__(self):
        self.before = self.memory()
        self.thread = threading.Thread(target=self.call_on)
        self.thread.start()
        return self

    def call_on(self):
        peer = Peer(self.path).send(bootstrap(0))
        peer.kinds(1)
        question = 1
        while not self.ends:
            began = time.time()
            peer.send(call(question))
            assert peer.kinds(1) == [RETURN]
            self.worst = max(self.worst, time.time() - began)
            peer.send(finish(question))
            question = question % 1_000_000 + 1
            self.most = max(self.most, self.memory())
            self.calls += 1
            time.sleep(0.005)
        peer.close()

    def memory(self):
        text = pathlib.Path(f"/proc/{self.process.pid}/status").read_text()
        return int(re.search(r"VmRSS:\s+(\d+)", text)[1])

    def said(self):
        self.log.seek(0)
        return self.log.read()

    def __exit__(self, *_):
        self.ends = True
        self.thread.join()
        self.after = self.memory()
        for it in filter(None, [self.guard, self.process]):
            it.kill()
            it.wait()
        self.log.close()
        self.folder.cleanup()

    def row(self, how):
        megabytes = ", ".join(f"{it / 1024:.1f}" for it in (self.before, self.most, self.after))
        return f"{how}; others waited {self.worst * 1000:.0f} ms at most; MB {megabytes}"


def slow_loris():
    """500 connections send a byte a second: each is closed when its first message took 30 seconds."""
    with Service() as service:
        peers = [Peer(service.path) for _ in range(500)]
        began, message, at, left = time.time(), bootstrap(0) * 10, 0, list(peers)
        while left and at < 40:
            for it in list(left):
                try:
                    it.send(message[at : at + 1])
                except OSError:
                    left.remove(it)
            at += 1
            time.sleep(1)
        took = time.time() - began
        assert not left and MESSAGE - 1 < took < MESSAGE + 8, (len(left), took)
        assert service.said().count("a message didn't come whole in time") == 500
    return service.row("500 closed after 30 s")


def half_open():
    """900 connections that send nothing, or half a message, and whose peers are gone: closed when no byte moved in time."""
    with Service() as service:
        peers = [Peer(service.path) for _ in range(900)]
        for it in peers[::2]:
            it.send(bootstrap(0)[:13])
        time.sleep(1)
        held = service.memory()
        time.sleep(IDLE + 1)
        assert service.said().count("no byte moved in time") == 900, service.said()[-200:]
    return service.row(f"900 closed after {IDLE} s; {(held - service.before) / 900:.1f} kB each")


def flood():
    """One connection calls without reading: it is read no more once 64 KiB wait for it."""
    block = b"".join(call(question) + finish(question) for question in range(1, 100_000))
    with Service() as service:
        peer = Peer(service.path).send(bootstrap(0))
        peer.socket.setblocking(False)
        sent, began = 0, time.time()
        while time.time() - began < 3:
            try:
                sent += peer.socket.send(block[sent : sent + 65_536])
            except BlockingIOError:
                time.sleep(0.001)
        assert sent < len(block), "it was read on"
        peer.close()
    return service.row(f"{sent // 1000} kB of calls were taken in 3 s")


def flood_that_reads():
    """Four connections call as fast as they can, and read."""
    with Service() as service:
        counts = [0] * 4

        def run(at):
            peer = Peer(service.path).send(bootstrap(0))
            peer.kinds(1)
            ends = time.time() + 3
            block = b"".join(call(question) + finish(question) for question in range(1, 101))
            while time.time() < ends:
                peer.send(block)
                peer.kinds(100)
                counts[at] += 100
            peer.close()

        threads = [threading.Thread(target=run, args=(it,)) for it in range(4)]
        for it in threads:
            it.start()
        for it in threads:
            it.join()
    return service.row(f"{sum(counts) // 3} calls a second")


def guarded_flood():
    """The same through a guard with --rate 1000: further calls fail."""
    with Service() as service:
        near = service.guarded(PORT, "--schema", request(service.folder.name), "--deny", "Desk.later", "--calls", "64", "--rate", "1000")
        peer = Peer(near).send(bootstrap(0))
        peer.kinds(1)
        before, failed, done, ends, question = service.calls, 0, 0, time.time() + 3, 1
        while time.time() < ends:
            peer.send(*(call(it) for it in range(question, question + 50)))
            bodies = [body for kind, body in (peer.message() for _ in range(50)) if kind == RETURN]
            failed += sum(b"too many" in it for it in bodies)
            done += sum(b"too many" not in it for it in bodies)
            peer.send(*(finish(it) for it in range(question, question + 50)))
            question += 50
        peer.close()
        assert done <= 4_000 and failed, (done, failed)
    return service.row(f"{done // 3} calls a second went, {failed // 3} failed")


def request(folder):
    path = f"{folder}/desk.request"
    with open(path, "wb") as it:
        subprocess.run(["capnp", "compile", "-o-", HERE.parent.parent / "samples/desk.capnp"], stdout=it, check=True)
    return path


def huge_messages():
    """Eight calls of 30 MB at once, and a frame past the limit."""
    with Service() as service:
        peers = [Peer(service.path).send(bootstrap(0)) for _ in range(8)]
        threads = [threading.Thread(target=it.send, args=(large_call(1, 30_000_000),)) for it in peers]
        for it in threads:
            it.start()
        for it in threads:
            it.join()
        for it in peers:
            assert it.kinds(2) == [RETURN, RETURN]
            it.close()
        last = Peer(service.path).send(struct.pack("<II", 0, 8_388_609))
        assert last.kinds(1) == [ABORT] and last.is_closed()
        last.close()
    return service.row("8 of 30 MB were answered, one of 64 MiB and a word refused (F2)")


def many_answers():
    """A peer that finishes nothing: it gets an Abort with its 65,537th answer (P10)."""
    with Service() as service:
        peer = Peer(service.path).send(bootstrap(0))
        peer.kinds(1)
        for first in range(1, 65_536, 255):
            peer.send(*(call(question) for question in range(first, first + 255)))
            assert peer.kinds(255) == [RETURN] * 255
        service.most = max(service.most, service.memory())
        assert peer.send(call(65_536)).kinds(1) == [ABORT]
        peer.close()
        time.sleep(0.5)
    return service.row("an Abort at 65,536 answers")


def many_promises():
    """100 peers that leave 1,000 calls on promises each, every one with an import of its own."""
    with Service() as service:
        peers = [Peer(service.path).send(bootstrap(0)) for _ in range(100)]
        for peer in peers:
            peer.kinds(1)
            # (`later` answers with the next message, so each call on its answer waits for it once.)
            peer.send(call(1, method=1), *(call_of_answer(it, 1, it) for it in range(2, 1_002)))
            kinds = 0
            while kinds < 1_001:
                kinds += peer.message()[0] == RETURN
        service.most = max(service.most, service.memory())
        for it in peers:
            it.close()
        time.sleep(0.5)
    return service.row("100 times 1,000 calls on a promise were answered")


TRIALS = [slow_loris, half_open, flood, flood_that_reads, guarded_flood, huge_messages, many_answers, many_promises]


def main():
    failed = 0
    for trial in TRIALS:
        if NAMED and trial.__name__ not in NAMED:
            continue
        try:
            print(f"{trial.__name__}: {trial()}", flush=True)
        except (AssertionError, OSError, subprocess.SubprocessError) as error:
            print(f"{trial.__name__}: FAILED {error!r}", flush=True)
            failed = 1
    return failed


if __name__ == "__main__":
    COMMAND, *NAMED = sys.argv[1:]
    COMMAND = os.path.abspath(COMMAND)
    PORT = int(os.environ.get("PORT", 17_341))
    sys.exit(main())
