#!/usr/bin/env python3
"""A slow, lossy link between two network namespaces, as `tc netem` makes one where the kernel has it.

    link.py HERE THERE DELAY EARLY LOST DOUBLED

It makes a TUN device in each, `slow`, with the addresses 10.77.0.1 and fd77::1 in HERE, 10.77.0.2 and fd77::2 in THERE, and says `linked`.
Each packet comes DELAY milliseconds later. Of a thousand, EARLY come in half of that, and so overtake others, LOST don't come, and DOUBLED
come twice. While it is stopped (SIGSTOP) the link is down. At SIGTERM it says how many packets went, were lost, doubled and overtaken.
"""
import fcntl
import heapq
import os
import random
import select
import signal
import struct
import subprocess
import sys
import time

TUNSETIFF, TUN_WITHOUT_HEADER = 0x400454CA, 0x1001


def device(name):
    """A TUN device in this process's own namespace."""
    file = os.open("/dev/net/tun", os.O_RDWR | os.O_NONBLOCK)
    fcntl.ioctl(file, TUNSETIFF, struct.pack("16sH22x", name.encode(), TUN_WITHOUT_HEADER))
    return file


def enter(name, namespace, number):
    """Puts a device into a namespace, as `slow`, with its addresses."""
    subprocess.run(["ip", "link", "set", name, "netns", namespace], check=True)
    for words in (
        f"link set {name} name slow",
        f"addr add 10.77.0.{number}/24 dev slow",
        f"addr add fd77::{number}/64 dev slow nodad",
        "link set slow up",
        "link set lo up",
    ):
        subprocess.run(["ip", "-n", namespace, *words.split()], check=True)


class Link:
    def __init__(self, files, delay, early, lost, doubled):
        self.files, self.delay, self.early, self.lost, self.doubled = files, delay / 1000, early, lost, doubled
        self.on_the_way = []  # by the time at which each comes, with its number, the device and the packet
        self.went = self.gone = self.twice = self.overtaken = 0
        self.last = {}  # of each device the number of the packet that came last
        self.random = random.Random(1)

    def take(self, file, other):
        while True:
            try:
                packet = os.read(file, 65536)
            except BlockingIOError:
                return
            self.went += 1
            if self.happens(self.lost):
                self.gone += 1
                continue
            self.send(other, packet)
            if self.happens(self.doubled):
                self.twice += 1
                self.send(other, packet)

    def happens(self, thousandths):
        return self.random.randrange(1000) < thousandths

    def send(self, file, packet):
        after = self.delay / 2 if self.happens(self.early) else self.delay
        heapq.heappush(self.on_the_way, (time.monotonic() + after, self.went, file, packet))

    def give(self):
        while self.on_the_way and self.on_the_way[0][0] <= time.monotonic():
            _, number, file, packet = heapq.heappop(self.on_the_way)
            self.overtaken += number < self.last.get(file, 0)
            self.last[file] = max(number, self.last.get(file, 0))
            try:
                os.write(file, packet)
            except OSError:
                self.gone += 1  # (its queue is full)

    def run(self):
        while True:
            wait = max(0, self.on_the_way[0][0] - time.monotonic()) if self.on_the_way else None
            ready, _, _ = select.select(self.files, [], [], wait)
            for file in ready:
                self.take(file, self.files[1 - self.files.index(file)])
            self.give()

    def end(self, *_):
        print(f"{self.went} packets, {self.gone} lost, {self.twice} doubled, {self.overtaken} overtaken", flush=True)
        sys.exit(0)


def main():
    here, there, *numbers = sys.argv[1:]
    files = [device("jam0"), device("jam1")]
    enter("jam0", here, 1)
    enter("jam1", there, 2)
    link = Link(files, *map(float, numbers))
    signal.signal(signal.SIGTERM, link.end)
    print("linked", flush=True)
    link.run()


main()
