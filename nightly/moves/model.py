"""What tails.py knows of references and calls, and the messages that it reads and writes."""
import re
import struct

from program import Program, expect

CALL = re.compile(r"call q=(\d+) to=(\w+):(\d+)(?:\[([\d,]*)\])? i=([0-9a-f]{16}) m=\d+ results=(\w+) params=(.*)$")
RETURN = re.compile(r"return a=(\d+) releaseParamCaps=false (\S+)(.*)$")
FINISH = re.compile(r"finish q=(\d+) releaseResultCaps=(\w+)$")
RESOLVE = re.compile(r"resolve p=(\d+) (cap|exception) (.*)$")
DISEMBARGO = re.compile(r"disembargo to=(\w+):(\d+)(?:\[([\d,]*)\])? (\w+) (\d+)$")
DELIVER = re.compile(r"! deliver object:(\d+) for (\S+) ticket \d+ i=([0-9a-f]{16}) m=\d+ (.*)$")
SETTLED = re.compile(r"! settled question:(\d+) (.*)$")
ALLOWED = ("refused PromiseCycle", "refused Unsettled", "refused InUse")
NONE, BROKEN, ANY = ("none",), ("broken",), ("any",)
FIRST_PROMISE = 100  # of the stranger's exports; those below are its objects


def tag_of(content):
    """The number that results bear, and their table."""
    found = re.match(r"\{(?:\(([0-9a-f]*);.*\)|cap:0) caps\[(.*)\]\}$", content.strip())
    expect(found, f"no results: {content}")
    tag = struct.unpack("<Q", bytes.fromhex(found.group(1)))[0] if found.group(1) else 0
    return tag, re.split(r",(?![^[]*\])", found.group(2)) if found.group(2) else []


def payload(tag, caps):
    words = struct.pack("<Q", tag).hex() if tag else ""
    return f"{{({words};{','.join(f'cap:{place}' for place in range(len(caps)))}) caps[{','.join(caps)}]}}"


class Call:
    """A call: what it is on, what it names, and what answered it. Results are a tag and references."""

    def __init__(self, lane, target, params):
        self.lane, self.target, self.params = lane, target, params
        self.outcome, self.passed_to = None, None
        self.has_come = self.is_given_up = self.bounced = self.came_back = False


class Model:
    """What each reference is, whoever holds it: an object ("Y", N) or ("S", N), a promise of either end, or a pointer ("R", CALL, INDEX) of the
    results of a call."""

    def __init__(self):
        self.calls, self.values = {}, {}

    def outcome(self, number):
        call = self.calls[number]
        if call.passed_to is not None:
            return self.outcome(call.passed_to)
        if call.outcome:
            return call.outcome
        there = self.deep(call.target)
        return ("failed",) if there in (NONE, BROKEN) else ANY if there == ANY else None

    def deep(self, ref):
        """What a reference came to so far."""
        while True:
            if ref[0] in "PT" and self.values.get(ref):
                ref = self.values[ref]
            elif ref[0] == "R":
                call = self.calls[ref[1]]
                if call.is_given_up:
                    return ANY
                if call.passed_to is not None:
                    ref = ("R", call.passed_to, ref[2])
                    continue
                outcome = self.outcome(ref[1])
                if outcome is None:
                    return ref
                if outcome == ANY:
                    return ANY
                if outcome[0] != "results":
                    return BROKEN
                ref = outcome[2][ref[2]] if ref[2] < len(outcome[2]) else NONE
            else:
                return ref

    def same(self, one, other):
        one, other = self.deep(one), self.deep(other)
        return one == other or ANY in (one, other)

    def is_by_promise(self, ref):
        """Whether this came to a promise of our end first."""
        while ref[0] in "TR":
            if ref[0] == "T":
                ref = self.values.get(ref) or NONE
            elif self.calls[ref[1]].passed_to is not None:
                ref = ("R", self.calls[ref[1]].passed_to, ref[2])
            else:
                outcome = self.calls[ref[1]].outcome or NONE
                ref = outcome[2][ref[2]] if outcome[0] == "results" and ref[2] < len(outcome[2]) else NONE
        return ref[0] == "P"

    def leads_to(self, ref, goal):
        """Whether what this comes to waits for the goal, a promise or a call. (A call that was given up still waits for what it is on.)"""
        while ref != goal and ref[:2] != ("R", goal):
            call = self.calls[ref[1]] if ref[0] == "R" else None
            if call is None and not self.values.get(ref):
                return False
            if call is None:
                ref = self.values[ref]
            elif call.passed_to is not None:
                ref = ("R", call.passed_to, ref[2])
            elif call.outcome is None:
                ref = call.target
            else:
                caps = call.outcome[2] if call.outcome[0] == "results" else []
                ref = caps[ref[2]] if ref[2] < len(caps) else NONE
        return True


class Player(Program):
    """The program that keeps our end."""

    def __init__(self, command):
        super().__init__([command, "tails"])

    def play(self, end, event):
        """What an event gives: its answer, and the lines of its effects."""
        lines = [line for line in self.tell(f"{end} {event}")[1:] if line[0] != "#"]
        if lines and lines[0].startswith("= "):
            return lines[0][2:], lines[1:]
        return "nothing", lines


class Question:
    """A question of either end."""

    def __init__(self, call, to="caller", passes=None, mentions=()):
        self.call, self.to, self.passes = call, to, passes  # (passes: which answer of the stranger's it is for)
        self.mentions, self.is_plain = list(mentions), True
        self.is_bootstrap = self.is_finished = self.is_returned = self.is_taken = False
        self.caps = None


class Answer:
    """A call that came to the stranger. What it came to: ("results", caps), ("path", question) or ("failed",)."""

    def __init__(self, call):
        self.call, self.value = call, None
        self.is_returned = self.is_finished = False
        self.params, self.mentions, self.pinned, self.waiting = [], [], [], []
