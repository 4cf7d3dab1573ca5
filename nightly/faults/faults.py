#!/usr/bin/env python3
"""Tries the command under faults: of its memory, of its system calls, of its peers, of its disk, and by signals.

    faults.py COMMAND BUILD [TRIAL [SESSION..]]    all trials, or this one, of all sessions, or of these; run.sh makes what BUILD has to have

A line for each trial of a session says what was at fault, how often, and what was wrong; the status is 0 if nothing was. BUILD/ways has each
way in which the command ended, and how often.
"""
import errno
import itertools
import os
import pathlib
import re
import resource
import signal
import sys
import time

from judging import MEMORY, Tally, naming, wrong_bytes, wrong_with
from scripts import ANSWERS, ASKED_ANSWERS, CLIENT, ask_all, called, pass_all, sessions
from session import BUILD, Peer, Run, frames_of, play

# The errors with which each system call fails.
ERRORS = {
    "open": [errno.EMFILE],
    "read": [errno.EIO],
    "write": [errno.EIO, errno.ENOSPC, errno.EPIPE],
    "recv": [errno.ECONNRESET, errno.ETIMEDOUT],
    "send": [errno.EPIPE, errno.ECONNRESET],
    "socket": [errno.EMFILE],
    "bind": [errno.EADDRINUSE],
    "listen": [errno.EADDRINUSE],
    "accept4": [errno.EMFILE, errno.ECONNABORTED],
    "connect": [errno.ECONNREFUSED],
    "getsockname": [errno.ENOBUFS],
    "getsockopt": [errno.ENOBUFS],
    "setsockopt": [errno.ENOBUFS],
    "poll": [errno.ENOMEM],
    "epoll_create1": [errno.EMFILE],
    "epoll_ctl": [errno.ENOSPC],
    "epoll_wait": [errno.EINVAL],
    "shutdown": [errno.ENOTCONN],
    "close": [errno.EIO],
}
# By what a call that a signal interrupts may end these. All others go on.
INTERRUPTED = {
    "call --timeout": naming(errno.EINTR) + "|nothing came for",
    "relay": naming(errno.EINTR),
    "relay with rules": naming(errno.EINTR),
}
# What says that a reader or a peer is gone: the command ends as docs/COMMAND.md says of that, and it isn't a device's fault.
GONE = {"write": [errno.EPIPE], "recv": [errno.ECONNRESET], "send": [errno.EPIPE, errno.ECONNRESET]}
# The sessions whose sockets never wait.
NEVER_WAIT = ["serve --at-once", "call", "call --timeout", "relay", "relay with rules"]
ENDING = [signal.SIGTERM, signal.SIGINT, signal.SIGKILL]
LONG = 65536  # (bytes of output, of which some wait to be written while a pipe is full)
LINES = 1 << 20  # (the room for the lines of many connections)


def in_turn(script, fault):
    """The outcomes of a session with the fault of each number in turn, up to one that has no such place."""
    for number in itertools.count(1):
        outcome = play(script, fault(number))
        if outcome.status is not None and outcome.status >= 0 and outcome.calls < number:
            break
        yield number, outcome


def device(call, number, how):
    return dict(LD_PRELOAD=f"{BUILD}/device.so", CALL=call, NUMBER=str(number), HOW=str(how))


def is_left(name, call, whole, outcome):
    """Whether it ended as one does whose reader (of a write) or peer is gone: what it wrote is a beginning."""
    told = [it for it in outcome.lines if it not in whole.lines]
    if wrong_bytes(whole, outcome, range(len(whole.got))):
        return False
    if call == "write":
        return outcome.status == 141 and not told
    if name.startswith("call"):
        return outcome.status == 1 and told == ["the peer's messages ended"]
    return name.startswith("relay") and outcome.status == whole.status and not told


# Trials. Each is of a session: its name, its script, and its outcome without a fault.


def allocations(tally, name, script, whole):
    """Each allocation fails in turn."""
    for number, outcome in in_turn(script, lambda number: dict(LD_PRELOAD=f"{BUILD}/refuse.so", REFUSE=str(number))):
        tally.add("refused", wrong_with(whole, outcome, MEMORY), outcome, number)


def system_calls(tally, name, script, whole):
    """Each system call in turn fails, is late, is short, is interrupted, or would wait."""

    def change(kind, call, how, cause=None):
        for number, outcome in in_turn(script, lambda number: device(call, number, how)):
            wrong = wrong_with(whole, outcome, cause)
            if wrong and how in GONE.get(call, []) and is_left(name, call, whole, outcome):
                wrong = None
            tally.add(kind, wrong, outcome, f"{number} of {call} by {how}")

    for call, errors in ERRORS.items():
        change("late", call, "late")
        for error in errors:
            change("failed", call, error, naming(error))
    for call in ["read", "write", "recv", "send"]:
        change("short", call, "short")
        outcome = play(script, device(call, -1, "short"))
        tally.add("all short", wrong_with(whole, outcome), outcome, call)
    for call in ["open", "read", "write", "accept4", "connect", "poll", "epoll_wait"]:
        change("interrupted", call, errno.EINTR, INTERRUPTED.get(name))
    for call in ["recv", "send"]:
        if name in NEVER_WAIT:
            change("would wait", call, errno.EAGAIN)
        else:
            change("interrupted", call, errno.EINTR)


def signals(tally, name, script, whole):
    """A signal ends it before each system call in turn, and while a write waits; or stops it before each thing that its peers send."""
    everyone = range(len(whole.got))
    for call, number in itertools.product(ERRORS, ENDING):
        for place, outcome in in_turn(script, lambda place: device(call, place, f"kill {int(number)}")):
            wrong = wrong_bytes(whole, outcome, everyone) if outcome.status == -number else "it goes on"
            tally.add("ended", wrong, outcome, f"{place} of {call} by {number}")
    for number in ENDING if len(whole.out) > LONG else []:
        outcome = play(lambda run: (script(run), time.sleep(0.2), run.process.send_signal(number)), pipesize=4096)
        is_cut = outcome.status == -number and len(outcome.out) < len(whole.out)
        tally.add("ended in a write", wrong_bytes(whole, outcome, everyone) if is_cut else "it goes on", outcome)
    outcome = play(script, stops=True)
    tally.add("stopped", wrong_with(whole, outcome, INTERRUPTED.get(name)), outcome)


def outputs(tally, name, script, whole):
    """What it writes to is full, at once or after so many bytes; or its reader goes away."""
    if not whole.out:
        return
    with open("/dev/full", "wb") as full:
        outcome = play(script, stdout=full)
        tally.add("full", wrong_with(whole, outcome, naming(errno.ENOSPC)) or outcome.status == 0 and "no fault", outcome)
    for most in sorted({0, 1, 8, 4096, 65535, 65536, 65537, len(whole.out) // 2, len(whole.out) - 1}):
        if most < len(whole.out):
            outcome = limited(script, most)
            wrong = wrong_with(whole, outcome, naming(errno.EFBIG)) or len(outcome.out) != most and "not all that fits"
            tally.add("full after some bytes", wrong, outcome, most)
    if len(whole.out) > LONG:
        outcome = play(lambda run: leave_reading(script(run)), pipesize=4096)
        tally.add("without a reader", None if is_left(name, "write", whole, outcome) else "it doesn't end for that", outcome)


def limited(script, most):
    """The outcome of a session that may write so many bytes to a file."""

    def limit():
        resource.setrlimit(resource.RLIMIT_FSIZE, (most, most))

    path = pathlib.Path(BUILD, "limited")
    with open(path, "wb") as file:
        outcome = play(script, stdout=file, restore_signals=False, preexec_fn=limit)  # (SIGXFSZ stays ignored)
    outcome.out = path.read_bytes()
    return outcome


def leave_reading(run):
    run.process.stdout.read(100)
    run.process.stdout.close()
    run.process.stdout = None


def peers(tally, name, script, whole):
    """A peer ends, or resets, after each byte of what it has to say; the next one has a whole session."""
    if name == "call":
        left_by_target(tally, whole)
    elif name == "serve":
        left_by_clients(tally)
    elif name == "serve --at-once":
        left_by_clients(tally, "--at-once", 4)
    elif name == "relay":
        left_by_either(tally)


def leaves(stream, *more, ends_by_reset=False):
    """Each place at which a peer may leave, and how; the bytes before it that are whole frames, and what a line then says.
    Where a reset after a whole frame is an end, no line says so."""
    ends, whole = set(itertools.accumulate(map(len, frames_of(stream)))), 0
    for count in range(len(stream) + 1):
        whole = count if count in ends else whole
        yield count, Peer.end, stream[:whole], "" if whole == count else f"refused at byte {whole}: F3 Truncated", *more
        reset = "" if ends_by_reset and whole == count else r"device(: Connection reset by peer \(os error 104\))?"
        yield count, Peer.reset, stream[:whole], reset, *more


def left_by_target(tally, whole):
    for count, leave, _, _ in leaves(ASKED_ANSWERS):
        outcome = play(lambda run: called(run, answers=ASKED_ANSWERS[:count], leave=leave))
        tally.add(f"left by {leave.__name__}", wrong_with(whole, outcome, "the peer's messages ended|F3 Truncated"), outcome, count)


def left_by_clients(tally, *options):
    cases = list(leaves(CLIENT))

    def is_served(run, count, leave, *_):
        peer = run.connect()
        peer.send(CLIENT[:count])
        leave(peer)
        peer.take()
        after = run.connect()
        ask_all(after)
        return ANSWERS.startswith(peer.got) and after.got == ANSWERS

    lines = [line and rf"{line} \(peer \d+\)" for *_, line in cases]
    leave_all(tally, cases, lambda run: run.begin("serve", *options, run.port, 2 * len(cases)), is_served, lines)


def left_by_either(tally):
    cases = [*leaves(CLIENT, True, ends_by_reset=True), *leaves(ANSWERS, False, ends_by_reset=True)]

    def is_relayed(run, count, leave, whole, _, goes):
        near = run.connect()
        far = run.accept(near)
        source, sink = (near, far) if goes else (far, near)
        source.send((CLIENT if goes else ANSWERS)[:count])
        leave(source)
        sink.take()
        source.take()
        after = run.connect()
        there = run.accept(after)
        pass_all(after, there)
        passed = sink.got == whole or leave is Peer.reset and whole.startswith(sink.got)
        return passed and (after.got, there.got) == (ANSWERS, CLIENT)

    lines = [line and rf"{2 * place + 1}: {line} \({'<>'[goes]}\)" for place, (*_, line, goes) in enumerate(cases)]
    leave_all(tally, cases, lambda run: run.begin("relay", run.port, run.listen(), 2 * len(cases)), is_relayed, lines)


def leave_all(tally, cases, begin, is_right, lines):
    """The cases in turn, with one command: what its peers get, what its lines say, and that its memory stays level."""
    held = []

    def script(run):
        begin(run)
        for place, (count, leave, *others) in enumerate(cases):
            tally.kinds[f"left by {leave.__name__}"] += 1
            if not is_right(run, count, leave, *others):
                tally.wrong.append(f"left by {leave.__name__} at {count}: other bytes")
            if place % (len(cases) // 3) == 0:
                text = pathlib.Path(f"/proc/{run.process.pid}/status").read_text()
                held.append(int(re.search(r"VmRSS:\s+(\d+)", text)[1]))

    outcome = play(script, pipesize=LINES)
    lines, said = list(filter(None, lines)), [it for it in outcome.lines if it != "listening on PLACE"]
    status = 2 if "device" in lines[0] else 1  # (that of the first line)
    if outcome.status != status or len(lines) != len(said) or not all(map(re.fullmatch, lines, said)):
        tally.wrong.append(f"status {outcome.status}, or other lines: {said[:9]}")
    if held[-1] > held[1] + 64:
        tally.wrong.append("its memory grew")
    tally.note = f" ({held[1]} and then {held[-1]} kB held)"


TRIALS = {it.__name__: it for it in (allocations, system_calls, signals, outputs, peers)}


def main(chosen=None, *names):
    signal.signal(signal.SIGINT, signal.SIG_DFL)  # (what a shell begins in the background ignores it)
    tallies = []
    for trial in [chosen] if chosen else TRIALS:
        for name, script in sessions(1 if trial == "allocations" else 8).items():
            if not names or name in names:
                tallies.append(Tally())
                TRIALS[trial](tallies[-1], name, script, play(script))
                tallies[-1].tell(f"{trial}, {name}")
    wrong = sum(len(it.wrong) for it in tallies)
    print(f"faults: {sum(it.kinds.total() for it in tallies)} in turn, wrong: {wrong or 'none'}")
    return wrong > 0


if __name__ == "__main__":
    sys.exit(main(*sys.argv[3:]))
