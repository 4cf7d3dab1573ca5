"""Sessions: what the command is to do, and what its peers do."""
import os
import pathlib
import struct
import subprocess

from session import BUILD, Peer, frames_of, play

DATA = pathlib.Path(__file__).resolve().parents[2] / "tests/test_interop/data"
CALLS = ["i=e5a1000000000001 m=0", "question:1[0] i=e5a1000000000002 m=0 {(2900000000000000;null) caps[]}"]


def output_of(*words, given=None):
    outcome = play(lambda run: run.begin(*words, given=given))
    assert outcome.status == 0, outcome
    return outcome.out


def what_is_sent():
    """What `call` sends before anything comes."""
    return play(lambda run: (run.begin("call", "--timeout", 1, run.listen(), *CALLS), run.accept().take())).got[0]


STREAM = (DATA / "desk.1.c2s").read_bytes()  # (of a client of the reference library)
FRAMES = list(frames_of(STREAM))
CLIENT, FRONT = b"".join(FRAMES[:13]), b"".join(FRAMES[:5])
ANSWERS, FRONT_ANSWERS = output_of("serve", "-", given=CLIENT), output_of("serve", "-", given=FRONT)
ASKED = what_is_sent()
ASKED_ANSWERS = output_of("serve", "-", given=ASKED)


SERVING = os.environ.get("SERVING")  # (the program of ../services/serving)
CALLED, RETURNED, RESOLVED = 2, 3, 5  # (kinds of messages in rpc.capnp)


def encoded(message):
    """The frame of a message, from its text."""
    words = ["capnp", "encode", "/usr/include/capnp/rpc.capnp", "Message"]
    return subprocess.run(words, input=message.encode(), capture_output=True, check=True).stdout


def call_of(question, interface, method, cap=""):
    """A call of a Trial, as a text. (It reads no more of its params than their capabilities, and takes words that lack for 0.)"""
    way = f"target = (importedCap = 0), interfaceId = 0xe5a100000000000{interface}, methodId = {method}, sendResultsTo = (caller = void)"
    return f"(call = (questionId = {question}, {way}, params = (capTable = [{cap}])))"


def of_file(*words):
    return lambda run: run.begin(*words)


def ask_all(peer):
    peer.send(CLIENT)
    peer.end()
    peer.take()


def served(run):
    run.begin("serve", run.port, 2)
    ask_all(run.connect())
    ask_all(run.connect())


def hosted(run):
    """Three at once, of which two go on after the third has ended."""
    run.begin("serve", "--at-once", 4, run.port, 3)
    two = [run.connect(), run.connect()]
    for it in two:
        it.send(FRONT)
        it.take(len(FRONT_ANSWERS))
    ask_all(run.connect())
    for it in two:
        it.send(CLIENT[len(FRONT) :])
        it.end()
        it.take()


def called(run, *options, answers=ASKED_ANSWERS, leave=Peer.take):
    run.begin("call", *options, run.listen(), *CALLS)
    target = run.accept()
    target.take(len(ASKED))
    target.send(answers)
    leave(target)
    target.take()


def pass_on(near, far, stream, answers):
    """Passes on what of this wasn't."""
    near.send(stream[len(far.got) :])
    far.take(len(stream))
    far.send(answers[len(near.got) :])
    near.take(len(answers))


def pass_all(near, far):
    pass_on(near, far, CLIENT, ANSWERS)
    near.end()
    far.take()
    near.take()


def relayed(run, *options):
    """Two at once, of which one goes on after the other has ended."""
    run.begin("relay", *options, run.port, run.listen(), 2)
    near = run.connect()
    far = run.accept(near)
    pass_on(near, far, FRONT, FRONT_ANSWERS)
    other = run.connect()
    pass_all(other, run.accept(other))
    pass_all(near, far)


# What each peer of `pushed` sends in turn, and up to which kind of message it then takes what comes.
PUSHES = SERVING and [
    (RETURNED, encoded("(bootstrap = (questionId = 0))")),
    (RESOLVED, encoded(call_of(1, 3, 2, "(senderHosted = 5)"))),  # (a promise, and what it is to come to)
    (CALLED, encoded(call_of(2, 3, 3, "(senderHosted = 6)"))),  # (what the Trial is to call)
    (RETURNED, encoded("(return = (answerId = 0, results = (capTable = [])))")),
    (RETURNED, encoded(call_of(3, 1, 1))),  # (in 100 ms)
]


def take_up_to(peer, kind):
    """Takes frames up to the next message of this kind."""
    start = len(peer.got)
    while peer.stream:
        peer.take(start + 8)
        words = peer.got[start + 4 : start + 8]
        if len(words) == 4:
            peer.take(start + 8 + 8 * struct.unpack("<I", words)[0])
        if peer.got[start + 16 : start + 18] == struct.pack("<H", kind):
            return
        start = len(peer.got)


def pushed(run):
    """Two at once. A promise comes to something in time, an object of the peer's is called, and a call is answered in time."""
    run.begin(run.port, 2, program=SERVING)
    two = [run.connect(), run.connect()]
    for kind, stream in PUSHES:
        for it in two:
            it.send(stream)
        for it in two:
            take_up_to(it, kind)
    for it in two:
        it.end()
        it.take()


def sessions(copies):
    """Each session by its name, with files of so many copies of a stream."""
    file, packed = pathlib.Path(BUILD, "file"), pathlib.Path(BUILD, "file.packed")
    file.write_bytes(STREAM * copies)
    packed.write_bytes(output_of("pack", file))
    return {
        "show": of_file("show", file),
        "show --schema": of_file("show", "--schema", DATA / "shown.request", file),
        "check": of_file("check", file),
        "pack": of_file("pack", file),
        "unpack": of_file("unpack", packed),
        "recut": of_file("recut", "--words", 3, file),
        "loop": lambda run: run.begin("loop", "-", given=CLIENT),
        "serve -": lambda run: run.begin("serve", "-", given=CLIENT),
        "serve": served,
        "serve --at-once": hosted,
        "call": called,
        "call --timeout": lambda run: called(run, "--timeout", 9),
        "relay": lambda run: relayed(run, "--show"),
        **({"serving": pushed} if SERVING else {}),
        "relay with rules": lambda run: relayed(run, "--schema", f"{BUILD}/desk.request", "--rules", f"{BUILD}/rules"),
    }
