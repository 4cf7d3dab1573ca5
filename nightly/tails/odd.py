#!/usr/bin/env python3
"""odd.py PORT    a peer by hand, which makes tail calls in orders that no library chooses, of `trials serve`: a line for each case, and status 1
where one isn't as it should be. Messages are the text that `capnp encode` reads."""
import socket
import struct
import subprocess
import sys

RPC = "/usr/include/capnp/rpc.capnp"
RELEASE = "(release = (id = 1, referenceCount = 1))"
TAILS, MAKER, CELL = "0xe5a10000000000c2", "0xe5a10000000000c1", "0xe5a1000000000002"


def by_capnp(word, content):
    return subprocess.run(["capnp", *word, RPC, "Message"], input=content, capture_output=True, check=True).stdout


class Peer:
    """One connection, with all that was sent and came. The bootstrap object is import 0."""

    def __init__(self, port):
        self.socket = socket.create_connection(("127.0.0.1", port))
        self.socket.settimeout(5)
        self.log = []
        self.send("(bootstrap = (questionId = 0))")
        self.get()
        self.send(finish(0, "false"))

    def send(self, *messages):
        self.log += ["> " + message for message in messages]
        self.socket.sendall(b"".join(by_capnp(["encode"], message.encode()) for message in messages))

    def some(self, count):
        came = b""
        while len(came) < count:
            more = self.socket.recv(count - len(came))
            if not more:
                raise EOFError
            came += more
        return came

    def get(self):
        head = self.some(8)
        count, words = struct.unpack("<II", head)
        assert count == 0, "a message of several segments"
        message = by_capnp(["decode", "--short"], head + self.some(8 * words)).decode().strip()
        self.log.append("< " + message)
        return message

    def wants(self, *parts):
        """The next message has these parts."""
        message = self.get()
        for part in parts:
            assert part in message, f"{part} is not in {message}"

    def calls(self, question, *asked):
        """The keeper asks a Cell of ours: by this question of its own."""
        self.send(call(question, TAILS, 4, *asked))
        self.wants("call = (")

    def lives(self):
        self.send("(bootstrap = (questionId = 90))")
        self.wants("answerId = 90")


def call(question, interface, method, caps="", to="caller", target="importedCap = 0"):
    return (
        f"(call = (questionId = {question}, target = ({target}), interfaceId = {interface}, methodId = {method}, "
        f"sendResultsTo = ({to} = void), params = (capTable = [{caps}])))"
    )


def make(question, to="yourself"):
    return call(question, MAKER, 0, to=to)


def take(question, other):
    return f"(return = (answerId = {question}, releaseParamCaps = false, takeFromOtherQuestion = {other}))"


def empty(question):
    return f"(return = (answerId = {question}, releaseParamCaps = false, results = (capTable = [])))"


def finish(question, release="true"):
    return f"(finish = (questionId = {question}, releaseResultCaps = {release}))"


def is_sent_elsewhere(question):
    return f"answerId = {question},", "resultsSentElsewhere"


def the_result_comes_first(peer):
    peer.calls(1, "(senderHosted = 5)")
    peer.send(make(2), take(0, 2))
    peer.wants(*is_sent_elsewhere(2))
    peer.wants("finish = (questionId = 0")
    peer.wants("answerId = 1,", "results = (")
    peer.send(finish(2))
    peer.lives()


def finished_untaken_after_the_result(peer):
    peer.send(make(2), finish(2))
    peer.wants(*is_sent_elsewhere(2))
    peer.send(make(2, "caller"))
    peer.wants("answerId = 2,", "results = (")
    peer.lives()


def finished_untaken_before_the_result(peer):
    peer.calls(2, "(senderHosted = 6)", "yourself")
    peer.send(finish(2), empty(0))
    peer.wants("finish = (questionId = 0")
    peer.wants(*is_sent_elsewhere(2))
    peer.send(make(2, "caller"))
    peer.wants("answerId = 2,", "results = (")
    peer.lives()


def finished_taken_before_the_result(peer):
    peer.calls(1, "(senderHosted = 5)")
    peer.calls(2, "(senderHosted = 6)", "yourself")
    peer.send(take(0, 2), finish(2), empty(1))
    peer.wants("finish = (questionId = 1")
    peer.wants(*is_sent_elsewhere(2))
    peer.wants("finish = (questionId = 0")
    peer.wants("answerId = 1,", "results = (")
    peer.send(make(2, "caller"))
    peer.wants("answerId = 2,", "results = (")
    peer.lives()


def never_taken_and_pipelined(peer):
    pipelined = call(3, CELL, 1, to="yourself", target="promisedAnswer = (questionId = 2, transform = [])")
    peer.send(make(2), pipelined, finish(3), finish(2))
    peer.wants(*is_sent_elsewhere(3))
    peer.wants(*is_sent_elsewhere(2))
    peer.lives()


def a_question_is_answered_twice(peer):
    peer.calls(1, "(senderHosted = 5)")
    peer.calls(2, "(senderHosted = 6)", "yourself")
    peer.send(take(0, 2), empty(0))
    peer.wants("abort", "P2 unknown question")


def a_call_is_finished_twice(peer):
    peer.calls(1, "(senderHosted = 5)")
    peer.calls(2, "(senderHosted = 6)", "yourself")
    peer.send(take(0, 2), finish(2), finish(2))
    peer.wants("abort", "P3 unknown answer")


def a_number_is_used_again_too_early(peer):
    peer.send(make(2), make(2))
    peer.wants("abort", "P1 question in use")


def results_of_no_call_are_taken(peer):
    peer.calls(1, "(senderHosted = 5)")
    peer.send(take(0, 77))
    peer.wants("unimplemented")
    peer.lives()


def results_are_taken_twice(peer):
    peer.calls(1, "(senderHosted = 5)")
    peer.calls(3, "(senderHosted = 5)")
    peer.send(make(2), take(0, 2))
    peer.wants(*is_sent_elsewhere(2))
    peer.wants("finish = (questionId = 0")
    peer.wants("answerId = 1,", "results = (")
    peer.send(take(1, 2))
    peer.wants("unimplemented")
    peer.lives()


def an_exception_is_taken(peer):
    peer.calls(1, "(senderHosted = 5)")
    peer.send(call(2, TAILS, 3, to="yourself"), take(0, 2))
    peer.wants(*is_sent_elsewhere(2))
    peer.wants("finish = (questionId = 0")
    peer.wants("answerId = 1,", "no such method")
    peer.send(finish(2))
    peer.lives()


def results_are_no_reference_of_the_peers(peer):
    peer.send(make(2), finish(2, "false"))
    peer.wants(*is_sent_elsewhere(2))
    peer.send(make(2, "caller"))
    peer.wants("answerId = 2,", "senderHosted = 1")
    peer.send(finish(2, "false"), RELEASE)
    peer.lives()
    peer.send(RELEASE)
    peer.wants("abort", "P4 unknown export")


def a_disembargo_comes_by_the_call(peer):
    given = "promisedAnswer = (questionId = 2, transform = [(getPointerField = 0)])"
    peer.send(
        call(2, MAKER, 1, "(senderHosted = 7)", "yourself"),
        f"(disembargo = (target = ({given}), context = (senderLoopback = 3)))",
    )
    peer.wants("disembargo", "receiverLoopback = 3")
    peer.send(finish(2))
    peer.wants(*is_sent_elsewhere(2))
    peer.lives()


def the_vat_does_not_act_on_a_call(peer):
    peer.send(call(2, MAKER, 1, "(thirdPartyHosted = (vineId = 1))", "yourself"))
    peer.wants("unimplemented")
    peer.send(make(2, "caller"))
    peer.wants("answerId = 2,", "results = (")
    peer.lives()


CASES = [
    the_result_comes_first,
    finished_untaken_after_the_result,
    finished_untaken_before_the_result,
    finished_taken_before_the_result,
    never_taken_and_pipelined,
    a_question_is_answered_twice,
    a_call_is_finished_twice,
    a_number_is_used_again_too_early,
    results_of_no_call_are_taken,
    results_are_taken_twice,
    an_exception_is_taken,
    results_are_no_reference_of_the_peers,
    a_disembargo_comes_by_the_call,
    the_vat_does_not_act_on_a_call,
]


def main():
    failed = 0
    for case in CASES:
        peer = Peer(int(sys.argv[1]))
        try:
            case(peer)
            print("by hand:", case.__name__.replace("_", " "))
        except (AssertionError, EOFError, OSError) as fault:
            failed = 1
            print(case.__name__, repr(fault), *peer.log, sep="\n  ", file=sys.stderr)
        peer.socket.close()
    sys.exit(failed)


main()
