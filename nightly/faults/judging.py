"""How a run with a fault may end."""
import collections
import os
import re

from session import BUILD

MEMORY = "OutOfMemory|out of memory|memory ran out|wanted memory|memory allocation failed"
# The lines that docs/COMMAND.md has: of status 1, and of status 2. A path is that of a request.
REFUSAL = r"refused at byte \d+: [BFGS]\d+ [A-Z]\w+.*|(call \d+: )?refused: V10 OutOfMemory|the peer's messages ended|not answered: F6 OutOfMemory"
FAILURE = r"device(: [^:]+){0,2}|error: (out of memory|[\w.-]+: memory ran out)|call \d+: column \d+: wanted memory|/[^:]*: .*"


def naming(error):
    """What a line says of an error of the system. Of a connection of `serve` it says no more than `device`."""
    return re.escape(os.strerror(error)) + r"|^device( \(peer \d\))?$"


def peers_of(line, count):
    """The places of the peers that a line is about: all where it names none."""
    if named := re.search(r"\(peer (\d)\)$", line):
        return [int(named[1]) - 1]
    if named := re.match(r"(\d): ", line):
        return [int(named[1]) * 2 - 2, int(named[1]) * 2 - 1]
    return range(count)


def texts_of(out):
    """What a relay prints of each of two connections, and all else."""
    return [b"".join(re.findall(rb"^%s.*\n?" % mark, out, re.MULTILINE)) for mark in (b"1 [<>]", b"2 [<>]", rb"(?![12] [<>])")]


def wrong_bytes(whole, outcome, losers):
    """What is wrong with the bytes that came, where peers at these places may lack some."""
    is_front = whole.out.startswith(outcome.out) or all(map(bytes.startswith, texts_of(whole.out), texts_of(outcome.out)))
    if not is_front or not all(map(bytes.startswith, whole.got, outcome.got)):
        return "other bytes"
    if any(all_of_it != it for place, (all_of_it, it) in enumerate(zip(whole.got, outcome.got)) if place not in losers):
        return "a peer lost what no line says"
    return None


def wrong_with(whole, outcome, cause=None):
    """What is wrong with the end of a run with a fault. It may be that of the whole run. Else it has a line that names this cause."""
    if outcome == whole:
        return None
    if not cause or outcome.status not in (1, 2):
        return "it doesn't end as without the fault"
    lines = [it for it in outcome.lines if it not in whole.lines]
    told = re.fullmatch(rf"(\d+: )?({[REFUSAL, FAILURE][outcome.status - 1]})( \((peer \d|[<>])\))?", "".join(lines))
    if outcome.changed != 2 and not (told and re.search(cause, lines[0])):
        return "no line of this status that says why"
    return wrong_bytes(whole, outcome, {place for it in lines for place in peers_of(it, len(whole.got))})


class Tally:
    """What came of the runs of a trial: how many of each kind of fault, in which ways they ended, and what was wrong."""

    def __init__(self):
        self.kinds, self.ways, self.wrong, self.note = collections.Counter(), collections.Counter(), [], ""

    def add(self, kind, wrong, outcome, place=""):
        self.kinds[kind] += 1
        self.ways[re.sub(r"byte \d+", "byte N", f"{outcome.status} {' | '.join(outcome.lines)}")] += 1
        if wrong:
            self.wrong.append(f"{kind} {place}: {wrong}: status {outcome.status}, {outcome.lines}")

    def tell(self, name):
        if self.kinds:
            kinds = ", ".join(f"{count} {kind}" for kind, count in self.kinds.items())
            print(f"{name}: {kinds}{self.note}; wrong: {len(self.wrong) or 'none'}", *self.wrong[:9], sep="\n    ", flush=True)
        with open(f"{BUILD}/ways", "a") as file:
            print(name, *(f"    {count} {way}" for way, count in sorted(self.ways.items())), sep="\n", file=file)
