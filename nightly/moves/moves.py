#!/usr/bin/env python3
"""Random moves of two vats that are connected, and what must hold of them after each: moves.py PLAY [--moves N] [--seeds N] [--first SEED]

PLAY is the program `play`, which keeps two vats and does what its lines tell (play.cpp); or `ends KIND KIND`, which keeps two ends of
connections, that serve tail calls or don't (ends/). Nobody makes tail calls here; tails.py does. An application at each end calls, answers, resolves and gives up what it knows of, and takes in the next message that is on the way. Each call bears
a number of its own as its interface, by which it is known where it arrives. After each move:

- neither vat was at fault or closed, nor did memory run out;
- with messages that `play` reads in place, all that was answered and sent is the same;
- each message that was sent is one that its sender may send, and each export's count is what it is owed: what the
  other end holds of it, what messages on the way name of it, and what those on the way back will lower it by;
- one export's count and one import's are asked of the vats themselves, on copies;
- no call is delivered twice, and no question is settled twice.

Of every second seed nothing is finished, released or forgotten, and the calls that were made on a reference that came to
an object, of either end, are delivered in the order in which they were made. At the end all calls are answered and
all promises are resolved: every question is settled then. Of the other seeds all that is held is given up at the end: no
export is left.

It prints what was done, and ends with status 1 at the first difference, with the seed's history up to there.
"""
import random
import re
from collections import Counter, defaultdict

from program import Difference, Program, expect, play_seeds

# What may be refused to an application that names only what there is.
ALLOWED = ("refused PromiseCycle", "refused Unsettled", "refused InUse")


def content(count):
    """A struct with a pointer to each capability of a table."""
    return f"(;{','.join(f'cap:{index}' for index in range(count))})"


# Messages, from their lines.


def descriptors(text):
    """The names of a capability table, in order."""
    table = re.search(r"caps\[(.*)\]\}$", text)
    return re.findall(r"none|(?:sender|receiver)[A-Za-z]+:\d+(?:\[[^]]*\])?", table.group(1)) if table else []


def named(text):
    """The exports of their sender that descriptors name."""
    found = (re.fullmatch(r"sender(?:Hosted|Promise):(\d+)", name) for name in text)
    return [int(name.group(1)) for name in found if name]


class Message:
    def __init__(self, line, frame):
        self.line, self.frame = line, frame
        self.kind = line.split()[0]
        number = re.search(r"\b(?:q|a|p|id)=(\d+)", line)
        self.number = int(number.group(1)) if number else None
        self.opens = self.number if self.kind in ("call", "bootstrap") else None
        self.returns = self.number if self.kind == "return" else None
        self.finishes = self.number if self.kind == "finish" else None
        self.releases = bool(re.search(r"release(?:Result|Param)Caps=true", line))
        self.table = descriptors(line)
        if self.kind == "resolve":
            self.table = re.findall(r" cap (\S+)$", line)
        self.named = named(self.table)
        self.count = int(line.split("count=")[1]) if self.kind == "release" else 0
        interface = re.search(r" i=([0-9a-f]{16}) ", line)
        self.call = int(interface.group(1), 16) if interface else None


# What a vat's messages alone say of it.


class Entry:
    def __init__(self, mentions):
        self.stage, self.mentions = "open", mentions


class Ledger:
    def __init__(self):
        self.exports, self.imports = Counter(), Counter()
        self.questions, self.answers = {}, {}
        self.kinds = {}

    def sent(self, m):
        for name in m.table:
            kind, _, number = name.partition(":")
            if kind in ("senderHosted", "senderPromise"):
                self.kinds[int(number)] = kind
        self.exports.update(m.named)
        if m.opens is not None:
            expect(m.opens not in self.questions, f"question {m.opens} is asked twice: {m.line}")
            self.questions[m.opens] = Entry(m.named)
        elif m.returns is not None:
            entry = self.answers.get(m.returns)
            expect(entry and entry.stage != "returned", f"answer {m.returns} isn't open: {m.line}")
            if entry.stage == "finished":
                expect(not m.named, f"a canceled answer names exports: {m.line}")
                del self.answers[m.returns]
            else:
                entry.stage, entry.mentions = "returned", m.named
        elif m.finishes is not None:
            entry = self.questions.get(m.finishes)
            expect(entry, f"question {m.finishes} isn't there: {m.line}")
            expect(entry.stage == ("open" if m.releases else "returned"), f"a Finish of a {entry.stage} question: {m.line}")
            if m.releases:
                entry.stage = "finished"
            else:
                del self.questions[m.finishes]
        elif m.kind == "release":
            self.imports[m.number] -= m.count
            expect(self.imports[m.number] >= 0, f"import {m.number} is released too often: {m.line}")
        expect(m.kind not in ("unimplemented", "abort", "other"), f"it sent {m.line}")
        expect(m.kind != "return" or not m.releases, f"a Return with releaseParamCaps: {m.line}")

    def taken(self, m):
        """What of a message is taken in: of a question that was given up nothing is."""
        entry = self.questions.get(m.returns)
        return [] if entry and entry.stage == "finished" else m.named

    def lowered(self, m, results):
        """What a message will lower exports by."""
        if m.kind == "release":
            return Counter({m.number: m.count})
        if m.kind == "finish" and m.releases:
            return Counter(results.get(m.number, []))
        return Counter()

    def results(self):
        return {a: entry.mentions for a, entry in self.answers.items() if entry.stage == "returned"}

    def came(self, m):
        self.exports.subtract(self.lowered(m, self.results()))
        expect(all(count >= 0 for count in self.exports.values()), f"an export is lowered too far: {m.line}")
        self.imports.update(self.taken(m))
        if m.opens is not None:
            expect(m.opens not in self.answers, f"answer {m.opens} is opened twice: {m.line}")
            self.answers[m.opens] = Entry([])
        elif m.returns is not None:
            entry = self.questions.get(m.returns)
            expect(entry and entry.stage != "returned", f"question {m.returns} isn't open: {m.line}")
            if entry.stage == "finished":
                del self.questions[m.returns]
            else:
                entry.stage = "returned"
        elif m.finishes is not None:
            entry = self.answers.get(m.finishes)
            expect(entry and entry.stage != "finished", f"answer {m.finishes} isn't kept: {m.line}")
            if entry.stage == "returned":
                del self.answers[m.finishes]
            else:
                entry.stage = "finished"


def owed(here, there):
    """What each export of this end is owed."""
    due = Counter(there.ledger.imports)
    for m in there.inbox:
        due.update(there.ledger.taken(m))
    results = here.ledger.results()
    for m in here.inbox:
        due.update(here.ledger.lowered(m, results))
        if m.finishes is not None:
            results.pop(m.finishes, None)
    return due


# One end, and what its application knows.


class Question:
    def __init__(self, call, target, is_bootstrap):
        self.call, self.target, self.is_bootstrap = call, target, is_bootstrap
        self.is_settled = self.is_finished = False
        self.caps = None


class End:
    def __init__(self, name):
        self.name, self.inbox, self.ledger = name, [], Ledger()
        self.questions, self.promises, self.delivered = {}, {}, []
        self.values, self.favorites = {}, []
        # promises that the vat made, which calls and results named
        self.told = set()

    def references(self):
        """What the application may name, apart from objects."""
        imports = [f"import:{i}" for i, count in sorted(self.ledger.imports.items()) if count]
        promises = [f"promise:{p}" for p in sorted(self.told.union(self.promises))]
        return imports, promises, [q for q, question in sorted(self.questions.items()) if not question.is_finished]


class Player(Program):
    """The program that keeps both vats."""

    def play(self, ends, event):
        """What an event gives: its answer, and the lines of its effects."""
        lines = self.tell(f"{ends} {event}")
        expect(lines[:1] == [event], f"nothing is told of: {event}")
        expect("= in place" not in lines, "\n".join(["read in place, it goes otherwise:"] + lines))
        if lines[1:] and lines[1].startswith("= "):
            return lines[1][2:], lines[2:]
        return "nothing", lines[1:]


class World:
    def __init__(self, player, seed, is_still):
        self.player, self.random, self.is_still = player, random.Random(seed), is_still
        self.ends = {"A": End("A"), "B": End("B")}
        self.history, self.done = [], Counter()
        self.next_call, self.passed_on = 1, 0
        self.arrived, self.made = set(), defaultdict(list)
        self.arrivals = {"A": [], "B": []}
        player.tell("new")

    def across(self, end):
        return self.ends["B" if end.name == "A" else "A"]

    # Moves.

    def move(self, end, event, comes=None, asks=None):
        """Does an event at an end, and gives its answer."""
        self.history.append(f"{end.name} {event}" + (f"    {comes.line}" if comes else ""))
        answer, lines = self.player.play(end.name, event)
        self.history.extend("    " + line for line in [f"= {answer}"] + lines if not line.startswith("# "))
        expect(not answer.startswith("refused") or answer in ALLOWED, answer)
        expect(answer != "unread", "the line isn't an event")
        self.done[answer if answer.startswith("refused") else f"took {comes.kind}" if comes else event.split()[0]] += 1
        if comes:
            end.ledger.came(comes)
            self.note_value(end, comes)
        if asks and answer.startswith("question:"):
            self.asked(end, int(answer.split(":")[1]), asks)
        is_passed_on = comes and comes.call is not None and [line[:7] for line in lines[:1]] == ["> call "] and len(lines) == 2
        self.passed_on = self.passed_on + 1 if is_passed_on else 0
        for line, behind in zip(lines, lines[1:] + [""]):
            self.effect(end, line, behind)
        self.check_counts()
        return answer

    def effect(self, end, line, behind):
        if line.startswith("! "):
            end.told.update(int(p) for p in re.findall(r"promise:(\d+)", line) if int(p) not in end.promises)
        if line.startswith("> "):
            expect(behind.startswith("# "), f"not written: {line}")
            m = Message(line[2:], behind[2:])
            end.ledger.sent(m)
            self.across(end).inbox.append(m)
        elif line.startswith("! deliver "):
            found = re.match(r"! deliver object:(\d+) for (\S+) ticket (\d+) i=([0-9a-f]{16}) ", line)
            call = int(found.group(4), 16)
            expect(call not in self.arrived, f"call {call} is delivered twice")
            self.arrived.add(call)
            self.arrivals[end.name].append(call)
            end.delivered.append(found.group(2))
        elif line.startswith("! settled "):
            found = re.match(r"! settled question:(\d+) (.*)", line)
            question = end.questions.get(int(found.group(1)))
            expect(question, f"no such question: {line}")
            expect(not question.is_finished, f"a finished question is settled: {line}")
            expect(not question.is_settled, f"a question is settled twice: {line}")
            question.is_settled = True
            table = re.search(r"caps\[(.*)\]\}$", found.group(2))
            question.caps = re.split(r",(?![^[]*\])", table.group(1)) if table else []
        else:
            expect(line.startswith("# "), line)

    def note_value(self, end, m):
        """What an import came to, by its Resolve."""
        found = re.fullmatch(r"(sender|receiver)Hosted:(\d+)", "".join(m.table))
        if m.kind == "resolve" and end.ledger.imports[m.number]:
            value = "none"
            if found and found.group(1) == "sender":
                value = f"import:{found.group(2)}"
            elif found and end.ledger.kinds.get(int(found.group(2))) == "senderHosted":
                value = "object:of this end"
            end.values[f"import:{m.number}"] = value

    def asked(self, end, number, question):
        old = end.questions.get(number)
        expect(old is None or old.is_finished, f"question {number} is given twice")
        end.questions[number] = question
        if question.call is not None:
            self.made[end.name, question.target].append(question.call)

    # What the application chooses.

    def a_path(self, end, number):
        if end.questions[number].is_bootstrap and self.random.random() < 0.9:
            return "[]"
        return self.random.choice(["[0]", "[0]", "[0]", "[1]", "[]", "[0,1]"])

    def a_cap(self, end, with_paths):
        """A capability that the application may hand over."""
        imports, promises, questions = end.references()
        choices = [f"object:{self.random.randrange(4)}"] * 4 + self.random.sample(imports, min(3, len(imports))) * (2 if with_paths else 5)
        choices += self.random.sample(promises, min(3, len(promises))) * 2
        if with_paths and questions:
            number = self.random.choice(questions[-6:])
            choices += [f"question:{number}{self.a_path(end, number)}"] * 2
        if self.random.random() < 0.08:
            choices += ["none", 'broken:failed "x"']
        return self.random.choice(choices)

    def a_target(self, end):
        """A capability to call: often one of the last few that were called."""
        imports, promises, questions = end.references()
        known = [name for name in end.favorites if name in imports + promises or self.is_path(name, questions)]
        if known and self.random.random() < 0.6:
            return self.random.choice(known)
        choices = self.random.sample(imports, min(3, len(imports))) * 2 + self.random.sample(promises, min(2, len(promises)))
        for number in questions[-4:]:
            choices += [f"question:{number}{self.a_path(end, number)}"] * 2
        if self.random.random() < 0.1 or not choices:
            choices += [f"object:{self.random.randrange(4)}", "none", 'broken:overloaded "busy"']
        target = self.random.choice(choices)
        end.favorites = end.favorites[-3:] + [target]
        return target

    def is_path(self, name, questions):
        found = re.match(r"question:(\d+)", name)
        return bool(found) and int(found.group(1)) in questions

    def payload(self, end, with_paths):
        caps = [self.a_cap(end, with_paths) for _ in range(self.random.choice([0, 1, 1, 2]))]
        return f"{{{content(len(caps))} caps[{','.join(caps)}]}}"

    def call(self, end):
        target, number = self.a_target(end), self.next_call
        self.next_call += 1
        event = f"call {target} i={number:016x} m={number % 7} {self.payload(end, True)}"
        self.move(end, event, asks=Question(number, target, False))

    def answer(self, end):
        if not end.delivered:
            return self.step()
        origin = end.delivered.pop(self.random.randrange(len(end.delivered)))
        chance = self.random.random()
        outcome = 'exception failed "no"' if chance < 0.1 else "canceled" if chance < 0.13 else self.payload(end, False)
        if self.move(end, f"answer {origin} {outcome}").startswith("refused"):
            end.delivered.append(origin)

    def promise(self, end):
        answer = self.move(end, "promise")
        end.promises[int(answer.split(":")[1])] = False
        end.told.discard(int(answer.split(":")[1]))

    def resolve(self, end):
        unresolved = [p for p, is_resolved in end.promises.items() if not is_resolved]
        if not unresolved:
            self.step()
        else:
            promise = self.random.choice(unresolved)
            cap = self.a_cap(end, False)
            if self.move(end, f"resolve promise:{promise} {cap}") == "nothing":
                end.promises[promise], end.values[f"promise:{promise}"] = True, cap

    def finish(self, end):
        _, _, questions = end.references()
        if not questions:
            self.step()
        else:
            number = self.random.choice(questions)
            if self.move(end, f"finish question:{number}") == "nothing":
                end.questions[number].is_finished = True

    def give_up(self, end):
        imports, promises, _ = end.references()
        choices = [f"release {name}" for name in imports] + [f"forget {name}" for name in promises]
        if not choices:
            self.step()
        else:
            event = self.random.choice(choices)
            if self.move(end, event) == "nothing" and event.startswith("forget"):
                self.forgotten(end, int(event.split(":")[1]))

    def forgotten(self, end, promise):
        end.promises.pop(promise, None)
        end.told.discard(promise)

    def take(self, end):
        if not end.inbox:
            self.step()
        else:
            m = end.inbox.pop(0)
            self.move(end, f"< {m.frame}", m)

    def step(self):
        end = self.random.choice(list(self.ends.values()))
        moves = [self.take] * 9 + [self.call] * 6 + [self.answer] * 5 + [self.promise] * 2 + [self.resolve] * 2
        moves += [] if self.is_still else [self.finish] * 3 + [self.give_up] * 2
        if not end.questions or self.random.random() < 0.03:
            self.move(end, "bootstrap", asks=Question(None, None, True))
        else:
            self.random.choice(moves)(end)

    # What must hold.

    def check_counts(self):
        for end in self.ends.values():
            counts, due = end.ledger.exports, owed(end, self.across(end))
            for export in set(counts) | set(due):
                expect(counts[export] == due[export], f"{end.name}: export {export} counts {counts[export]}, and is owed {due[export]}")

    def closes(self, end, export, count):
        """Whether a Release of so many would close the vat."""
        _, lines = self.player.play(f"{end.name}?", f"< release id={export} count={count}")
        return any(line.startswith("! closed") for line in lines)

    def check_export(self, end, export):
        count = end.ledger.exports[export]
        expect(not count or not self.closes(end, export, count), f"{end.name}: export {export} counts less than {count}")
        expect(self.closes(end, export, count + 1), f"{end.name}: export {export} counts more than {count}")

    def check_import(self, end, number):
        count = end.ledger.imports[number]
        answer, lines = self.player.play(f"{end.name}?", f"release import:{number}")
        if count:
            wanted = f"> release id={number} count={count}"
            expect(answer == "refused InUse" or wanted in lines, f"{end.name}: import {number} counts other than {count}: {lines}")
        else:
            expect(answer == "refused UnknownImport", f"{end.name}: import {number} is there")

    def idle(self, end):
        """The events that give up what is idle."""
        told = re.fullmatch(r"imports\[(.*)\] promises\[(.*)\]", self.player.play(f"{end.name}?", "idle")[0])
        imports, promises = (numbers.split(",") if numbers else [] for numbers in told.groups())
        return [f"release import:{i}" for i in imports] + [f"forget promise:{p}" for p in promises]

    def check_idle(self, end):
        """What is idle can be given up, and nothing else."""
        idle = self.idle(end)
        imports, promises, _ = end.references()
        for event in {f"release {name}" for name in imports} | {f"forget {name}" for name in promises} | set(idle):
            is_given_up = self.player.play(f"{end.name}?", event)[0] == "nothing"
            expect(is_given_up == (event in idle), f"{end.name}: {event} {'is done' if is_given_up else 'is refused'}")

    def spot_check(self):
        end = self.random.choice(list(self.ends.values()))
        self.check_export(end, self.random.randrange(max(end.ledger.exports, default=0) + 2))
        self.check_import(end, self.random.randrange(max(end.ledger.imports, default=0) + 2))
        if self.is_still:
            self.check_lanes(False)

    def place_of(self, end, cap):
        """The end where a capability's calls arrive, if it is an object's or a hosted import's."""
        if cap.startswith("object:"):
            return end.name
        there = self.across(end)
        is_hosted = cap.startswith("import:") and there.ledger.kinds.get(int(cap.split(":")[1])) == "senderHosted"
        return there.name if is_hosted else None

    def value_of(self, end, target):
        """What a reference came to, as far as that was told."""
        found = re.fullmatch(r"question:(\d+)\[(\d*)\]", target)
        if not found:
            return end.values.get(target, target)
        question, index = end.questions[int(found.group(1))], int(found.group(2) or 0)
        is_told = question.is_settled and (found.group(2) == "") == question.is_bootstrap and index < len(question.caps)
        return question.caps[index] if is_told else "none"

    def check_lanes(self, is_quiet):
        """Calls on a reference that came to an object, of either end, are delivered in the order in which they were made."""
        for (name, target), made in self.made.items():
            place = self.place_of(self.ends[name], self.value_of(self.ends[name], target))
            if place:
                arrived = [call for call in self.arrivals[place] if call in set(made)]
                expect(arrived == made[: len(arrived)], f"{name}: calls {made} on {target} arrived as {arrived}")
                expect(not is_quiet or arrived == made, f"{name}: calls {made} on {target} are not all delivered: {arrived}")
                self.done["lanes home" if place == name else "lanes away"] += is_quiet and len(made) > 1

    # The end of a seed.

    def drain(self):
        """Everything that is on the way comes, each call is answered, each promise is resolved. Gives whether that ends: where each end
        resolved a promise to one of the other's before it knew of the other's Resolve, calls go round for ever, and neither vat can tell."""
        for _ in range(100_000):
            busy = [end for end in self.ends.values() if end.inbox or end.delivered or not all(end.promises.values())]
            if not busy:
                return True
            if self.passed_on > 300:
                self.done["seeds with a circle"] += 1
                return False
            end = self.random.choice(busy)
            if end.inbox:
                self.take(end)
            elif end.delivered:
                origin = end.delivered.pop()
                self.move(end, f"answer {origin} {{{content(0)} caps[]}}")
            else:
                promise = next(p for p, is_resolved in end.promises.items() if not is_resolved)
                expect(self.move(end, f"resolve promise:{promise} object:1") == "nothing", f"promise {promise} isn't resolved")
                end.promises[promise], end.values[f"promise:{promise}"] = True, "object:1"
        raise Difference("it doesn't come to an end")

    def give_all_up(self):
        for _ in range(1000):
            expect(self.drain(), "a circle is closed while all is given up")
            before = len(self.history)
            for end in self.ends.values():
                for number in end.references()[2]:
                    if self.move(end, f"finish question:{number}") == "nothing":
                        end.questions[number].is_finished = True
                for event in self.idle(end):
                    # What is given up leaves others idle, and none in use that was idle.
                    expect(self.move(end, event) == "nothing", f"what is idle isn't given up: {event}")
                    if event.startswith("forget"):
                        self.forgotten(end, int(event.split(":")[1]))
            if len(self.history) == before:
                return
        raise Difference("giving up doesn't come to an end")

    def end(self):
        is_quiet = self.drain()
        if self.is_still:
            self.check_lanes(is_quiet)
        if not is_quiet:
            return
        for end in self.ends.values():
            for number, question in end.questions.items():
                expect(question.is_finished or question.is_settled, f"{end.name}: question {number} isn't settled")
        for end in self.ends.values():
            self.check_idle(end)
            for export in range(max(end.ledger.exports, default=0) + 2):
                self.check_export(end, export)
        if not self.is_still:
            self.give_all_up()
            for end in self.ends.values():
                left = [export for export, count in end.ledger.exports.items() if count]
                held = [name for name in end.references()[0]]
                expect(not left and not held, f"{end.name}: exports {left} and imports {held} are left")
                expect(not end.ledger.questions and not end.ledger.answers, f"{end.name}: entries are left")
                for export in range(max(end.ledger.exports, default=0) + 2):
                    self.check_export(end, export)


play_seeds("play", lambda words: Player(words.split()), World)
