#!/usr/bin/env python3
"""Random moves of an end that serves tail calls and of a stranger that makes them: tails.py ENDS [--moves N] [--seeds N] [--first SEED]

ENDS is the program of ends/, which keeps one end. The stranger is here: it calls, answers, promises, resolves and gives up as rpc.capnp lets it,
with any free numbers. It passes calls on to the end as tail calls (`sendResultsTo.yourself`), before or after the results are there, and answers by
`takeFromOtherQuestion`, or gives them up. Messages are on the way for a while. A plain model knows what each reference came to and how each call
was answered. After each move:

- the end found no fault, and each call came to the object that the model says, at either side, once;
- each question of the end was settled by what answered its call, over any number of tail calls; each Return to the stranger likewise;
- `resultsSentElsewhere` came for those calls alone whose results went elsewhere, once;
- each reference that a message or an event names is the one of the model, and no count is lowered too far;
- one import's count and one export's, asked of a copy, are what was sent and came, and what tail calls owe.

Of every second seed nothing is given up: the calls on one reference come in order then, and at the end all have come. Of the others all is given
up at the end, and nothing is left.
"""
import random
from collections import Counter, defaultdict

from model import ANY, BROKEN, NONE, Call, Model, Player
from our_end import OurEnd
from program import Difference, expect, play_seeds
from stranger import Stranger


class World(OurEnd, Stranger):
    def __init__(self, player, seed, is_still):
        self.player, self.random, self.is_still = player, random.Random(seed), is_still
        self.model, self.history, self.done = Model(), [], Counter()
        self.next_call = self.next_tag = 1
        self.to_ours, self.to_stranger = [], []
        self.arrivals, self.lanes = defaultdict(list), defaultdict(list)
        player.tell("new")
        OurEnd.__init__(self)
        Stranger.__init__(self)

    # What both have in common.

    def new_call(self, lane, target, params):
        number, self.next_call = self.next_call, self.next_call + 1
        self.model.calls[number] = Call(lane, target, params)
        self.lanes[lane].append(number)
        return number

    def new_tag(self):
        self.next_tag += 1
        return self.next_tag

    def comes(self, number, side, object_number):
        call = self.model.calls[number]
        expect(not call.has_come, f"call {number} comes twice")
        there = self.model.deep(call.target)
        expect(there in ((side, object_number), ANY), f"call {number} on {call.target} came to {side} {object_number}, and not to {there}")
        call.has_come = True
        self.arrivals[side].append(number)

    # Moves, and what must hold.

    def step(self):
        moves = [self.ours_takes] * 6 + [self.stranger_takes] * 6 + [self.our_call] * 6 + [self.our_answer] * 5 + [self.its_call] * 3
        moves += [self.its_answer] * 6 + [self.our_promise, self.our_resolve, self.its_promise, self.its_resolve]
        moves += [] if self.is_still else [self.our_give_up] * 2 + [self.its_give_up] * 3
        if not self.questions or self.random.random() < 0.02:
            self.ours_asking("bootstrap", None)
        else:
            self.random.choice(moves)()

    def closes(self, export, count):
        _, lines = self.player.play("A?", f"< release id={export} count={count}")
        return any(line.startswith("! closed") for line in lines)

    def spot_check(self):
        """One count, of the end itself."""
        if self.random.random() < 0.3:
            return self.check_import(self.random.randrange(6))
        export = self.random.randrange(max(self.exports, default=0) + 2)
        count = self.exports[export]
        if count and self.random.random() < 0.5:
            return expect(not self.closes(export, count), f"export {export} counts less than {count}")
        refs = [ref for refs in self.hidden.values() for ref in refs]
        if all(ref[0] in "YS" for ref in refs) and not self.unsure() and (count or not refs):
            owed = sum(ref == self.model.deep(self.export_refs[export]) for ref in refs) if count else 0
            owed += sum(mentions.count(export) for mentions in self.owed_params.values())
            expect(self.closes(export, count + owed + 1), f"export {export} counts more than {count} and {owed}")
            self.done["counts of exports with results of tail calls"] += owed > 0
        return None

    def unsure(self):
        """Whether kept results may name exports that aren't known: those of calls that our end passed on itself."""
        others = [it.call for number, it in self.its_questions.items() if it.call and it.to == "yourself" and number not in self.hidden]
        return any(map(self.model.outcome, others))

    def check_import(self, number):
        answer, lines = self.player.play("A?", f"release import:{number}")
        wanted = f"> release id={number} count={self.imports[number]}"
        expect(answer.startswith("refused") or wanted in lines, f"import {number} counts other than {self.imports[number]}: {lines}")
        expect(answer != "refused UnknownImport" or not self.imports[number], f"import {number} isn't there")

    def check_lanes(self, is_quiet):
        """Calls on one reference come in order to the object that it is. Where the stranger passed some on by the path of a tail call and it
        is the stranger's object, no order is promised: neither end knows of both ways. Nor is it where a reference of our end came to a promise of
        its own first: what waited for a Disembargo has a lower ticket there than what came back."""
        for (side, name), made in self.lanes.items():
            calls = [self.model.calls[number] for number in made]
            if len(made) < 2:
                continue
            there = self.model.deep(calls[0].target)
            if there[0] not in "YS" or there[0] == "S" and any(call.bounced for call in calls):
                continue
            if side == "Y" and self.model.is_by_promise(calls[0].target) and any(call.came_back for call in calls):
                continue
            arrived = [number for number in self.arrivals[there[0]] if number in set(made)]
            expect(arrived == made[: len(arrived)], f"calls {made} on {name} of {side} came as {arrived}")
            expect(not is_quiet or arrived == made, f"calls {made} on {name} of {side} haven't all come: {arrived}")
            self.done["lanes"] += is_quiet

    # The end of a seed.

    def drain(self):
        for _ in range(100_000):
            busy = []
            busy += [self.ours_takes] if self.to_ours else []
            busy += [self.stranger_takes] if self.to_stranger else []
            busy += [lambda: self.our_answer(True)] if self.delivered else []
            busy += [lambda: self.its_answer(True)] if self.pending else []
            busy += [lambda: self.our_resolve(True)] if not all(self.promises.values()) else []
            busy += [lambda: self.its_resolve(True)] if None in self.its_promises.values() else []
            if not busy:
                return
            self.random.choice(busy)()
        raise Difference("it doesn't come to an end")

    def end(self):
        self.drain()
        if self.is_still:
            self.check_lanes(True)
            for number, call in self.model.calls.items():
                there = self.model.deep(call.target)
                expect(call.has_come or there in (NONE, BROKEN, ANY), f"call {number} never came to {there}")
        expect(not self.embargoes, f"no Disembargo came back of {self.embargoes}")
        for number, question in self.questions.items():
            expect(question.is_finished or question.is_returned, f"question {number} isn't settled")
        for number, question in self.its_questions.items():
            expect(question.is_returned or question.to == "yourself" and not question.is_taken, f"the stranger's question {number} isn't answered")
        for export in set(self.exports) | set(self.its_imports):
            counts = self.exports[export], self.its_imports[export]
            expect(counts[0] == counts[1], f"export {export} counts {counts[0]}, and the stranger {counts[1]}")
        for number in set(self.imports) | set(self.its_exports):
            counts = self.imports[number], self.its_exports[number]
            expect(counts[0] == counts[1], f"import {number} counts {counts[0]}, and the stranger {counts[1]}")
        if not self.is_still:
            self.give_all_up()

    def give_all_up(self):
        for _ in range(1000):
            before = len(self.history)
            for number in [number for number, question in self.questions.items() if not question.is_finished]:
                self.our_finish(number)
            for event in self.idle():
                self.our_drop(event)
            self.drain()
            for number in [number for number, question in self.its_questions.items() if self.may_finish(question)]:
                self.its_finish(number)
            for promise, value in list(self.its_promises.items()):
                if value and value[0] == "import" and not self.its_exports[promise]:
                    self.pins[value[1]] -= 1
                    self.its_promises[promise] = ("none",)
            for number, count in list(self.its_imports.items()):
                if count and not self.pins[number]:
                    self.its_release(number, count)
            self.drain()
            if len(self.history) == before:
                break
        held = self.player.play("A", "held")[0]
        expect(held.startswith("entries 0 imports 0 promises 0 contents 0"), f"left: {held}")
        for export in range(max(self.exports, default=0) + 3):
            expect(self.closes(export, 1), f"export {export} is left")
        expect(not any(self.its_exports.values()), f"the stranger's exports are left: {self.its_exports}")


if __name__ == "__main__":
    play_seeds("ends", Player, World)
