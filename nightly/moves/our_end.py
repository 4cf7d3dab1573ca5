"""Our end of tails.py: what it counts by the messages that it sent and that came, and what its application knows and does."""
import re
from collections import Counter

from model import ALLOWED, ANY, BROKEN, FIRST_PROMISE, NONE, Question, payload, tag_of
from model import CALL, DELIVER, FINISH, RESOLVE, RETURN, SETTLED
from program import Difference, expect


class OurEnd:
    def __init__(self):
        self.exports, self.export_refs, self.imports = Counter(), {}, Counter()
        self.results_of, self.asked, self.questions = {}, {}, {}
        self.names, self.promises, self.delivered = {}, {}, []
        self.finished = set()  # (questions of the stranger's whose Finish came)
        self.owed_params = {}  # of each call whose results a question takes, and that aren't there: what was released of the params of that question
        self.hidden = {}  # of each call with results to its sender, while the end keeps its answer: what the results named

    def ours(self, event):
        """Does an event at our end, and gives its answer."""
        self.history.append(event)
        answer, lines = self.player.play("A", event)
        self.history.extend("    " + line for line in [f"= {answer}"] + lines)
        expect(answer == "nothing" or not answer.startswith("refused") or answer in ALLOWED, answer)
        expect(answer != "unread", "the line isn't an event")
        for line in lines:
            if line.startswith("> "):
                self.sends(line[2:])
            elif line.startswith("! deliver "):
                self.delivers(*DELIVER.match(line).groups())
            elif line.startswith("! settled "):
                self.settles(*SETTLED.match(line).groups())
            else:
                raise Difference(line)
        self.done[answer if answer.startswith("refused") else " ".join(event.split()[: 2 if event[0] == "<" else 1])] += 1
        return answer

    def names_export(self, export, ref):
        if self.exports[export]:
            expect(self.model.same(self.export_refs[export], ref), f"export {export} is {self.export_refs[export]}, and now {ref}")
        else:
            self.export_refs[export] = ref
        self.exports[export] += 1

    def describes(self, descriptors, refs, line):
        """Our end names references in a message. Gives the exports that it names."""
        expect(len(descriptors) == len(refs), f"{line}: {len(refs)} capabilities")
        for name, ref in zip(descriptors, refs):
            kind, _, number = name.partition(":")
            if kind in ("senderHosted", "senderPromise"):
                self.names_export(int(number), ref)
            elif kind == "receiverHosted":
                expect(self.model.same(self.of_stranger(int(number)), ref), f"{line}: {name} is {ref}")
            else:
                expect(kind == "none" and self.model.deep(ref) in (NONE, BROKEN, ANY), f"{line}: {name} is {ref}")
        return [int(name.partition(":")[2]) for name in descriptors if name.startswith("sender")]

    @staticmethod
    def of_stranger(number):
        return ("S" if number < FIRST_PROMISE else "T", number)

    def sends(self, line):
        kind, refs = line.split()[0], []
        if kind == "call":
            number, _, _, _, call, to, params = CALL.match(line).groups()
            expect(to == "caller", line)
            refs = self.model.calls[int(call, 16)].params
            mentions = self.describes(tag_of(params)[1], refs, line)
            expect(int(number) not in self.asked, f"question {number} is asked twice")
            self.asked[int(number)] = Question(int(call, 16), mentions=mentions)
        elif kind == "bootstrap":
            self.asked[int(line.split("=")[1])] = Question(None)
        elif kind == "return":
            refs = self.returns(line)
        elif kind == "finish":
            number, releases = FINISH.match(line).groups()
            question = self.asked[int(number)]
            expect(not question.is_finished and (question.is_returned or releases == "true"), line)
            question.is_finished = True
            if question.is_returned:
                del self.asked[int(number)]
        elif kind == "release":
            number, count = map(int, re.findall(r"=(\d+)", line))
            self.imports[number] -= count
            expect(self.imports[number] >= 0, f"released too often: {line}")
        elif kind == "resolve":
            number, how, value = RESOLVE.match(line).groups()
            # (An export that kept results alone name isn't known.)
            refs = [self.export_refs[int(number)] if self.exports[int(number)] else ANY]
            if how == "cap":
                self.describes([value], refs, line)
        else:
            expect(kind == "disembargo", f"it sent {line}")
        self.to_stranger.append((line, refs))

    def returns(self, line):
        answer, what, more = RETURN.match(line).groups()
        question = self.its_questions[int(answer)]
        expect(not question.is_returned and int(answer) not in self.results_of, f"answered twice: {line}")
        self.results_of[int(answer)] = []
        if what == "resultsSentElsewhere":
            expect(question.to == "yourself" and (question.is_taken or question.is_finished), line)
            self.owed_params.pop(int(answer), None)
            self.done["results sent elsewhere"] += 1
            return []
        expect(question.to == "caller", f"results to the caller: {line}")
        if what != "results":
            return []
        refs = [("Y", 0)] if question.is_bootstrap else self.model.outcome(question.call)[2]
        self.results_of[int(answer)] = self.describes(tag_of(more)[1], refs, line)
        return refs

    def hears(self, caps, refs, line):
        """The application is told names of references."""
        expect(len(caps) == len(refs), f"{line}: {len(refs)} capabilities")
        for name, ref in zip(caps, refs):
            kind, _, number = name.partition(":")
            if kind == "object":
                expect(self.model.same(("Y", int(number)), ref), f"{line}: {name} is {ref}")
            elif kind == "import":
                expect(self.model.same(self.of_stranger(int(number)), ref), f"{line}: {name} is {ref}")
            elif kind == "promise":
                if name in self.names:
                    expect(self.model.same(self.names[name], ref), f"{line}: {name} is {ref}")
                else:
                    self.names[name] = ref
            else:
                expect(self.model.deep(ref) in (NONE, BROKEN, ANY), f"{line}: {name} is {ref}")

    def delivers(self, object_number, origin, call, content):
        number = int(call, 16)
        self.comes(number, "Y", int(object_number))
        self.hears(tag_of(content)[1], self.model.calls[number].params, f"call {number}")
        self.delivered.append((origin, number))

    def settles(self, number, content):
        question = self.questions.get(int(number))
        expect(question and not question.is_finished and not question.is_returned, f"question {number} isn't open, and is settled")
        question.is_returned = True
        outcome = ("results", 0, [("S", 0)]) if question.is_bootstrap else self.model.outcome(question.call)
        if outcome == ANY:
            return
        expect(outcome, f"question {number} is settled, and nothing answered its call: {content}")
        if outcome[0] == "results":
            expect(content.startswith("{"), f"question {number} came to {content}, and not to {outcome}")
            tag, caps = tag_of(content)
            expect(tag == outcome[1], f"question {number} came to {tag}, and not to {outcome}")
            self.hears(caps, outcome[2], f"question {number}")
        else:
            expect(content.startswith(("exception", "canceled")), f"question {number} came to {content}, and not to {outcome}")

    def our_caps(self):
        known = [name for name in self.names if name.startswith("promise:")]
        imports = [f"import:{number}" for number, count in sorted(self.imports.items()) if count > 0]
        caps = [f"object:{self.random.randrange(4)}"] * 3 + self.random.sample(imports, min(3, len(imports))) * 2
        return caps + self.random.sample(known, min(2, len(known)))

    def our_ref(self, name):
        kind, _, number = name.partition(":")
        if kind == "import":
            return self.of_stranger(int(number))
        return ("Y", int(number)) if kind == "object" else NONE if kind == "none" else self.names[name]

    def some_of(self, caps):
        return [self.random.choice(caps) for _ in range(self.random.choice([0, 1, 1, 2]))]

    def our_call(self):
        paths = [number for number, question in self.questions.items() if not question.is_finished and not question.is_plain]
        targets = [name for name in self.our_caps() if not name.startswith("object")] or ["object:1"]
        chosen = self.random.choice(targets)
        target = self.our_ref(chosen)
        if paths and self.random.random() < 0.6:
            number = self.random.choice(paths[-3:])
            question = self.questions[number]
            index = self.random.choice([0, 0, 0, 1])
            chosen = f"question:{number}[{'' if question.is_bootstrap else index}]"
            target = ("S", 0) if question.is_bootstrap else ("R", question.call, index)
        caps = self.some_of(self.our_caps())
        number = self.new_call(("Y", chosen), target, [self.our_ref(cap) for cap in caps])
        answer = self.ours_asking(f"call {chosen} i={number:016x} m=1 {payload(0, caps)}", number)
        if answer.startswith("refused"):
            self.lanes["Y", chosen].remove(number)
            del self.model.calls[number]

    def ours_asking(self, event, call):
        """Asks a question, which may be settled at once."""
        question = Question(call)
        question.is_plain, question.is_bootstrap = self.random.random() < 0.3, call is None
        # The number isn't known before, and a call of an object of its own may be settled at once.
        settled, settles = [], self.settles
        self.settles = lambda *what: settled.append(what)
        try:
            answer = self.ours(event)
        finally:
            self.settles = settles
        if answer.startswith("question:"):
            number = int(answer.split(":")[1])
            old = self.questions.get(number)
            expect(old is None or old.is_finished, f"question {number} is given twice")
            self.questions[number] = question
            if call is None and number in self.asked:
                self.asked[number].is_bootstrap = True
        for what in settled:
            self.settles(*what)
        return answer

    def our_answer(self, plainly=False):
        if not self.delivered:
            return
        origin, number = self.delivered.pop(self.random.randrange(len(self.delivered)))
        caps = [] if plainly else [cap for cap in self.some_of(self.our_caps()) if not self.model.leads_to(self.our_ref(cap), number)]
        tag, chance = self.new_tag(), self.random.random()
        outcome, written = ("results", tag, [self.our_ref(cap) for cap in caps]), payload(tag, caps)
        if not plainly and chance < 0.1:
            outcome, written = ("failed",), 'exception failed "no"'
        self.model.calls[number].outcome = outcome
        asked = self.its_questions.get(int(origin.split(":")[1])) if origin.startswith("answer") else None
        question = int(origin.split(":")[1])
        if asked and asked.call == number and asked.to == "yourself" and outcome[0] == "results" and question not in self.finished:
            self.hidden[question] = outcome[2]
        if self.ours(f"answer {origin} {written}").startswith("refused"):
            self.model.calls[number].outcome = None
            self.hidden.pop(question, None) if asked else None
            self.delivered.append((origin, number))

    def our_promise(self):
        name = self.ours("promise")
        self.names[name] = ("P", self.new_tag())
        self.promises[name] = False

    def our_resolve(self, plainly=False):
        for name in [name for name, is_resolved in self.promises.items() if not is_resolved][:1]:
            cap = "object:1" if plainly else self.random.choice(self.our_caps() + ["none"] * (self.random.random() < 0.2))
            ref, promise = self.our_ref(cap), self.names[name]
            if self.model.leads_to(ref, promise):
                return
            self.model.values[promise] = ref
            if self.ours(f"resolve {name} {cap}").startswith("refused"):
                del self.model.values[promise]
            else:
                self.promises[name] = True

    def our_give_up(self):
        open_ones = [number for number, question in self.questions.items() if not question.is_finished]
        if open_ones and self.random.random() < 0.6:
            self.our_finish(self.random.choice(open_ones))
        else:
            for event in self.idle()[:2]:
                self.our_drop(event)

    def our_finish(self, number):
        question = self.questions[number]
        if question.call is not None and not question.is_returned:
            self.model.calls[question.call].is_given_up = True
        if self.ours(f"finish question:{number}") == "nothing":
            question.is_finished = True
        elif question.call is not None:
            self.model.calls[question.call].is_given_up = False

    def idle(self):
        told = re.fullmatch(r"imports\[(.*)\] promises\[(.*)\]", self.player.play("A?", "idle")[0])
        imports, promises = (numbers.split(",") if numbers else [] for numbers in told.groups())
        return [f"release import:{i}" for i in imports] + [f"forget promise:{p}" for p in promises]

    def our_drop(self, event):
        if self.ours(event) == "nothing" and event.startswith("forget"):
            name = event.split()[1]
            self.names.pop(name, None)
            self.promises.pop(name, None)

    def ours_takes(self):
        if not self.to_ours:
            return
        line, mentions = self.to_ours.pop(0)
        kind, numbers = line.split()[0], list(map(int, re.findall(r"[=: ](\d+)(?: |$)", line)))
        if kind in ("call", "bootstrap"):
            number = int(re.search(r"q=(\d+)", line).group(1))
            self.results_of.pop(number, None)
            self.finished.discard(number)
            self.imports.update(mentions)
        elif kind == "return":
            asked = self.asked[numbers[0]]
            if not asked.is_finished:
                self.imports.update(mentions)
            for export in asked.mentions if "releaseParamCaps=true" in line else []:
                self.lower(export, 1)
            if "takeFromOtherQuestion" in line and "releaseParamCaps=true" in line:
                self.owed_params[numbers[1]] = asked.mentions
            asked.is_returned = True
            if asked.is_finished:
                del self.asked[numbers[0]]
        elif kind == "resolve":
            self.imports.update(mentions)
        elif kind == "release":
            self.lower(numbers[0], numbers[1])
        elif kind == "finish":
            for export in self.results_of.pop(numbers[0], []) if line.endswith("true") else []:
                self.lower(export, 1)
            self.results_of.pop(numbers[0], None)
            self.hidden.pop(numbers[0], None)
            self.finished.add(numbers[0])
        self.ours(f"< {line}")

    def lower(self, export, count):
        self.exports[export] -= count
        expect(self.exports[export] >= 0, f"the stranger lowers export {export} too far")
