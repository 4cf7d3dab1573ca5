"""The stranger of tails.py: what it holds, what it does as rpc.capnp lets it, and how it takes messages."""
import re
from collections import Counter

from model import ANY, CALL, DISEMBARGO, FINISH, FIRST_PROMISE, NONE, RESOLVE, RETURN, Answer, Question, payload, tag_of
from program import expect


class Stranger:
    def __init__(self):
        self.its_exports, self.its_imports, self.import_refs = Counter(), Counter(), {}
        self.its_questions, self.its_answers, self.pending = {}, {}, []
        self.its_promises, self.pins, self.waiting_calls = {}, Counter(), {}
        self.tails, self.embargoes = {}, set()  # (tails: of each answer the question whose results it is to take)

    # The stranger, as it asks.

    def stranger_caps(self):
        imports = [("import", number) for number, count in sorted(self.its_imports.items()) if count > 0]
        promises = [("promise", number) for number in self.its_promises]
        paths = [("path", number, 0) for number, question in self.its_questions.items() if not question.is_finished]
        caps = [("own", self.random.randrange(4))] * 3 + self.random.sample(imports, min(3, len(imports))) * 2
        return caps + self.random.sample(promises, min(2, len(promises))) + self.random.sample(paths, min(1, len(paths)))

    def its_ref(self, cap):
        if cap[0] == "path":
            question = self.its_questions[cap[1]]
            return ("Y", 0) if question.is_bootstrap else ("R", question.call, cap[2])
        return {"own": ("S", cap[-1]), "promise": ("T", cap[-1]), "import": self.import_refs.get(cap[-1])}.get(cap[0], NONE)

    def leads_to(self, cap, call):
        return self.model.leads_to(self.its_ref(cap), call)

    def settled_cap(self, cap):
        """What a promise of the stranger's came to."""
        while cap[0] == "promise" and self.its_promises[cap[1]] is not None:
            cap = self.its_promises[cap[1]]
        return cap

    def describe(self, cap):
        """A descriptor, and the exports that it names."""
        cap = self.settled_cap(cap)
        if cap[0] in ("own", "promise"):
            self.its_exports[cap[1]] += 1
            return f"{'senderHosted' if cap[0] == 'own' else 'senderPromise'}:{cap[1]}", [cap[1]]
        if cap[0] == "import":
            expect(self.its_imports[cap[1]] > 0, f"the stranger names import {cap[1]}, which it doesn't hold")
            return f"receiverHosted:{cap[1]}", []
        if cap[0] == "path":
            return f"receiverAnswer:{cap[1]}[{'' if self.its_questions[cap[1]].is_bootstrap else cap[2]}]", []
        return "none", []

    def described(self, caps):
        pairs = [self.describe(cap) for cap in caps]
        return [name for name, _ in pairs], [number for _, numbers in pairs for number in numbers]

    def a_number(self):
        free = [number for number in range(len(self.its_questions) + 4) if number not in self.its_questions]
        return self.random.choice(free[:1] * 3 + free)

    def ask(self, cap, number, params, to, passes=None):
        """Sends a call on an import or a path, and gives the question's number."""
        question = self.a_number()
        target = f"import:{cap[1]}" if cap[0] == "import" else f"answer:{cap[1]}[{'' if self.its_questions[cap[1]].is_bootstrap else cap[2]}]"
        names, mentions = self.described(params)
        self.its_questions[question] = Question(number, to, passes)
        content = payload(0, names)
        self.to_ours.append((f"call q={question} to={target} i={number:016x} m=1 results={to} params={content}", mentions))
        self.done[f"stranger calls, results to {to}"] += 1
        return question

    def its_call(self):
        targets = [cap for cap in self.stranger_caps() if cap[0] in ("import", "path")]
        if not targets or self.random.random() < 0.05:
            question = self.a_number()
            self.its_questions[question] = Question(None)
            self.its_questions[question].is_bootstrap = True
            self.to_ours.append((f"bootstrap q={question}", []))
            return
        target, params = self.random.choice(targets), self.some_of(self.stranger_caps())
        number = self.new_call(("S", target), self.its_ref(target), [self.its_ref(cap) for cap in params])
        self.ask(target, number, params, "yourself" if self.random.random() < 0.1 else "caller")

    def its_promise(self):
        self.its_promises[FIRST_PROMISE + len(self.its_promises)] = None

    def its_resolve(self, plainly=False):
        for number in [number for number, value in self.its_promises.items() if value is None][:1]:
            choices = [cap for cap in self.stranger_caps() if cap[0] in ("own", "import")] + [("none",)] * (self.random.random() < 0.2)
            cap = ("own", 1) if plainly else self.random.choice(choices)
            if self.model.leads_to(self.its_ref(cap), ("T", number)):
                return
            self.its_promises[number] = cap
            self.model.values["T", number] = self.its_ref(cap)
            if cap[0] == "import":
                self.pins[cap[1]] += 1
            if self.its_exports[number]:
                name, mentions = self.describe(cap)
                value = 'exception failed "gone"' if name == "none" else f"cap {name}"
                self.to_ours.append((f"resolve p={number} {value}", mentions))
            self.flush(("promise", number), cap)

    # The stranger, as it is called. What waits for a promise or an answer of its own is kept there, in order.

    def route(self, item, cap):
        """A call, or a Disembargo, goes where this leads."""
        cap = self.settled_cap(cap)
        if cap[0] == "promise":
            return self.waiting_calls.setdefault(cap[1], []).append(item)
        if cap[0] == "answer":
            answer = self.its_answers[cap[1]]
            if answer.value is None:
                return answer.waiting.append((item, cap[2]))
            return self.route(item, self.at(answer, cap[2]))
        if item[0] == "disembargo":
            expect(cap[0] in ("import", "path"), f"a Disembargo of what is {cap}")
            target = f"import:{cap[1]}" if cap[0] == "import" else f"answer:{cap[1]}[{cap[2]}]"
            self.to_ours.append((f"disembargo to={target} receiverLoopback {item[1]}", []))
            return None
        return self.route_call(item[1], cap)

    @staticmethod
    def at(answer, index):
        if answer.value[0] == "path":
            return ("path", answer.value[1], index)
        caps = answer.value[1] if answer.value[0] == "results" else []
        return caps[index] if index < len(caps) else ("none",)

    def flush(self, place, cap=None):
        if place[0] == "promise":
            for item in self.waiting_calls.pop(place[1], []):
                self.route(item, cap)
        else:
            answer = self.its_answers[place[1]]
            waiting, answer.waiting = answer.waiting, []
            for item, index in waiting:
                self.route(item, self.at(answer, index))

    def route_call(self, number, cap):
        answer = self.its_answers[number]
        if cap[0] == "own":
            self.comes(answer.call, "S", cap[1])
            self.pending.append(number)
            self.unpin(answer)
        elif cap[0] in ("import", "path"):
            self.model.calls[answer.call].bounced |= cap[0] == "path"
            self.model.calls[answer.call].came_back = True
            self.pass_on(number, cap)
        else:
            self.unpin(answer)
            self.its_return(number, "failed")

    def unpin(self, answer):
        self.pins.subtract(answer.pinned)
        answer.pinned = []

    def pass_on(self, number, cap):
        """A call goes back to our end: its results are passed on, or it is a tail call."""
        answer = self.its_answers[number]
        to = self.random.choice(["caller", "yourself", "yourself"])
        question = self.ask(cap, answer.call, answer.params, to, number)
        self.unpin(answer)
        if to == "yourself":
            self.take_results(number, question)

    def take_results(self, number, question):
        """The answer takes the results of a question."""
        answer = self.its_answers[number]
        self.its_questions[question].is_taken = True
        self.its_questions[question].passes = number
        self.to_ours.append((f"return a={number} releaseParamCaps={self.releases(answer.params)} takeFromOtherQuestion {question}", []))
        self.done["takes"] += 1
        answer.value, answer.is_returned = ("path", question), True
        self.flush(("answer", number))
        self.end_answer(number)

    def its_return(self, number, how, tag=0, caps=()):
        """Answers a call."""
        answer = self.its_answers[number]
        if answer.is_finished:
            written, mentions, value = "canceled", [], ("failed",)
        elif how == "results":
            names, mentions = self.described(caps)
            answer.mentions = mentions
            answer.pinned = [cap[1] for cap in map(self.settled_cap, caps) if cap[0] == "import"]
            self.pins.update(answer.pinned)
            written, value = f"results {payload(tag, names)}", ("results", list(caps))
        else:
            written, mentions, value = 'exception failed "not so"', [], ("failed",)
        self.to_ours.append((f"return a={number} releaseParamCaps={self.releases(answer.params)} {written}", mentions))
        answer.value, answer.is_returned = value, True
        self.flush(("answer", number))
        self.end_answer(number)

    def releases(self, caps):
        """Whether it gives back at once what was named to it here."""
        counts = Counter(cap[1] for cap in caps or [] if cap[0] == "import")
        may = all(self.its_imports[number] - count >= (self.pins[number] > 0) for number, count in counts.items())
        if self.is_still or not may or self.random.random() < 0.6:
            return "false"
        self.its_imports.subtract(counts)
        return "true"

    def end_answer(self, number):
        answer = self.its_answers[number]
        if answer.is_returned and answer.is_finished:
            self.unpin(answer)
            del self.its_answers[number]

    def its_answer(self, plainly=False):
        """An object of the stranger's answers a call, or passes it on as a tail call."""
        if not self.pending:
            return
        number = self.pending.pop(self.random.randrange(len(self.pending)))
        answer, chance = self.its_answers[number], self.random.random()
        call = self.model.calls[answer.call]
        if number in self.tails:
            return self.end_tail(number)
        targets = [cap for cap in self.stranger_caps() if cap[0] in ("import", "path") and not self.leads_to(cap, answer.call)]
        if targets and not plainly and chance < 0.6:
            return self.begin_tail(number, self.random.choice(targets))
        if chance > 0.95 and not plainly:
            call.outcome = ("failed",)
            return self.its_return(number, "failed")
        caps = [cap for cap in self.some_of(self.stranger_caps()) if cap[0] != "path" and not plainly and not self.leads_to(cap, answer.call)]
        tag = self.new_tag()
        call.outcome = ("failed",) if answer.is_finished else ("results", tag, [self.its_ref(cap) for cap in caps])
        self.its_return(number, "results", tag, caps)

    def begin_tail(self, number, target):
        params = self.some_of(self.stranger_caps())
        call = self.new_call(("S", target), self.its_ref(target), [self.its_ref(cap) for cap in params])
        self.tails[number] = self.ask(target, call, params, "yourself", number)
        if self.random.random() < 0.6:
            self.end_tail(number)
        else:
            self.pending.append(number)

    def end_tail(self, number):
        question = self.tails.pop(number)
        answer = self.its_answers[number]
        asked = self.its_questions[question]
        call = self.model.calls[answer.call]
        # (What the tail call is on may lead to this very call by now.)
        is_circle = self.model.leads_to(("R", asked.call, 0), answer.call)
        if is_circle or not self.is_still and self.random.random() < 0.15:
            # The results are given up, and the call is answered otherwise.
            call.outcome = ("failed",)
            asked.passes = None
            if not self.is_still:
                self.its_finish(question)
            self.its_return(number, "failed")
        else:
            call.passed_to = asked.call
            self.take_results(number, question)

    def its_finish(self, number):
        question = self.its_questions[number]
        if question.call is not None and not question.is_returned:
            self.model.calls[question.call].is_given_up = True
        # (To a tail call neither is wrong: it never got the results.)
        if question.to == "yourself":
            releases = self.random.choice(["true", "false"])
        else:
            releases = self.releases(question.caps) if question.is_returned else "true"
        self.to_ours.append((f"finish q={number} releaseResultCaps={releases}", []))
        question.is_finished = True
        if question.is_returned:
            del self.its_questions[number]

    def its_give_up(self):
        free = [number for number, question in self.its_questions.items() if self.may_finish(question)]
        if free and self.random.random() < 0.6:
            return self.its_finish(self.random.choice(free))
        held = [number for number, count in self.its_imports.items() if count > (self.pins[number] > 0)]
        if held:
            number = self.random.choice(held)
            self.its_release(number, self.random.randrange(1, self.its_imports[number] - (self.pins[number] > 0) + 1))
        return None

    def may_finish(self, question):
        """Nobody needs its paths: the answer that takes its results is finished, or our end never used that's paths."""
        return not question.is_finished and (question.passes is None or question.passes not in self.its_answers)

    def its_release(self, number, count):
        self.its_imports[number] -= count
        self.to_ours.append((f"release id={number} count={count}", []))

    # The stranger takes a message.

    def gets(self, descriptors, refs):
        """What it is given, in its own terms."""
        caps = []
        for name, ref in zip(descriptors, refs):
            kind, _, number = name.partition(":")
            if kind.startswith("sender"):
                self.its_imports[int(number)] += 1
                self.import_refs[int(number)] = ref
                caps.append(("import", int(number)))
            elif kind == "receiverHosted":
                expect(self.its_exports[int(number)] > 0, f"{name} was released")
                caps.append(("own" if int(number) < FIRST_PROMISE else "promise", int(number)))
            else:
                expect(kind == "none", f"the stranger gets {name}")
                caps.append(("none",))
        return caps

    def stranger_takes(self):
        if not self.to_stranger:
            return
        line, refs = self.to_stranger.pop(0)
        self.history.append(f"stranger takes {line}")
        kind = line.split()[0]
        getattr(self, f"its_{kind}_comes")(line, refs)

    def its_bootstrap_comes(self, line, _):
        number = int(line.split("=")[1])
        expect(number not in self.its_answers, f"answer {number} is in use")
        answer = self.its_answers[number] = Answer(None)
        self.its_exports[0] += 1
        answer.value, answer.is_returned, answer.mentions = ("results", [("own", 0)]), True, [0]
        self.to_ours.append((f"return a={number} releaseParamCaps=false results {{cap:0 caps[senderHosted:0]}}", [0]))

    def its_call_comes(self, line, refs):
        number, kind, at, path, call, _, content = CALL.match(line).groups()
        number, at = int(number), int(at)
        expect(number not in self.its_answers, f"answer {number} is in use: {line}")
        answer = self.its_answers[number] = Answer(int(call, 16))
        answer.params = self.gets(tag_of(content)[1], refs)
        answer.pinned = [cap[1] for cap in answer.params if cap[0] == "import"]
        self.pins.update(answer.pinned)
        if kind == "import":
            expect(self.its_exports[at] > 0, f"export {at} of the stranger was released: {line}")
            return self.route(("call", number), ("own" if at < FIRST_PROMISE else "promise", at))
        expect(at in self.its_answers, f"no answer {at} of the stranger: {line}")
        return self.route(("call", number), ("answer", at, int(path or 0)))

    def its_return_comes(self, line, refs):
        number, what, more = RETURN.match(line).groups()
        number = int(number)
        question = self.its_questions[number]
        question.is_returned = True
        if what == "results" and not question.is_finished:
            tag, names = tag_of(more)
            question.caps = self.gets(names, refs)
            outcome = None if question.is_bootstrap else self.model.outcome(question.call)
            is_right = question.is_bootstrap or outcome == ANY or outcome[:2] == ("results", tag)
            expect(is_right, f"call {question.call} came to {tag}, and not to {outcome}")
        elif what != "resultsSentElsewhere" and not question.is_finished:
            outcome = self.model.outcome(question.call)
            expect(outcome and outcome[0] in ("failed", "any"), f"call {question.call} came to {line}, and not to {outcome}")
        if question.to == "caller" and question.passes is not None and question.passes in self.its_answers:
            self.relay_results(question, what)
        if question.is_finished:
            del self.its_questions[number]

    def relay_results(self, question, what):
        number, question.passes = question.passes, None
        if what != "results":
            return self.its_return(number, "failed")
        outcome = self.model.outcome(question.call)
        return self.its_return(number, "results", outcome[1] if outcome != ANY else 0, question.caps)

    def its_finish_comes(self, line, _):
        number, releases = FINISH.match(line).groups()
        answer = self.its_answers[int(number)]
        answer.is_finished = True
        for export in answer.mentions if releases == "true" else []:
            self.its_exports[export] -= 1
        self.end_answer(int(number))

    def its_release_comes(self, line, _):
        number, count = map(int, re.findall(r"=(\d+)", line))
        self.its_exports[number] -= count
        expect(self.its_exports[number] >= 0, f"our end releases too many: {line}")

    def its_resolve_comes(self, line, refs):
        number, how, value = RESOLVE.match(line).groups()
        if how == "exception":
            return
        is_held = self.its_imports[int(number)] > 0
        (cap,) = self.gets([value], refs)
        if cap[0] == "import" and not is_held:
            self.its_release(cap[1], 1)
        elif cap[0] == "own" and is_held and self.random.random() < 0.5:
            embargo = self.new_tag()
            self.embargoes.add(embargo)
            self.to_ours.append((f"disembargo to=import:{number} senderLoopback {embargo}", []))

    def its_disembargo_comes(self, line, _):
        kind, at, path, how, number = DISEMBARGO.match(line).groups()
        if how == "receiverLoopback":
            expect(int(number) in self.embargoes, line)
            return self.embargoes.discard(int(number))
        if kind == "import":
            return self.route(("disembargo", number), ("own" if int(at) < FIRST_PROMISE else "promise", int(at)))
        expect(int(at) in self.its_answers, f"no answer {at} of the stranger: {line}")
        return self.route(("disembargo", number), ("answer", int(at), int(path or 0)))
