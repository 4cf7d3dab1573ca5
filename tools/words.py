#!/usr/bin/env python3
"""tools/words.py    lists old names of types, calls and crates that came back, each with what it is called now.

It reads the sources, the documents and the scripts of the repository, without CHANGELOG.md. A word that is plain English
is looked for as code alone: before `(`, `<` or `::`, or in backticks. The status is 1 where something is listed.
"""
import pathlib
import re
import subprocess
import sys

TOP = pathlib.Path(__file__).resolve().parent.parent
READ = re.compile(r"\.(rt|rs|antt|in|edit|md|py|sh|txt|capnp|c|h|cpp|hpp)$|/Makefile$")
SKIPPED = re.compile(r"^(docs/CHANGELOG\.md|tools/words\.py|bench/history\.tsv)$")

# Names, with what they are called now.
NAMES = {
    "Any2": "Either",
    "AskQueue": "CallQueue",
    "Crowd": "WhenFull",
    "Deed": "ObjectEffect",
    "DispatchEvent": "SessionEvent",
    "DraftFault": "BuildError",
    "Family": "Objects",
    "HallKind": "ObjectTableKind",
    "HostPlan": "HostConfig",
    "Maker": "ServedObject",
    "MakerKind": "ServedObjectKind",
    "Newcomer": "NewCap",
    "Pledge": "PromiseRequest",
    "Pointee": "PointerReader",
    "StreamingFault": "CallError",
    "StructDraft": "StructBuilder",
    "StructsDraft": "StructListBuilder",
    "Underway": "PendingCall",
    "any_again": "any_has_more",
    "cp_interface_objects": "cp_interfaces",
    "cp_makers": "cp_objects",
    "cp_services": "cp_interfaces",
    "cp_stubs": "cp_interfaces",
    "kin_of": "objects_of",
}
# The same of words that are plain English too: what they stand before or after as code, and what they are called now.
CODE = {
    r"\bHere(?=<|::|`)": "Context",
    r"\bhere(?=: &mut)": "context",
    r"\bHall(?=>|::|`|<)": "ObjectTable",
    r"\bNews(?=::|`| \{)": "HostEvent",
    r"\bAsk(?=>|`| \{)": "OutgoingCall",
    r"\bPast(?=<|::|`)": "UnknownEnumerant",
    r"\bHappening(?=::|`|>)": "ConnectionEvent",
    r"\bNotice(?=::|`|>)": "SessionEvent",
    r"\bTally(?=`| \{)": "ConnectionStats",
    r"\.tally\(\)": "stats()",
    r"\.hall\(\)": "object_table()",
    r"\bclient::Stream\b": "client::CallWindow",
    r"`(?:Promised|Table::\w+)`": "`Pipeline`, `CapTableBuilder::..`",
    r"\bSheet(?=::|<|`)": "Arena",
    r"\bfn (again(?=\(&self\))|told(?=\(&mut self, (mark|call_id))|ask(?=\(&mut self, (here|context|_))|tell(?=\(&mut self, ask))": "has_more, on_response, next_call, send",
    r"\.again\(\)": "has_more() or reborrow()",
    r"\b(?!Message|Call|Return|Returned|Resolve|Resolution|Target|Descriptor|Payload|CapTable|Transform|PromisedAnswer|Disembargo|Exception|Request|SendResultsTo|Answers)"
    r"[A-Z]\w*View(?=<|::|`)": "a Reader",
    r"\b[A-Z]\w+Draft(?=::|`| \{)": "a Builder",
    r"\b[A-Z][a-z]\w+(?<!BoxDyn)Servant(?= \{|::|<)": "a Dispatch",
}
# Where a word is another's: schemas of tests have names of their own, and rpc.capnp's words stay.
KEPT = [
    (r"^nightly/(interfaces|fuzz|tails)/", r"\bMaker\b"),
    (r"^nightly/peers/", r"."),
    (r"^nightly/fuzz/", r"\bTally\b"),
    (r"^crates/cp_vat_pair_laws/", r"\bTally\b"),
]


# (a pattern is tried in files that have one of its words, or a word with one of these endings)
WORD = re.compile(r"\w+")
ENDINGS = ("View", "Draft", "Servant")


def looks_at(text):
    """The old words that may stand in a text, each with its new one."""
    words = {*WORD.findall(text)}
    for old in words & NAMES.keys():
        yield re.compile(rf"\b{old}\b"), NAMES[old]
    endings = {it for it in ENDINGS for word in words if word.endswith(it)}
    for old, new in CODE.items():
        if not (words | endings).isdisjoint(WORD.findall(old.replace(r"\b", " "))):
            yield re.compile(old), new


def main():
    names = subprocess.run(["git", "ls-files"], cwd=TOP, capture_output=True, text=True, check=True).stdout.splitlines()
    found = 0
    for name in names:
        if not READ.search(name) or SKIPPED.search(name) or not (TOP / name).is_file():
            continue
        kept = [re.compile(word) for where, word in KEPT if re.search(where, name)]
        text = (TOP / name).read_text(encoding="utf-8", errors="replace")
        for look, new in looks_at(text):
            for m in look.finditer(text):
                if not any(k.search(m[0]) for k in kept):
                    print(f"{name}:{text.count(chr(10), 0, m.start()) + 1}: {m[0]}: {new}")
                    found += 1
    return found > 0


sys.exit(main())
