#!/usr/bin/env python3
"""tools/unused_lemmas.py [CRATE..]    lists what is declared in proofs/ of these crates, or of all, and reached from no answer, no invariant
                                     and no definition of any crate. It reads names alone: a name that occurs twice may hide one."""
import collections
import os
import re
import sys

ANSWERS = ("Answers.antt", "Invariants.antt", "Proof.antt")
HEAD = re.compile(r"(?:(?:pub|abbrev|data|record|unfoldable)\s+)*([A-Za-z][^\s(){}:.,;]*)(?=[\s:({]|$)")
IMPORT = re.compile(r"^(?:pub )?use\s+([\w.]+)\.\{([^}]*)\}", re.M)
WHOLE = re.compile(r"^(?:pub )?use\s+([\w.]+?)(?:\s+as\s+(\w+))?\s*$", re.M)
WORD = re.compile(r"[^\s(){}\[\],;.λ]+")
DOTTED = re.compile(r"([A-Za-z_][\w.]*)\.([^\s(){}\[\],;.]+)")


class File:
    """A file's declarations, each with its lines, and what it brings in."""

    def __init__(self, path, text):
        self.path = path
        self.imports = {}
        for module, names in IMPORT.findall(text):
            for name in filter(None, map(str.strip, names.split(","))):
                of, _, put = name.partition(" as ")
                self.imports[(put or of).strip()] = module, of.strip()
        self.modules = {put or module.rpartition(".")[2]: module for module, put in WHOLE.findall(text)}
        self.declared = collections.defaultdict(list)
        self.read(re.sub(r"^(?:pub )?use [^\n{]*(?:\{[^}]*\})?", "", text, flags=re.M))

    def read(self, text):
        depth, name = 0, "*"  # declarations of an open section begin at this depth
        for line in text.split("\n"):
            words = line.strip()
            if not words or words.startswith(("--", "pub mod ", "mod ")):
                continue
            begins = len(line) - len(line.lstrip())
            depth = min(depth, begins - begins % 2)
            if begins == depth:
                is_section = words == "mutual" or words.startswith("module ")
                head = HEAD.match(words)
                name = "*" if is_section else head[1] if head and not words.startswith("unfolding ") else name
                depth += 2 * is_section
            self.declared[name].append(words)


def files_of(root):
    """All files of antt, by their modules."""
    found = {}
    for crate in sorted(os.listdir(f"{root}/crates")):
        for part in ("proofs", "specs"):
            for at, _, names in os.walk(f"{root}/crates/{crate}/{part}"):
                for name in filter(lambda it: it.endswith(".antt"), names):
                    path = os.path.relpath(f"{at}/{name}", f"{root}/crates")
                    with open(f"{at}/{name}") as it:
                        found["Rattle." + path[:-5].replace("/", ".")] = File(path, it.read())
    return found


def named_by(file, lines, found):
    """The declarations that these lines may name."""
    text = "\n".join(re.sub(r"(^|\s)--.*", "", it) for it in lines)
    for word in set(WORD.findall(text)):
        if word in file.declared:
            yield file, word
        module, name = file.imports.get(word, ("", ""))
        if module in found and name in found[module].declared:
            yield found[module], name
    for module, name in DOTTED.findall(text):
        other = found.get(file.modules.get(module, module))
        if other and name in other.declared:
            yield other, name


def main(crates):
    found = files_of(os.path.dirname(os.path.dirname(os.path.abspath(__file__))))
    waiting = []
    for file in found.values():
        is_root = file.path.endswith(ANSWERS) or "/specs/" in file.path
        waiting += [(file, name) for name in file.declared if is_root or name == "*"]
    reached = set(waiting)
    while waiting:
        file, name = waiting.pop()
        for it in named_by(file, file.declared[name], found):
            if it not in reached:
                reached.add(it)
                waiting.append(it)
    unused = 0
    for file in found.values():
        names = [it for it in file.declared if (file, it) not in reached]
        if names and (not crates or file.path.split("/")[0] in crates):
            print(f"crates/{file.path}: {' '.join(names)}")
            unused += len(names)
    return 1 if unused else 0


if __name__ == "__main__":
    sys.exit(main(sys.argv[1:]))
