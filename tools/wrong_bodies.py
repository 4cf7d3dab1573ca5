#!/usr/bin/env python3
"""tools/wrong_bodies.py [--all] [--record] [--list] [CRATE..]    tries wrong bodies and definitions: the prover must refuse each.

It tries the edits of each crate that changed since they were last tried, or whose libraries did, and of a quarter of the other
crates, by the hash of the commit. If crates are named, it tries those of these alone.

  --all     tries those of all crates, as before a release
  --record  writes the sums of the crates whose edits were all refused into tools/tried_edits.txt
  --list    lists what it would try

By an edit of crates/CRATE/wrong-bodies/ a function does something else than its contract says. The file's name is the
function's path, with dots, and what is wrong then. An edit of wrong-definitions/ changes what the crate's laws rest on.
Both are written as rt's must-fail edits are, and tried over the libraries that rt ci built, or else tools/build.sh.

A proof rests on the contracts of the functions that are called, and on no body. So one check tries several bodies, each of
another function. The crate's other functions stand by their contracts: rt ci has proved them, so their proofs are holes in this
check. Functions that call one another have one proof, and keep it. All that is refused has to be the proof of a function with
an edit, so refusals are due to the edits. Definitions are tried by `rt must-fail` in a copy, each over all proofs of its crate.

The last line is 'N passed, M failed'. The status is 1 where an edit wasn't refused, can't be applied or wasn't tried.
"""
import argparse
import concurrent.futures
import hashlib
import os
import pathlib
import re
import shutil
import subprocess
import sys
import tempfile

TOP = pathlib.Path(__file__).resolve().parent.parent
BODIES, DEFINITIONS = "wrong-bodies", "wrong-definitions"
SUMS = TOP / "tools/tried_edits.txt"
sys.dont_write_bytecode = True
sys.path.insert(0, os.path.dirname(os.path.realpath(shutil.which("rt") or sys.exit("rt isn't in PATH"))))
import rtlib

FUNCTION = re.compile(r"^( *)(?:pub(?:\(\w+\))? )?(?:const )?(?:extern \"C\" )?fn (\w+)", re.M)
TYPE = re.compile(r"^(?:pub(?:\(\w+\))? )?(?:struct|enum) (\w+)", re.M)
# (those of a type with other arguments than parameters, as `Client<R, W, Nobody>`, have longer paths, and keep their proofs)
METHODS = re.compile(r"impl(?:<.*>)? (\w+)(?:<'?\w(?:, '?\w)*>)?(?: \{)?")
# what is said where a proof names what the edit took away: that says little of the contract
NAMES = re.compile(r"has no field|is not in scope|has no `|was not admitted")


class Edit:
    """A change of a function's body or of a definition, what was said of it, and whether that is the prover's refusal."""

    def __init__(self, file):
        self.file, self.kind, self.label = file, file.parent.name, f"{file.parts[-3]}/{file.stem}"
        self.function = file.stem.rpartition(".")[0].replace(".", "::")
        self.said, self.is_refused = "", False

    def apply(self, room):
        """Changes a copy of the crate."""
        (file, *_), *pairs = re.findall(r"^(?:file: (.+)|old: (.+)\nnew: ?(.*))$", self.file.read_text(), re.M) or [("", "", "")]
        for _, old, new in pairs or [("", "", "")]:
            text = (room / file).read_text()
            if text.count(old) != 1 or old == new:
                raise ValueError(f"its old text stands {text.count(old)} times in {file}, or is the new one")
            if not is_in_body(text, text.index(old), self.function.rpartition("::")[2]):
                raise ValueError(f"its old text isn't in the body of {self.function}")
            (room / file).write_text(text.replace(old, new))

    def judge(self, verdict, errors):
        """By the line that a check has for the function, and by its errors."""
        own = own_errors(self.function, errors)
        told = [it for it in own if not NAMES.search(it)] if verdict.startswith("not proved") else []
        # (of a function that has no proof file, whose proof is a search)
        told += [it for it in [verdict] if it.startswith("no proof") and "`search` did not prove" in it]
        self.is_refused = bool(told)
        self.said = f"refused: {told[0]}" if told else f"NOT REFUSED: {verdict} {' '.join(own[:1])}"


def is_in_body(text, at, name):
    """Whether a place is in the body of a function of this name: a change there leaves all contracts as they are."""
    heads = [it for it in FUNCTION.finditer(text) if it.start() < at]
    if not heads or heads[-1][2] != name:
        return False
    above = text[heads[-1].start() : at].split("\n")[:-1]
    return any(line.endswith("{") for line in above) and f"{heads[-1][1]}}}" not in above


def functions_of(folder):
    """The paths of a crate's functions that have a proof of their own: those of modules and types, but for cycles of calls.

    A function that calls itself is a cycle too. Its proof lies in a folder with + before its name."""
    is_cycle = lambda path: folder.parent.joinpath("proofs", *path[:-1], f"+{path[-1]}").is_dir()
    module_of = lambda file: () if file.stem in ("lib", "main") else file.relative_to(folder).with_suffix("").parts
    texts = {module_of(it): it.read_text() for it in folder.rglob("*.rt")}
    types = {name: (*module, name) for module, text in texts.items() for name in TYPE.findall(text)}
    for module, text in texts.items():
        owner, marks = None, ""
        for line in text.split("\n"):
            head, methods = FUNCTION.match(line), METHODS.fullmatch(line)
            if head and not re.search(r"#\[(cycle|test|cfg)", marks) and (not head[1] or owner and len(head[1]) == 4):
                path = (*(owner if head[1] else module), head[2])
                if not is_cycle(path):
                    yield path
            marks = marks + line if line.lstrip().startswith("#[") else ""
            # (of a trait's function there is a proof for each type that has it)
            owner = types.get(methods[1]) if methods else None if re.match(r"[a-z]", line) else owner


def leave_out(crate, room, tried):
    """Makes holes of the proofs of all functions of a copy of the crate but these."""
    for path in functions_of(room / "src"):
        folder, proof = room.joinpath("proofs", *path), f"{path[-1]}_spec"
        if "::".join(path) not in tried:
            folder.mkdir(parents=True, exist_ok=True)
            for answers in ("Invariants.antt", "Answers.antt"):
                folder.joinpath(answers).unlink(missing_ok=True)
            statement = f"use Rattle.{crate.name}.proofs.{'.'.join(path)}.Statement.{{statement}}\n\n"
            folder.joinpath("Proof.antt").write_text(f"{statement}pub {proof} : {{M : Type 1}} → statement M\n{proof} = ?\n")


def run(words, room, **environment):
    """The status of a command, the lines that it said, and the processor seconds that it took."""
    with tempfile.TemporaryFile("w+", errors="replace") as out:
        how = {"stdin": subprocess.DEVNULL, "stdout": out, "stderr": out, "env": {**os.environ, **environment}}
        ran = subprocess.Popen([*rtlib.guarded(), *words], cwd=room, **how)
        _, status, used = os.wait4(ran.pid, 0)
        ran.returncode = os.waitstatus_to_exitcode(status)
        out.seek(0)
        return ran.returncode, out.read().splitlines(), used.ru_utime + used.ru_stime


def check(crate, room, only):
    """Checks these functions."""
    words = crate.words(["--jobs", "1", "--allow-holes"], keeps=False)
    return run([rtlib.RATTLE, "check", *words, *[f"--only={it}" for it in only]], room)


def copy_sources(crate, to):
    for part in rtlib.PARTS:
        if os.path.isdir(f"{crate.folder}/{part}"):
            shutil.copytree(f"{crate.folder}/{part}", f"{to}/{part}")


def try_bodies(crate, edits):
    """Tries edits of different functions, and gives the processor seconds that it took."""
    with tempfile.TemporaryDirectory(prefix=f"rt-edit-{os.getpid()}-") as room:
        copy_sources(crate, room)
        for it in edits:
            try:
                it.apply(pathlib.Path(room))
            except (OSError, ValueError) as why:
                it.said = f"BAD EDIT: {why}"
        tried = {it.function: it for it in edits if not it.said}
        others = [it for it in map("::".join, functions_of(pathlib.Path(room, "src"))) if it not in tried]
        leave_out(crate, pathlib.Path(room), tried)
        # (beside a lone edit, one more function shows that the check comes to its end)
        only = [*tried, *others[: len(tried) == 1]]
        status, lines, seconds = check(crate, room, only) if tried else (0, [], 0)
    verdicts = dict(re.findall(rf"^fn {crate.name}::(\S+): (.+)$", "\n".join(lines), re.M))
    errors = [it.removeprefix("./") for it in lines if re.match(r"\S+:\d+:\d+: error", it)]
    lost = lost_by(crate.name, status, lines, verdicts, errors, tried)
    for name, it in tried.items():
        it.judge(f"the check counts for nothing: {lost[0]}" if lost else verdicts.get(name, "no line"), errors)
    return seconds


def own_errors(function, errors):
    """The errors of a function's own proof."""
    return [it for it in errors if it.startswith(f"proofs/{function.replace('::', '/')}/")]


def lacks_an_edited(crate, name, verdicts, errors, tried):
    """Whether all that a function's proof lacks is that of others that it calls, which have an edit, or lack such a one."""
    calls = re.fullmatch(r"(?:no proof:|not proved;) it calls (`.+`), which (?:is|are) not proved", verdicts.get(name, ""))
    if not calls or own_errors(name, errors):
        return False
    lacking = [it.removeprefix(f"{crate}::") for it in re.findall(r"`(.+?)`", calls[1])]
    return all(it in tried or lacks_an_edited(crate, it, verdicts, errors, tried) for it in lacking)


def lost_by(crate, status, lines, verdicts, errors, tried):
    """Why a check says nothing of its edits: it didn't come to the prover or to its end, or not all else is proved."""
    lost = [it for it in lines if re.search(r"\berror(\[|:.*has no function)", it)]
    is_proved = lambda it: re.match(r"no holes$|depends on a hole in `", verdicts[it])
    if status not in (0, 1) or not re.fullmatch(r"only=\d+ holes=\d+", "".join(lines[-1:])):
        lost.append(f"status {status}: {' '.join(lines[-1:])}")
    others = [it for it in verdicts if it not in tried]
    lost += [f"{it} isn't proved" for it in others if not is_proved(it) and not lacks_an_edited(crate, it, verdicts, errors, tried)]
    return lost if others else lost + ["no function without an edit was checked"]


def lay_out(crate, edits, room):
    """Makes a repository of the crate with these edits, and of those below as they are built."""
    whole = [*crate.below(), crate]
    for it in whole:
        copy_sources(it, room / "crates" / it.name)
    for it in crate.below():
        made = room / "crates" / it.name / "out/rlib"
        made.mkdir(parents=True)
        (made / f"{it.name}.rlib").symlink_to(it.rlib)
    names = [it.name for it in whole]
    lines = (TOP / "crates.txt").read_text().splitlines(True)
    (room / "crates.txt").write_text("".join(it for it in lines if re.match(r"\w*", it)[0] in names))
    (room / "tmp").mkdir()
    (room / "crates" / crate.name / "must-fail").mkdir()
    for it in edits:
        shutil.copy(it.file, room / "crates" / crate.name / "must-fail")
    subprocess.run([TOP / "tools/stamp.py", room], check=True)


def try_definitions(crate, edits):
    """Tries edits of definitions, and gives the processor seconds that it took."""
    with tempfile.TemporaryDirectory(prefix=f"rt-edit-{os.getpid()}-") as name:
        room = pathlib.Path(name)
        lay_out(crate, edits, room)
        status, lines, seconds = run(["rt", "must-fail", crate.name], room, RT_JOBS="1", TMPDIR=str(room / "tmp"))
    for it in edits:
        label = f"rt: must-fail {crate.name}/{it.file.name}: "
        said = [line.removeprefix(label) for line in lines if line.startswith(label)]
        it.said = said[0] if said else f"NOT TRIED: rt must-fail ended with status {status}: {' '.join(lines[-1:])}"
        it.is_refused = it.said.startswith("refused, as it must be")
    return seconds


def find_libraries(crates):
    """Takes the libraries in out/ where all are of one build, and newer than their sources; else those of tools/build.sh."""
    below = {it.name: it for crate in crates for it in crate.below()}
    sources = {name: [at for part in rtlib.PARTS for at in pathlib.Path(it.folder, part).rglob("*")] for name, it in below.items()}
    written = {name: max(it.stat().st_mtime for it in [TOP / "crates.txt", *found]) for name, found in sources.items()}
    made = {name: pathlib.Path(it.rlib).parent for name, it in below.items()}
    is_new = lambda it: os.path.isdir(it.rlib) and made[it.name].stat().st_mtime >= max(written[other.name] for other in [it, *it.below()])
    if all(map(is_new, below.values())) and len({(it / "stamp").exists() for it in made.values()}) < 2:
        return
    subprocess.run([TOP / "tools/build.sh", *below], check=True)
    for name, it in below.items():
        it.rlib = f"{TOP}/{'.git' if (TOP / '.git').is_dir() else 'out'}/statements/{name}.rlib"


def read_edits():
    """The edits of each crate that has some, by its name."""
    found = {}
    for kind in (DEFINITIONS, BODIES):
        for file in sorted(TOP.glob(f"crates/*/{kind}/*.edit")):
            found.setdefault(file.parts[-3], []).append(Edit(file))
    return found


def sum_of(crate):
    """A checksum of all that the refusal of a crate's edits rests on.

    Of the libraries below, a proof sees contracts, types and definitions. Their files are taken whole, with bodies that it doesn't
    see: only the compiler tells these apart. Proofs of libraries don't count."""
    sum = hashlib.sha256(pathlib.Path(rtlib.KIT, "KIT-ID").read_bytes())
    for it in [*crate.below(), crate]:
        sum.update(repr((it.name, it.of_kit)).encode())
        for part in (*rtlib.PARTS, BODIES, DEFINITIONS) if it is crate else ("src", "specs"):
            for file in sorted(TOP.glob(f"crates/{it.name}/{part}/**/*.*")):
                sum.update(f"\n{file.relative_to(TOP)}\n".encode() + file.read_bytes())
    return sum.hexdigest()[:16]


def read_tried():
    """The lines of tried_edits.txt: a crate, and a sum of it whose edits were all refused."""
    return {tuple(it.split()) for it in SUMS.read_text().splitlines() if re.fullmatch(r"\w+ \w+", it)} if SUMS.exists() else set()


def choose(sums):
    """The crates that changed, and those of the others whose turn it is."""
    tried = read_tried()
    changed = [name for name, sum in sums.items() if (name, sum) not in tried]
    others = sorted({*sums} - {*changed})
    head = subprocess.run(["git", "rev-parse", "HEAD"], cwd=TOP, capture_output=True, text=True).stdout.strip()
    return changed, others[int(head, 16) % 4 :: 4] if head else others


def record(sums, refused):
    """Writes the sums of the crates whose edits were all refused. The lines of the other crates that have edits stay."""
    kept = [it for it in read_tried() if it[0] in sums and it[0] not in refused]
    lines = [f"{name} {sum}\n" for name, sum in sorted([*kept, *[(it, sums[it]) for it in refused]])]
    first = "# crate, and a sum of what its edits rest on: all were refused then (tools/wrong_bodies.py --record writes it)\n"
    SUMS.write_text(first + "".join(lines))


def checks_of(edits):
    """The checks that try a crate's edits: one for definitions, and for bodies as many as one function has."""
    yield try_definitions, [it for it in edits if it.kind == DEFINITIONS]
    left = [it for it in edits if it.kind == BODIES]
    while left:
        each = [*{it.function: it for it in reversed(left)}.values()][::-1]
        yield try_bodies, each
        left = [it for it in left if it not in each]


def try_all(crates, edits):
    """Tries the edits of these crates, side by side, and prints what came of each."""
    find_libraries(crates)
    rtlib.guarded()
    with concurrent.futures.ThreadPoolExecutor(int(os.environ.get("RT_JOBS", len(os.sched_getaffinity(0))))) as pool:
        checks = [(crate, found, how) for crate in crates for how, found in checks_of(edits[crate.name]) if found]
        ends = [pool.submit(how, crate, found) for crate, found, how in checks]
        for (crate, found, _), end in zip(checks, ends):
            print(f"{crate.name}: {len(found)} edits in {end.result():.0f} s of a processor")
            print(*[f"{it.label}: {it.said[:200]}" for it in found], sep="\n", flush=True)


def main():
    parser = argparse.ArgumentParser(description=__doc__, formatter_class=argparse.RawDescriptionHelpFormatter)
    for it in ("--all", "--record", "--list"):
        parser.add_argument(it, action="store_true")
    parser.add_argument("crates", nargs="*", metavar="CRATE")
    given = parser.parse_args()
    edits, known = read_edits(), {}
    crates = {name: rtlib.Crate(f"{TOP}/crates/{name}", str(TOP), known) for name in edits}
    sums = {name: sum_of(it) for name, it in crates.items()}
    if not edits or {*given.crates} - {*edits}:
        parser.error(f"no edits of {' '.join(it for it in given.crates if it not in edits) or 'any crate'}")
    asked = given.crates or [it for it in edits if given.all]
    changed, turn = ([], []) if asked else choose(sums)
    chosen = asked or changed + turn
    every = [it for name in chosen for it in edits[name]]
    if given.list:
        print(*[it.label for it in every], sep="\n")
        return 0
    if not asked:
        print(f"changed: {' '.join(changed) or 'no crate'}; of the others a quarter: {' '.join(turn)}", flush=True)
    try_all([crates[it] for it in chosen], edits)
    if given.record:
        record(sums, [name for name in chosen if all(it.is_refused for it in edits[name])])
    passed = sum(it.is_refused for it in every)
    print(f"{passed} passed, {len(every) - passed} failed")
    return int(passed < len(every))


if __name__ == "__main__":
    sys.exit(main())
