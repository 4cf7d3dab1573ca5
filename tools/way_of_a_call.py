#!/usr/bin/env python3
"""tools/way_of_a_call.py [--list]    counts the functions that a typed call passes at its server, from the socket to the method and back.

Compiles the examples without proofs and without optimisation, so that each function of the sources stays one, and serves the notebook of
notebook_server under callgrind (Debian package valgrind): once for a few calls of `add`, and once for one more, each after the answer to the
one before. What ran more often is the way of a call. It prints how many functions of this repository that are and of how many crates, then those
of std and its ports, and then each crate with its functions and how often these ran. --list prints each function. An instance of a generic
function counts as that function, and what drops a value as one for each type.
"""
import collections
import os
import re
import subprocess
import sys
import tempfile

sys.dont_write_bytecode = True
sys.path.append(os.path.dirname(os.path.realpath(__file__)))
import unproved

PROGRAM = "more_examples"
TURNS = "net_host::host::SessionHost::next*"  # what runs in it is counted
CALLS = 4


def bare_kit(at):
    """Makes a kit of links that leaves out the address sanitizer, which doesn't run under valgrind."""
    for folder, left_out in (("", ("c", "toolchain")), ("/c", ("asan.a",)), ("/toolchain", ("bin",)), ("/toolchain/bin", ("clang",))):
        os.makedirs(at + folder)
        for it in os.listdir(unproved.KIT + folder):
            if it not in left_out:
                os.symlink(f"{unproved.KIT}{folder}/{it}", f"{at}{folder}/{it}")
    with open(f"{at}/c/asan.a", "w") as it:
        it.write("!<arch>\n")
    clang = f"{at}/toolchain/bin/clang"
    with open(clang, "w") as it:
        it.write('#!/bin/bash\nfor it; do shift; [ "$it" = -fsanitize=address ] || set -- "$@" "$it"; done\n')
        it.write(f'exec "{unproved.KIT}/toolchain/bin/clang" "$@"\n')
    os.chmod(clang, 0o755)
    return at


def counted(program, calls, folder):
    """What so many calls run: the functions, with how often each was called."""
    words = ["valgrind", "--tool=callgrind", f"--callgrind-out-file={folder}/way", "--compress-strings=no", "--compress-pos=no", f"--toggle-collect={TURNS}"]
    it = subprocess.run([*words, *unproved.LOADER, program, "way", str(calls)], capture_output=True, text=True)
    assert it.returncode == 0, it.stderr
    return calls_of(f"{folder}/way")


def calls_of(file):
    """The functions of a dump, with how often each was called."""
    calls, callee = collections.Counter(), None
    for line in open(file, errors="replace"):
        if line.startswith("cfn="):
            callee = re.sub(r"::<.*", "", line[4:].strip())
        elif line.startswith("calls="):
            calls[callee] += int(line[6:].split()[0])
    return calls


def main(words):
    unproved.KEPT = f"{unproved.TOP}/out/way"
    with tempfile.TemporaryDirectory() as folder:
        unproved.KIT = bare_kit(f"{folder}/kit")
        # Of its names valgrind needs the symbols alone, and it can't read the newest form of the others.
        subprocess.run(["objcopy", "--strip-debug", unproved.compiled(PROGRAM), f"{folder}/program"], check=True)
        fewer, more = (counted(f"{folder}/program", it, folder) for it in (CALLS, CALLS + 1))
        calls = more - fewer
    own, others = collections.defaultdict(dict), collections.defaultdict(dict)
    for function, count in calls.items():
        crate = function.split("::")[0]
        (own if crate in unproved.uses() else others)[crate][function] = count
    for what, group in (("functions of this repository", own), ("functions of others", others)):
        print(f"{sum(map(len, group.values()))} {what} in {len(group)} crates, called {sum(sum(it.values()) for it in group.values())} times")
    for crate, functions in sorted(own.items(), key=lambda it: -len(it[1])):
        print(f"{crate:20} {len(functions):4} {sum(functions.values()):6}")
        if "--list" in words:
            for function, count in sorted(functions.items()):
                print(f"    {count:6} {function}")


if __name__ == "__main__":
    main(sys.argv[1:])
