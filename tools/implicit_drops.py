#!/usr/bin/env python3
"""tools/implicit_drops.py [--most N] CRATE..

Lists the functions of these libraries that let a value with memory go where nobody wrote it: at the end of its scope,
at a `?`, or under an assignment. There the proof opens the value up, field by field, at each exit; `drop(value)` is a
call and costs next to nothing. A line has the number of such places in the compiled function, and its name, most first.
The libraries have to be built: tools/build.sh CRATE. With --most N, status 1 where a function has more than N.
"""
import argparse
import collections
import glob
import json
import os
import sys

WRITTEN = "core::mem::drop"


def called(step):
    """The name of the function that a step calls, if it calls one by its name."""
    if not isinstance(step, dict) or "Call" not in step:
        return ""
    callee = step["Call"][0]
    return callee["Fn"][0] if isinstance(callee, dict) and "Fn" in callee else ""


def implicit_drops(library):
    """How often each function lets go of memory by no call of `drop`."""
    with open(f"{library}/toolchain/mir.json") as it:
        functions = json.load(it)
    found = collections.Counter()
    for name, function in functions:
        names = [called(step) for step in function["body"]]
        found[name] = sum(it.endswith("::drop") and it != WRITTEN for it in names)
    return +found


def main():
    parser = argparse.ArgumentParser(description=__doc__, formatter_class=argparse.RawDescriptionHelpFormatter)
    parser.add_argument("--most", type=int)
    parser.add_argument("crates", nargs="+", metavar="CRATE")
    given = parser.parse_args()
    top = os.path.dirname(os.path.dirname(os.path.abspath(__file__)))
    is_over = False
    for crate in given.crates:
        places = f"{top}/crates/{crate}/out/*", f"{top}/.git/statements", f"{top}/out/statements"
        libraries = [it for place in places for it in glob.glob(f"{place}/{crate}.rlib")]
        if not libraries:
            sys.exit(f"{crate} isn't built, or is no library: tools/build.sh {crate}")
        found = implicit_drops(max(libraries, key=os.path.getmtime))
        for name, number in found.most_common():
            print(f"{number:5} {name}")
        print(f"{sum(found.values()):5} in {len(found)} functions of {crate}")
        is_over |= given.most is not None and max(found.values(), default=0) > given.most
    return int(is_over)


if __name__ == "__main__":
    sys.exit(main())
