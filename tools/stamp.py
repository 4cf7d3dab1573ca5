#!/usr/bin/env python3
"""stamp.py FOLDER    has rt take the libraries that lie built in this repository: it makes anew each that has no stamp of its sources.

They are built over each other's statements. rt gives such libraries no stamp, since one that it makes anew may not fit those above;
here all are of the same build."""

import os
import shutil
import sys

sys.path.insert(0, os.path.dirname(os.path.realpath(shutil.which("rt") or sys.exit("rt isn't in PATH"))))
import rtlib

root = os.path.realpath(sys.argv[1])
known = {}
for name in sorted(os.listdir(f"{root}/crates")):
    folder = f"{root}/crates/{name}"
    if os.path.isdir(f"{folder}/out/rlib/{name}.rlib"):
        crate = known.get(folder) or rtlib.Crate(folder, root, known)
        with open(f"{folder}/out/rlib/stamp", "w", encoding="utf-8") as stamp:
            stamp.write(crate.stamp())
