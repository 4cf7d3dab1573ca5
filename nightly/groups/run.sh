#!/usr/bin/env bash
# run.sh EXAMPLES FOLDER    whether the example `shapes` of the program EXAMPLES (more_examples, built) prints what the reference library does,
#                           for which shapes.cpp is compiled in FOLDER
set -eu
here=$(cd "$(dirname "${BASH_SOURCE[0]}")" && pwd)
examples=$1 folder=$2
mkdir -p "$folder"
cp "$here/../../tests/shapes/shapes.capnp" "$folder/"
cd "$folder"
capnp compile -oc++ shapes.capnp
g++ -std=c++14 -I. "$here/shapes.cpp" shapes.capnp.c++ -lcapnp -lkj -o shapes
"$examples" shapes >ours.txt
./shapes >theirs.txt
diff theirs.txt ours.txt
