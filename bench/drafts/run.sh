#!/usr/bin/env bash
# run.sh FOLDER    what it takes to build an address book of 1,000 people by generated drafts, and to write its frame, beside the
#                  reference library: nanoseconds a person. FOLDER, outside the repository, gets the programs.
#
# The program of ours is in src/, proved and built over the libraries as they are built: two minutes at first.
set -eu
. "$(dirname "${BASH_SOURCE[0]}")/../../tools/crates.sh"
here=$(cd "$(dirname "${BASH_SOURCE[0]}")" && pwd)
mkdir -p "$1" && folder=$(cd "$1" && pwd)

theirs() {
    capnp compile -oc++:"$folder" --src-prefix="$root/crates/addressbook" "$root/crates/addressbook/addressbook.capnp"
    g++ -std=c++17 -O3 -Wall -I"$folder" -o "$folder/reference" "$here/reference.cpp" "$folder/addressbook.capnp.c++" -lcapnp -lkj
    "$folder/reference"
}

build_beside "$folder" "$here" time_drafts "cp_words cp_tree cp_writing cp_packed cp_frame cp_fields cp_builder addressbook anyhow" >"$folder/said" 2>&1 ||
    { tail -n 20 "$folder/said" >&2; exit 1; }
"$folder/time_drafts"
theirs
