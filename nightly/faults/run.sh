#!/usr/bin/env bash
# run.sh COMMAND BUILD [TRIAL [SESSION..]]    sessions of COMMAND with faults of its memory, its system calls, its peers and its disk, and with signals:
#                                             all trials of faults.py, or this one, of all sessions, or of these
set -eu
command=$1 build=$2
here=$(cd "$(dirname "${BASH_SOURCE[0]}")" && pwd)
mkdir -p "$build"
cc -O1 -shared -fPIC -o "$build/refuse.so" "$here/../memory/refuse.c" -ldl
cc -O1 -shared -fPIC -o "$build/device.so" "$here/device.c" -ldl
(cd "$here/.." && capnp compile -o- peers/desk.capnp) >"$build/desk.request"
printf 'allow %s\n' Desk.now Desk.later Desk.never Cell.add Cell.get >"$build/rules"
python3 "$here/faults.py" "$command" "$build" "${@:3}"
