#!/usr/bin/env bash
# run.sh EXAMPLES BUILD [SILENT]    the chat room of the program EXAMPLES (more_examples, built) over TCP: SILENT members (999, as the host takes 1,000
#                                   connections) by the reference library that say nothing, and one that talks. All must hear it.
set -eu
examples=$1 silent=${3:-999}
mkdir -p "$2"
build=$(cd "$2" && pwd)
here=$(cd "$(dirname "${BASH_SOURCE[0]}")" && pwd)
. "$here/../begin.sh"
make -s -C "$here" BUILD="$build"
ulimit -n 4096
pid=''
trap 'kill $pid 2>/dev/null || true' EXIT
begin 7002 "$examples" chat
timeout 300 "$build/client" 7002 "$silent" 20
