#!/usr/bin/env bash
# run.sh EXAMPLES BUILD [JOBS]    the queue of jobs of the program EXAMPLES (more_examples, built) over TCP, with clients and workers over the
#                                 reference library and its own: outputs, a worker that dies, one that drops its task, one that gives its call
#                                 up; then JOBS jobs (10,000) by 16 workers, twice, with level memory.
set -eu
examples=$1 jobs=${3:-10000} port=7003
mkdir -p "$2"
build=$(cd "$2" && pwd)
here=$(cd "$(dirname "${BASH_SOURCE[0]}")" && pwd)
. "$here/../begin.sh"
make -s -C "$here" BUILD="$build"
client=$build/client
pid='' started=()
trap 'kill $pid ${started[@]+"${started[@]}"} 2>/dev/null || true' EXIT

fail() { echo "$*" >&2; exit 1; }
expect() { [ "$1" = "$2" ] || fail "$3: $1, not $2"; } # CAME WANTED WHAT
behind() { "$@" & started+=($!); } # COMMAND..
said() { # FILE    waits until a line is there
    local pause
    for pause in $(seq 200); do [ ! -s "$1" ] || return 0; sleep 0.05; done
    fail "nothing is in $1"
}

begin "$port" "$examples" jobs
serving=$pid

behind timeout 60 "$client" work "$port" 2
expect "$(timeout 20 "$client" submit "$port" stressed level)" $'desserts\nlevel' 'both C++'
behind timeout 60 "$client" work "$port" 1
expect "$(timeout 20 "$examples" job stressed)" desserts 'a C++ worker'

behind timeout 60 "$client" submit "$port" one >"$build/one"
behind "$client" die "$port" >"$build/dying"
said "$build/dying"
kill -KILL "${started[-1]}"
expect "$(timeout 20 "$client" drop "$port")" $'one\none' 'a task that was dropped, after a worker that died'
said "$build/one"
expect "$(cat "$build/one")" eno 'its output'

behind timeout 60 "$client" give-up "$port" >"$build/idle"
said "$build/idle"
behind timeout 600 "$examples" job
expect "$(timeout 20 "$client" submit "$port" two)" owt 'our worker, where another one gave up'
kill "${started[-1]}"

timeout 300 "$client" many "$port" 16 "$jobs" >"$build/many"
before=$(memory "$serving")
timeout 300 "$client" many "$port" 16 "$jobs" >"$build/many"
after=$(memory "$serving")
right=$(grep -oE '^[0-9]+' "$build/many")
expect "$right" "$((jobs - jobs / 10))" 'outputs that were right'
[ "$after" -le "$((before + before / 10 + 256))" ] || fail "from $before to $after kB"
echo "jobs of C++ and our clients by workers of both; $(cat "$build/many"); $before to $after kB"
