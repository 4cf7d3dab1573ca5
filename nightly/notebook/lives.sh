#!/usr/bin/env bash
# lives.sh EXAMPLES BUILD [SECONDS [CLIENTS]]    connections that come, watch, open pages, are told of notes, and go, CLIENTS (950) of them at a
#                                                time: for SECONDS (3,600) with the notebook of the program EXAMPLES, and in the first sixth
#                                                with one over the reference library too. lives.cpp says what must hold. Each 60th of that time
#                                                the server's memory and descriptors are noted, which must stay level
set -eu
examples=$1 seconds=${3:-3600} clients=${4:-950} # (the example takes 1,000 at once, and some that went are still there)
mkdir -p "$2"
build=$(cd "$2" && pwd)
here=$(cd "$(dirname "${BASH_SOURCE[0]}")" && pwd)
. "$here/../begin.sh"
make -s -C "$here" BUILD="$build"
pid='' client=''
ulimit -n "$((2 * clients + 100))" # (some that went aren't closed yet)

descriptors() { ls "/proc/$pid/fd" | wc -l; }

most() { sort -n | tail -n 1; }

# Buffers grow at first to what they need, and so the first quarter says nothing. How the reference's server grows is told alone.
expect_level() { # NAME
    local before after
    before=$(sed -n 16,30p "$build/$1.kept" | cut -d' ' -f1 | most) after=$(sed -n 31,60p "$build/$1.kept" | cut -d' ' -f1 | most)
    [ "$after" -le "$((before + before / 10 + 256))" ] || [ "$1" != our ] || { echo "$1 server: from $before to $after kB" >&2; return 1; }
    echo "$1 server: $(tail -n 1 "$build/$1.lives"); at most $before kB in the second quarter of the time and $after in the second half," \
        "$(cut -d' ' -f2 "$build/$1.kept" | most) descriptors, $(awk '{ print ($14 + $15) / 100 }' "/proc/$pid/stat") s of processor time"
}

play() ( # NAME PORT SECONDS COMMAND..
    trap 'kill $pid $client 2>/dev/null || true' EXIT
    begin "$2" "${@:4}" >"$build/$1.served"
    idle=$(descriptors)
    "$build/lives" "127.0.0.1:$2" "$clients" "$3" >"$build/$1.lives" 2>&1 & client=$!
    while kill -0 "$client" 2>/dev/null; do
        echo "$(memory "$pid") $(descriptors)"
        sleep "$(($3 * 1000 / 60))e-3"
    done >"$build/$1.kept"
    wait "$client" || { tail -n 3 "$build/$1.lives" >&2; exit 1; }
    for pause in $(seq 100); do [ "$(descriptors)" -gt "$idle" ] || break; sleep 0.1; done
    [ "$(descriptors)" = "$idle" ] || { echo "$1 server: $(descriptors) descriptors, not $idle" >&2; exit 1; }
    expect_level "$1"
)

play C++ 7002 "$((seconds / 6))" "$build/server" 127.0.0.1:7002 & theirs=$!
play our 7001 "$seconds" "$examples" server # (its port is that of the example)
wait "$theirs"
