#!/usr/bin/env bash
# run.sh COMMAND BUILD [SECONDS [AT-ONCE [RATE [SEED]]]]    `COMMAND serve` with AT-ONCE connections that come and go for some SECONDS and send RATE
#                                                           messages a second (60, 1,000, 8,000), each for some 20 seconds: load.cpp says what must
#                                                           hold. Then the status and the lines of the server: one for each connection that it
#                                                           didn't serve to its end, and no other. Before it 10 seconds with none of these
set -eu
command=$1 build=$2 seconds=${3:-60} at_once=${4:-1000} rate=${5:-8000} seed=${6:-1}
port=${PORT:-17240}
here=$(cd "$(dirname "${BASH_SOURCE[0]}")" && pwd)
. "$here/../begin.sh"
make -s -C "$here" BUILD="$build"
ulimit -n "$((at_once + 100))"

serve() { # SECONDS AT-ONCE RATE [quiet]    leaves its status in $status, and what it said, sorted, in said
    local count=$(($1 * $2 / 20))
    begin "$port" "$command" serve --at-once "$2" --idle 40 "$port" "$count" 2>"$build/stderr"
    "$build/load" "$port" "$pid" "$count" "$1" "$2" "$3" "$seed" "$build/lines" "${@:4}" || { kill "$pid"; exit 1; }
    status=0
    wait "$pid" || status=$?
    tail -n +2 "$build/stderr" >"$build/unsorted"
    sort "$build/unsorted" >"$build/said"
}

serve 10 "$((at_once / 5))" "$((rate / 5))" quiet
if [ "$status" != 0 ] || [ -s "$build/said" ]; then
    echo "each connection was served to its end, and its status is $status" >&2
    exit 1
fi

serve "$seconds" "$at_once" "$rate"
sort "$build/lines" >"$build/must"
sort "$build/lines.may" >"$build/may"
comm -13 "$build/said" "$build/must" >"$build/missing"
comm -23 "$build/said" "$build/must" | comm -23 - "$build/may" >"$build/more"
[[ $(head -n 1 "$build/unsorted") == device* ]] && wanted=2 || wanted=1
if [ -s "$build/missing" ] || [ -s "$build/more" ] || [ "$status" != "$wanted" ]; then
    echo "lines that are missing: $(wc -l <"$build/missing"), that are too many: $(wc -l <"$build/more"); status $status for $wanted" >&2
    head -n 3 "$build/missing" "$build/more" >&2
    exit 1
fi
sed 's/ (peer.*//; s/byte [0-9][0-9]*/byte N/' "$build/said" | sort | uniq -c | sort -rn
echo "$(wc -l <"$build/must") lines that it was to say were said, and $(($(wc -l <"$build/said") - $(wc -l <"$build/must"))) more of those that were closed with answers outstanding"
